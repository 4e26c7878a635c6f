//! Says where the archive is, `liblovemudarn.a`: in the folder that LOVEMUDARN_ARCHIVE names, or else in the
//! one in which the repository keeps it. An archive that is missing, is none or is for another kind of machine
//! is reported here, with what to do; a linker would only tell of names that it did not find.

use std::env;
use std::fs;
use std::path::{Path, PathBuf};

const MAKE: &str = "tools/native-archive exports target/archive/liblovemudarn.a";

/// What the archive is for: the machine in the head of its first object, by Rust's name for it.
///
/// An archive is a mark, and then its members, each with a head of 60 bytes that has the length of the member
/// at 48; the first may be a table of names. An object has its machine at 18.
fn machine(archive: &[u8]) -> Result<String, &'static str> {
    let Some(mut rest) = archive.strip_prefix(b"!<arch>\n") else {
        return Err("is no archive");
    };
    while let Some((head, after)) = rest.split_at_checked(60) {
        let length = head.get(48..58).and_then(|field| std::str::from_utf8(field).ok());
        let Some(length) = length.and_then(|field| field.trim_end().parse::<usize>().ok()) else {
            return Err("is a damaged archive");
        };
        if let [0x7F, b'E', b'L', b'F', ..] = after {
            return match (after.get(18), after.get(19)) {
                (Some(0x3E), Some(0)) => Ok("x86_64".to_string()),
                (Some(0xB7), Some(0)) => Ok("aarch64".to_string()),
                (Some(low), Some(high)) => {
                    Ok(format!("machine {}", u16::from_le_bytes([*low, *high])))
                }
                _ => Err("is a damaged archive"),
            };
        }
        let Some(next) = length.checked_add(length % 2).and_then(|step| after.get(step..)) else {
            break;
        };
        rest = next;
    }
    Err("is an archive without an object")
}

/// What is wrong with the archive, and what to do; nothing where it can be linked.
fn fault(archive: &Path, target: &str, system: &str) -> Option<String> {
    let name = archive.display();
    let again = format!("`{MAKE}`, in the repository, makes it");
    if system != "linux" {
        return Some(format!("the archive is for Linux, and this crate is built for {system}"));
    }
    // cargo runs this file in one folder and the linker in another, and the caller stood in a third
    if archive.is_relative() {
        return Some(format!(
            "LOVEMUDARN_ARCHIVE has to be a path from the root on: {name} is none"
        ));
    }
    let Ok(bytes) = fs::read(archive) else {
        return Some(format!(
            "there is no {name} that can be read: {again}; LOVEMUDARN_ARCHIVE names another folder for it"
        ));
    };
    match machine(&bytes) {
        Ok(found) if found == target => None,
        Ok(found) => Some(format!(
            "{name} is for {found}, and this crate is built for {target}: `{MAKE} {target}`, in the repository, makes one for {target}"
        )),
        Err(why) => Some(format!("{name} {why}: {again}")),
    }
}

fn main() {
    println!("cargo::rerun-if-env-changed=LOVEMUDARN_ARCHIVE");
    let named = env::var_os("LOVEMUDARN_ARCHIVE").filter(|folder| !folder.is_empty());
    let folder = match (named, env::var_os("CARGO_MANIFEST_DIR")) {
        (Some(folder), _) => PathBuf::from(folder),
        (None, Some(here)) => PathBuf::from(here).join("../../target/archive"),
        (None, None) => PathBuf::from("../../target/archive"),
    };
    let archive = folder.join("liblovemudarn.a");
    println!("cargo::rerun-if-changed={}", archive.display());
    let target = env::var("CARGO_CFG_TARGET_ARCH").unwrap_or_default();
    let system = env::var("CARGO_CFG_TARGET_OS").unwrap_or_default();
    if let Some(fault) = fault(&archive, &target, &system) {
        println!("cargo::error={fault}");
    }
    println!("cargo::rustc-link-search=native={}", folder.display());
    println!("cargo::rustc-link-lib=static=lovemudarn");
}
