//! The example that people copy, run as a program. `cargo test` builds it; to run this file alone, build
//! it first: `cargo build --release --example rule`.

use std::env;
use std::fs::OpenOptions;
use std::io::Write;
use std::path::PathBuf;
use std::process::{Command, Output, Stdio};

/// Beside the folder of this test.
fn program() -> PathBuf {
    let test = env::current_exe().unwrap();
    let folder = test.ancestors().nth(2).unwrap();
    folder.join("examples/rule")
}

fn run(text: impl AsRef<[u8]>) -> (Option<i32>, String, String) {
    run_into(text.as_ref(), &[], Stdio::piped())
}

/// With the lists of a file.
fn run_with(lists: &str, text: impl AsRef<[u8]>) -> (Option<i32>, String, String) {
    run_into(text.as_ref(), &[lists], Stdio::piped())
}

fn run_into(text: &[u8], words: &[&str], out: Stdio) -> (Option<i32>, String, String) {
    let program = program();
    assert!(program.is_file(), "no {}: build the example `rule` first", program.display());
    let mut child = Command::new(program)
        .args(words)
        .stdin(Stdio::piped())
        .stdout(out)
        .stderr(Stdio::piped())
        .spawn()
        .unwrap();
    // Where the lists are refused it is not read.
    let _ = child.stdin.take().unwrap().write_all(text);
    let Output { status, stdout, stderr } = child.wait_with_output().unwrap();
    let words = |bytes| String::from_utf8(bytes).unwrap();
    (status.code(), words(stdout), words(stderr))
}

#[test]
fn a_text_is_keyed() {
    let (status, out, said) = run("/* a */x = 1; // é\n");
    assert_eq!((status, said.as_str()), (Some(0), ""));
    let mut lines = out.lines();
    assert_eq!(lines.next(), Some("key: \\nx\\n=\\n1;\\n"));
    assert_eq!(lines.clone().count(), 10);
    assert_eq!(lines.nth(1), Some("Ident, length 1, start 7, line 0"));
    // The first line is line 0, and a comment that goes on over its end is in it.
    let (status, out, said) = run("/* a\n */ x\n\ny");
    assert_eq!((status, said.as_str()), (Some(0), ""));
    for token in [
        "BlockComment { doc_style: None, terminated: true }, length 8, start 0, line 0",
        "Ident, length 1, start 9, line 1",
        "Ident, length 1, start 12, line 3",
    ] {
        assert!(out.lines().any(|line| line == token), "{out}");
    }
}

/// As source the comment would begin in the first line, and these two would have one key.
#[test]
fn a_shebang_hides_nothing() {
    for limit in ["5", "9"] {
        let (status, out, said) = run(format!("#!/usr/*/run\nx = {limit}; // */\n"));
        assert_eq!((status, said.as_str()), (Some(0), ""));
        assert_eq!(out.lines().next(), Some(format!("key: \\nx\\n=\\n{limit};\\n").as_str()));
    }
}

/// With empty lists these two would have one key.
#[test]
fn a_text_that_needs_lists_is_not() {
    for text in ["f!('é \"' // limit 5\");", "f!('é \"' // limit 9\");"] {
        let (status, out, said) = run(text);
        assert_eq!((status, out.as_str()), (Some(1), ""));
        assert!(said.starts_with("not keyed: at byte 4 "), "{said}");
        assert!(said.contains("lend Unicode's lists"), "{said}");
    }
    // Of ASCII, it has a key that tells them apart.
    let (five, nine) = (run("f!('e \"' // limit 5\");"), run("f!('e \"' // limit 9\");"));
    assert_eq!((five.0, nine.0), (Some(0), Some(0)));
    assert_ne!(five.1.lines().next(), nine.1.lines().next());
}

const LISTS: &str = concat!(env!("CARGO_MANIFEST_DIR"), "/../../data/unicode-15.0.0.lists");

/// With lists they have two, and a letter that is newer than the lists is as one past ASCII without.
#[test]
fn with_lists_it_is() {
    for limit in ["5", "9"] {
        let (status, out, said) = run_with(LISTS, format!("f!('é \"' // limit {limit}\");"));
        assert_eq!((status, said.as_str()), (Some(0), ""));
        let key = format!("key: f!(\\'\\xc3\\xa9\\n\\\"\\' // limit {limit}\\\");");
        assert_eq!(out.lines().next(), Some(key.as_str()));
        assert!(
            out.contains("\nLifetime { starts_with_number: false }, length 3, start 3, line 0\n"),
            "{out}"
        );
    }
    let (status, out, said) = run_with(LISTS, "f!('\u{1c89} \"' // limit 5\");");
    assert_eq!((status, out.as_str()), (Some(1), ""));
    assert!(said.starts_with("not keyed: at byte 4 "), "{said}");
    assert!(said.ends_with("; lend newer lists\n"), "{said}");
}

#[test]
fn lists_that_cannot_be_read_are_told() {
    let (status, out, said) = run_with("no such file", "a");
    assert_eq!((status, out.as_str()), (Some(2), ""));
    assert!(said.starts_with("no lists from no such file: "), "{said}");
    let here = concat!(env!("CARGO_MANIFEST_DIR"), "/tests/example.rs");
    let (status, out, said) = run_with(here, "a");
    assert_eq!((status, out.as_str()), (Some(2), ""));
    assert!(said.starts_with(&format!("no lists from {here}: refusal 9: line 0 ")), "{said}");
}

#[test]
fn a_refusal_is_explained() {
    let (status, out, said) = run("let unit = \"mg;\n");
    assert_eq!((status, out.as_str()), (Some(1), ""));
    assert!(said.starts_with("refusal 6: ") && said.contains("begins at byte 11 "), "{said}");
    let (status, out, said) = run("let a = 1;\r\r\n");
    assert_eq!((status, out.as_str()), (Some(1), ""));
    assert!(said.starts_with("refusal 10: ") && said.contains(" at byte 10 "), "{said}");
}

/// A mark is told by its name and never printed, whatever else is wrong with the text and whatever the lists are.
#[test]
fn a_hidden_mark_is_explained() {
    for (text, at, name) in [
        ("x = 5; // \u{202e}", 10, "U+202E RIGHT-TO-LEFT OVERRIDE"),
        ("x = \"\u{2066}5\u{2069}\";", 5, "U+2066 LEFT-TO-RIGHT ISOLATE"),
        // Outside of comments and strings a mark is a token that lists may judge; no lists mend it.
        ("a\u{202a}b", 1, "U+202A LEFT-TO-RIGHT EMBEDDING"),
        ("'\u{1c89} \"' // limit 5\u{2069}\"", 18, "U+2069 POP DIRECTIONAL ISOLATE"),
        ("r#\u{1c89}\u{2067}", 5, "U+2067 RIGHT-TO-LEFT ISOLATE"),
        // Before a broken token; with CR LF, the place in the text as it is.
        ("a;\r\nb = \"\u{202d}", 9, "U+202D LEFT-TO-RIGHT OVERRIDE"),
        // Blanks in the place of a shebang do not hide it.
        ("#!/bin/\u{202c}run\nx = 5;\n", 7, "U+202C POP DIRECTIONAL FORMATTING"),
    ] {
        for (status, out, said) in [run(text), run_with(LISTS, text)] {
            assert_eq!((status, out.as_str()), (Some(1), ""));
            assert!(said.starts_with("refusal 11: "), "{said:?}");
            assert!(said.contains(&format!(" at byte {at} (counted from 0) ")), "{said:?}");
            assert!(said.ends_with(&format!("\nthe mark is {name}\n")), "{said:?}");
            assert!(said.is_ascii(), "{said:?}");
        }
    }
    // CR CR LF is told before it, and likewise; a text that is not UTF-8 is told before both.
    for (text, start) in [
        (&b"\xe2\x80\xae\xc3\xa9\r\r\n"[..], "refusal 10: "),
        (b"#!\r\r\n\xe2\x80\xae\xc3\xa9", "refusal 10: "),
        (b"\xe2\x80\xae\r\r\n\xff", "refusal 2: "),
    ] {
        let (status, out, said) = run(text);
        assert_eq!((status, out.as_str()), (Some(1), ""));
        assert!(said.starts_with(start) && said.lines().count() == 1, "{said:?}");
    }
}

/// A text with CR LF line ends has the key of its twin; its tokens are those of the text as it is.
#[test]
fn line_ends_change_no_key() {
    for (text, string) in [("/// a\nb = \"\n\";\n", 3), ("/// a\r\nb = \"\r\n\";\r\n", 4)] {
        let (status, out, said) = run(text);
        assert_eq!((status, said.as_str()), (Some(0), ""));
        let key = "key: /// a\\nb\\n=\\n\\\"\\n\\\";\\n";
        assert_eq!(out.lines().next(), Some(key));
        assert!(out.contains(&format!(
            "terminated: true }}, suffix_start: {string} }}, length {string}, "
        )));
    }
}

#[test]
fn it_is_said_why_a_text_is_not_utf8() {
    for (text, cause) in [
        (&b"x = 5; // \xb5g"[..], "no character begins with this byte"),
        (b"x = 5; // \xc2", "the text ends inside a character"),
        (b"x = 5; // \xe9tage", "a character begins, and a later byte of it is wrong"),
    ] {
        let (status, out, said) = run(text);
        assert_eq!((status, out.as_str()), (Some(1), ""));
        let start = "refusal 2: the text is not UTF-8 from byte 10 on (counted from 0): ";
        assert!(said.starts_with(&format!("{start}{cause}; ")), "{said}");
    }
}

/// A key that is not written whole has no good status.
#[test]
fn a_full_disk_is_told() {
    let full = OpenOptions::new().write(true).open("/dev/full").unwrap();
    let (status, _, said) = run_into(b"a", &[], full.into());
    assert_eq!(status, Some(2));
    assert!(said.starts_with("standard output cannot be written"), "{said}");
}
