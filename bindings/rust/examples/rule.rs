//! The key and the tokens of standard input, or why it has none.
//!
//!     cargo run --release --manifest-path bindings/rust/Cargo.toml --example rule -- [LISTS] <rule.rs
//!
//! LISTS is a file of Unicode lists, such as data/unicode-15.0.0.lists; without it the lists are empty.
//! The status is 0 where it is done, 1 where there is no key, 2 where lists, input or output fail.

use std::fmt::Write as _;
use std::io::{self, Read, Write};
use std::process::ExitCode;
use std::{env, fs};

use lovemudarn::{
    Cursor, FrontmatterAllowed, Lists, LoadedLists, Refusal, Token, key, mark_name,
    needs_newer_lists, strip_shebang,
};

fn main() -> ExitCode {
    let mut loaded = LoadedLists::default(); // empty
    if let Some(name) = env::args_os().nth(1) {
        let file = fs::read(&name).map_err(|error| error.to_string());
        match file.and_then(|file| Lists::parse(file).map_err(|refusal| refusal.to_string())) {
            Ok(lists) => loaded = lists,
            Err(why) => {
                eprintln!("no lists from {}: {why}", name.display());
                return ExitCode::from(2);
            }
        }
    }
    let lists = loaded.lists();
    let mut text = Vec::new();
    if let Err(error) = io::stdin().read_to_end(&mut text) {
        eprintln!("standard input cannot be read: {error}");
        return ExitCode::from(2);
    }
    // CR CR LF and hidden direction marks are told first, in a shebang too: no lists help there. A mark is told
    // by its name, for the mark itself would change how the line is shown.
    if let Err(refusal @ (Refusal::DoubleReturn { at } | Refusal::HiddenMark { at })) =
        key(&text, &lists)
    {
        let status = refused(refusal);
        if let Some(name) = mark_name(&text, at) {
            eprintln!("the mark is {name}");
        }
        return status;
    }
    // rustc takes a shebang away before it looks for tokens: a comment or a string that seems to begin in
    // one would hide rules. Blanks in its place keep every position.
    match strip_shebang(&text) {
        Ok(end) => text.iter_mut().take(end.unwrap_or(0)).for_each(|byte| *byte = b' '),
        Err(refusal) => return refused(refusal),
    }
    // Where a letter is in no list, TWO RULES THAT DIFFER MAY HAVE ONE KEY: see `Lists::EMPTY`. With empty
    // lists that is every letter past ASCII, with others each that is newer than they are. So a text is keyed
    // only where lists that hold more would change nothing.
    match needs_newer_lists(&text, &lists) {
        Ok(None) => {}
        Ok(Some(at)) => {
            let lend = if lists == Lists::EMPTY { "Unicode's" } else { "newer" };
            eprintln!(
                "not keyed: at byte {at} (counted from 0) a character past ASCII stands outside of comments \
                 and strings, and the lists do not tell what it is; lend {lend} lists"
            );
            return ExitCode::from(1);
        }
        Err(refusal) => return refused(refusal),
    }
    match answers(&text, &lists) {
        Ok((key, tokens)) => printed(&key, &tokens),
        Err(refusal) => refused(refusal),
    }
}

fn answers(text: &[u8], lists: &Lists) -> Result<(Vec<u8>, Vec<Token>), Refusal> {
    let key = key(text, lists)?;
    let mut cursor = Cursor::new(text, FrontmatterAllowed::No, lists)?;
    let mut tokens = Vec::new();
    while let Some(token) = cursor.try_advance_token()? {
        tokens.push(token);
    }
    Ok((key, tokens))
}

fn printed(key: &[u8], tokens: &[Token]) -> ExitCode {
    let mut lines = format!("key: {}\n", key.escape_ascii());
    for Token { kind, len, start, line } in tokens {
        // Nothing fails in a string. The first line is line 0, as in the records.
        let _ = writeln!(lines, "{kind:?}, length {len}, start {start}, line {line}");
    }
    // A part of a key is no key: what was not written whole is told.
    let mut out = io::stdout().lock();
    match out.write_all(lines.as_bytes()).and_then(|()| out.flush()) {
        Ok(()) => ExitCode::SUCCESS,
        Err(error) => {
            eprintln!("standard output cannot be written: {error}");
            ExitCode::from(2)
        }
    }
}

fn refused(refusal: Refusal) -> ExitCode {
    eprintln!("{refusal}");
    ExitCode::from(1)
}
