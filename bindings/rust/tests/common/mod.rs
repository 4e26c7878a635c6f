//! Texts that are not UTF-8: what Rust's own library says of them, and that every call says so.

use std::str::from_utf8;

use lovemudarn::{
    Cause, Cursor, FrontmatterAllowed, Lists, NUMBERS_OF_A_TOKEN, Record, Refusal, advance_token,
    check, guarded_double_quoted_string, is_ident, key, key_into, needs_lists, needs_newer_lists,
    strip_shebang, tokenize, tokenize_into, tokens_from, validate_raw_str,
};

/// The refusal of a text by Rust's own library alone; `None` where the text is UTF-8.
///
/// Its error tells an end that comes too soon from a wrong byte. Where a byte is wrong, the first byte
/// is tried alone: one that can start a sequence then ends too soon.
pub fn by_rust(text: &[u8]) -> Option<Refusal> {
    let error = from_utf8(text).err()?;
    let at = error.valid_up_to();
    let starts = |first| from_utf8(first).is_err_and(|error| error.error_len().is_none());
    let cause = match error.error_len() {
        None => Cause::Cut,
        Some(_) if starts(&text[at..at + 1]) => Cause::Follow,
        Some(_) => Cause::Start,
    };
    Some(Refusal::NotUtf8 { at, cause })
}

/// A record before a call that may write it.
pub const UNTOUCHED: Record = [7; NUMBERS_OF_A_TOKEN];

/// That every call that takes a text refuses this one so, before all that comes after 2, and writes
/// nothing. The lists are good ones.
pub fn every_call_refuses(text: &[u8], lists: &Lists, refusal: Refusal) {
    assert_eq!(check(text, lists), Err(refusal), "{text:x?}");
    assert_eq!(needs_lists(text), Err(refusal), "{text:x?}");
    assert_eq!(needs_newer_lists(text, lists), Err(refusal), "{text:x?}");
    assert_eq!(is_ident(text, lists), Err(refusal), "{text:x?}");
    assert_eq!(strip_shebang(text), Err(refusal), "{text:x?}");
    assert_eq!(key(text, lists), Err(refusal), "{text:x?}");
    let mut out = *b"0123456789";
    for room in [0, 10] {
        assert_eq!(key_into(text, lists, &mut out[..room]), Err(refusal), "{text:x?}");
    }
    assert_eq!(&out, b"0123456789");
    for prefix in [1, 2, 9] {
        assert_eq!(validate_raw_str(text, prefix), Err(refusal), "{text:x?}");
    }
    for at in [0, 99] {
        assert_eq!(guarded_double_quoted_string(text, lists, at), Err(refusal), "{text:x?}");
    }
    let mut records = [UNTOUCHED; 3];
    for flag in [FrontmatterAllowed::No, FrontmatterAllowed::Yes] {
        let tokens = tokenize(text, flag, lists).map(Iterator::count);
        assert_eq!(tokens, Err(refusal), "{text:x?}");
        let cursor = Cursor::new(text, flag, lists).map(|cursor| cursor.position());
        assert_eq!(cursor, Err(refusal), "{text:x?}");
        for room in [0, 3] {
            let tokens = tokenize_into(text, flag, lists, &mut records[..room]);
            assert_eq!(tokens, Err(refusal), "{text:x?}");
        }
        for at in [0, 99] {
            assert_eq!(advance_token(text, lists, at, flag), Err(refusal), "{text:x?}");
            let run = tokens_from(text, lists, at, flag, &mut records);
            assert_eq!(run, Err(refusal), "{text:x?}");
        }
    }
    assert_eq!(records, [UNTOUCHED; 3]);
}
