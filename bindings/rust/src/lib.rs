//! A lexer for Rust source, and a key that stays the same where only blanks and plain comments
//! change.
//!
//! The work is done by the archive of the proved library (`liblovemudarn.a`); this crate lends it
//! slices and turns its numbers into Rust types. The types and calls have the names of rustc's own
//! lexer, which the library carries over.
//!
//! ```
//! use lovemudarn::{FrontmatterAllowed, Lists, TokenKind, key, needs_lists, tokenize};
//!
//! let mut tokens = tokenize("a+1", FrontmatterAllowed::No, &Lists::EMPTY)?;
//! assert!(tokens.any(|token| token.kind == TokenKind::Plus));
//!
//! let (old, new) = ("let limit = 5; // ppm\n", "let limit = 5;   /* ppm, measured twice */");
//! // Only such texts are keyed with empty lists.
//! assert_eq!((needs_lists(old)?, needs_lists(new)?), (None, None));
//! assert_eq!(key(old, &Lists::EMPTY)?, key(new, &Lists::EMPTY)?);
//! # Ok::<(), lovemudarn::Refusal>(())
//! ```
//!
//! **Lend Unicode's lists ([`Lists::parse`] reads their file), or ask [`needs_lists`]**: with [`Lists::EMPTY`] a
//! text with names past ASCII may part into other tokens than rustc's, and two rules that differ may have one
//! key. With lists that are older than rustc's the same may happen to names newer than they are: ask
//! [`needs_newer_lists`].
//!
//! **Line ends do not change a key**: it is of the text in which each CR LF is LF, as rustc reads it ([`key`]).
//! The calls on tokens read a text as it is lent.
//!
//! **A text with a hidden direction mark has no key**: an editor may show a line with it in another order than
//! it is read ([`Refusal::HiddenMark`]).
//!
//! No call panics, whatever the text, the lists and the numbers are: what has no answer is refused by
//! a [`Refusal`]. Texts are bytes (`&str`, `&[u8]`, ..), and a text that is not UTF-8 is refused.

#![deny(missing_docs)]
#![deny(unsafe_op_in_unsafe_fn)]

mod cursor;
mod kinds;
mod line_ends;
mod lists;
mod marks;
mod raw;
mod refusal;

pub use cursor::{Cursor, Tokens};
pub use kinds::{
    Base, DocStyle, FrontmatterAllowed, GuardedStr, LiteralKind, RawStrError, Token, TokenKind,
};
pub use line_ends::lent_place;
pub use lists::{Held, Lists, LoadedLists, MAX_PAIRS, Version, needs_lists, needs_newer_lists};
pub use marks::mark_name;
pub use refusal::{Cause, ListName, Refusal};

// Every unsafe block of this crate is one call of the archive, for the same reason: each pointer with its
// count is one slice that is borrowed as long as the call runs, shared where it goes in as `*const` and
// unique where it goes in as `*mut`, and a slice's pointer is never null. The archive reads and writes
// inside these slices alone and keeps no pointer: that is proved of every function in it.

// A call of the archive on a text and all three lists; what else it takes comes after them.
macro_rules! with_lists {
    ($call:ident, $text:expr, $lists:expr $(, $more:expr)*) => {
        raw::$call(
            $text.as_ptr(),
            $text.len(),
            $lists.id_start.as_ptr(),
            $lists.id_start.len(),
            $lists.id_continue.as_ptr(),
            $lists.id_continue.len(),
            $lists.emoji.as_ptr(),
            $lists.emoji.len()
            $(, $more)*
        )
    };
}

/// A token, and how to go on.
#[derive(Clone, Copy, Debug, PartialEq, Eq, Hash)]
pub struct Advanced {
    /// The token; [`TokenKind::Eof`] of length 0 at the end of the text.
    pub token: Token,
    /// The position past it.
    pub next: usize,
    /// Whether the token there may be frontmatter.
    pub frontmatter: FrontmatterAllowed,
}

/// How many tokens were written, and how to go on.
#[derive(Clone, Copy, Debug, PartialEq, Eq, Hash)]
pub struct Run {
    /// The tokens that were written.
    pub tokens: usize,
    /// The position past the last of them; the text's length where there are no more.
    pub next: usize,
    /// Whether the token there may be frontmatter.
    pub frontmatter: FrontmatterAllowed,
}

/// How many numbers a [`Record`] has.
pub const NUMBERS_OF_A_TOKEN: usize = 5;

/// The numbers of a token in the buffer of [`tokenize_into`] and [`tokens_from`]:
/// [`TokenKind::code`], the start of a suffix (0 but for literals), length, start, line.
pub type Record = [u32; NUMBERS_OF_A_TOKEN];

/// The tokens of a text in order, without [`TokenKind::Eof`], one after the other as they are asked
/// for.
///
/// Refused are 1, 3 and 2, here and not later ([`Tokens::refusal`] has the one exception).
pub fn tokenize<'a, T: AsRef<[u8]> + ?Sized>(
    text: &'a T,
    frontmatter: FrontmatterAllowed,
    lists: &Lists<'a>,
) -> Result<Tokens<'a>, Refusal> {
    Cursor::new(text, frontmatter, lists).map(Tokens::of)
}

/// Writes the tokens of a text into a buffer, a record each, and gives their number. Records past
/// it keep their values. [`token_of`] reads a record.
///
/// Refused are 1, 3, 2, and 5 with the number of tokens; then nothing is written.
pub fn tokenize_into(
    text: impl AsRef<[u8]>,
    frontmatter: FrontmatterAllowed,
    lists: &Lists,
    records: &mut [Record],
) -> Result<usize, Refusal> {
    let text = text.as_ref();
    let slots = records.as_flattened_mut();
    // SAFETY: slices borrowed for the call, `slots` uniquely; see the head of this file.
    let answer = unsafe {
        with_lists!(
            lovemudarn_tokens,
            text,
            lists,
            frontmatter == FrontmatterAllowed::Yes,
            slots.as_mut_ptr(),
            slots.len()
        )
    };
    done(answer)
}

/// Writes as many tokens from a position on as the buffer has records for. Records past them keep their
/// values. [`token_of`] reads a record; starts and lines count from the beginning of the text.
///
/// Refused are 1, 3, 2, and 4 where the position is past the end or inside a character; then nothing
/// is written. Each call checks the whole text: [`Cursor`] calls it a few times for a text.
pub fn tokens_from(
    text: impl AsRef<[u8]>,
    lists: &Lists,
    at: usize,
    frontmatter: FrontmatterAllowed,
    records: &mut [Record],
) -> Result<Run, Refusal> {
    let text = text.as_ref();
    let slots = records.as_flattened_mut();
    // SAFETY: slices borrowed for the call, `slots` uniquely; see the head of this file.
    let answer = unsafe {
        with_lists!(
            lovemudarn_tokens_from,
            text,
            lists,
            at,
            frontmatter == FrontmatterAllowed::Yes,
            slots.as_mut_ptr(),
            slots.len()
        )
    };
    refused(answer.number, answer.beside, answer.second)?;
    Ok(Run { tokens: answer.tokens, next: answer.next, frontmatter: allowed(answer.on) })
}

/// The token of a record that [`tokenize_into`] or [`tokens_from`] wrote; [`Refusal::Unknown`] for
/// numbers that are no kind's.
pub fn token_of(record: Record) -> Result<Token, Refusal> {
    let [code, suffix_start, len, start, line] = record;
    // A place in a text that is in memory: it fits.
    let start = start as usize;
    Ok(Token { kind: kind_of(code, suffix_start)?, len, start, line })
}

/// The token at a position, with frontmatter allowed there or not.
///
/// Refused are 1, 3, 2, and 4 where the position is past the end or inside a character. Each call
/// checks the whole text: to go through one use [`tokenize`] or a [`Cursor`].
pub fn advance_token(
    text: impl AsRef<[u8]>,
    lists: &Lists,
    at: usize,
    frontmatter: FrontmatterAllowed,
) -> Result<Advanced, Refusal> {
    let text = text.as_ref();
    // SAFETY: slices borrowed for the call; see the head of this file.
    let answer = unsafe {
        with_lists!(lovemudarn_token, text, lists, at, frontmatter == FrontmatterAllowed::Yes)
    };
    refused(answer.number, answer.beside, answer.second)?;
    let kind = kind_of(answer.kind, answer.suffix_start)?;
    Ok(Advanced {
        token: Token { kind, len: answer.len, start: answer.start, line: answer.line },
        next: answer.next,
        frontmatter: allowed(answer.on),
    })
}

/// The key of a text: its tokens byte for byte, but for whitespace and comments that document
/// nothing; each longest run of these becomes one newline. Frontmatter is off.
///
/// The key is of the replaced text: from the left, each CR LF becomes LF, as it does for rustc. A CR alone
/// stays. So a text and the same text with CR LF line ends have one key, and no key has a CR LF. A key
/// that is keyed again comes out as it is.
///
/// ```
/// use lovemudarn::{Lists, Refusal, key};
///
/// let lists = &Lists::EMPTY;
/// assert_eq!(key("/// a\r\nx = \"\r\n\";\r\n", lists)?, b"/// a\nx\n=\n\"\n\";\n");
/// assert_eq!(key("/// a\nx = \"\n\";\n", lists)?, b"/// a\nx\n=\n\"\n\";\n");
/// assert_eq!(key("a;\r\r\nb;", lists), Err(Refusal::DoubleReturn { at: 2 }));
/// assert_eq!(key("a; // \u{202e}", lists), Err(Refusal::HiddenMark { at: 6 }));
/// # Ok::<(), Refusal>(())
/// ```
///
/// Two texts have the same key exactly if the other tokens of their replaced texts are the same, in the
/// same order and separated at the same places: the tokens that these lists give. **With [`Lists::EMPTY`] they may be
/// others than rustc's, and a change may be missed: key a text so only where [`needs_lists`] finds no place
/// in it.** Keys of lists that hold different code points are not comparable.
///
/// Refused are 1, 3, 2, then 10 where CR CR LF stands in the text, 11 where a hidden direction mark does (U+202A
/// to U+202E, U+2066 to U+2069; in a comment or a string too), and 6 where a literal or a block comment of the
/// replaced text is broken.
pub fn key(text: impl AsRef<[u8]>, lists: &Lists) -> Result<Vec<u8>, Refusal> {
    let text = text.as_ref();
    // A key is never longer than its text.
    let mut out = vec![0; text.len()];
    let bytes = key_into(text, lists, &mut out)?;
    out.truncate(bytes);
    Ok(out)
}

/// Writes the [`key`] of a text into a buffer and gives its bytes. Bytes past it keep their values.
///
/// Refused are 1, 3, 2, 10, 11, 6, and 7 with the bytes of the key; then nothing is written.
pub fn key_into(text: impl AsRef<[u8]>, lists: &Lists, out: &mut [u8]) -> Result<usize, Refusal> {
    let text = text.as_ref();
    // SAFETY: slices borrowed for the call, `out` uniquely; see the head of this file.
    let answer = unsafe { with_lists!(lovemudarn_key, text, lists, out.as_mut_ptr(), out.len()) };
    done(answer)
}

/// The checks that [`tokenize`] begins with: 1, 3 and 2.
pub fn check(text: impl AsRef<[u8]>, lists: &Lists) -> Result<(), Refusal> {
    let text = text.as_ref();
    // SAFETY: slices borrowed for the call; see the head of this file.
    let answer = unsafe { with_lists!(lovemudarn_check, text, lists) };
    done(answer).map(|_| ())
}

/// Where the shebang of a text ends, before the end of its line; `None` where it has none.
///
/// Refused are 1 and 2. It needs no list.
pub fn strip_shebang(text: impl AsRef<[u8]>) -> Result<Option<usize>, Refusal> {
    let text = text.as_ref();
    // SAFETY: a slice borrowed for the call; see the head of this file.
    let answer = unsafe { raw::lovemudarn_strip_shebang(text.as_ptr(), text.len()) };
    // A shebang has two bytes at least: 0 says that there is none.
    done(answer).map(|end| (end != 0).then_some(end))
}

/// What is wrong with a raw string after a prefix of that many bytes, or `Ok(Ok(()))`.
///
/// Refused are 1, 2, and 8 where the text does not begin with such a prefix.
pub fn validate_raw_str(
    text: impl AsRef<[u8]>,
    prefix_len: u32,
) -> Result<Result<(), RawStrError>, Refusal> {
    let text = text.as_ref();
    let prefix = prefix_len as usize;
    // SAFETY: a slice borrowed for the call; see the head of this file.
    let answer = unsafe { raw::lovemudarn_validate_raw_str(text.as_ptr(), text.len(), prefix) };
    refused(answer.number, answer.beside, answer.second)?;
    let unknown = Refusal::Unknown { number: 0, beside: answer.beside, second: answer.second };
    let error = match answer.check {
        0 => return Ok(Ok(())),
        1 => RawStrError::InvalidStarter {
            bad_char: char::from_u32(answer.bad_char).ok_or(unknown)?,
        },
        2 => RawStrError::NoTerminator {
            expected: answer.expected,
            found: answer.found,
            possible_terminator_offset: answer.has_offset.then_some(answer.offset),
        },
        3 => RawStrError::TooManyDelimiters { found: answer.found },
        _ => return Err(unknown),
    };
    Ok(Err(error))
}

/// The guarded string at a position, if there is one, and where the search ended: past the string, or
/// after the hashes.
///
/// Refused are 1, 3, 2, and 4 where the position is past the end or inside a character.
pub fn guarded_double_quoted_string(
    text: impl AsRef<[u8]>,
    lists: &Lists,
    at: usize,
) -> Result<(Option<GuardedStr>, usize), Refusal> {
    let text = text.as_ref();
    // SAFETY: slices borrowed for the call; see the head of this file.
    let answer = unsafe {
        raw::lovemudarn_guarded(
            text.as_ptr(),
            text.len(),
            lists.id_start.as_ptr(),
            lists.id_start.len(),
            lists.id_continue.as_ptr(),
            lists.id_continue.len(),
            at,
        )
    };
    refused(answer.number, answer.beside, answer.second)?;
    let found = answer.found.then_some(GuardedStr {
        n_hashes: answer.n_hashes,
        terminated: answer.terminated,
        token_len: answer.token_len,
    });
    Ok((found, answer.next))
}

/// Whether a text is an identifier; the empty one is none.
///
/// Refused are 1, 3 (the lists of identifiers) and 2.
pub fn is_ident(text: impl AsRef<[u8]>, lists: &Lists) -> Result<bool, Refusal> {
    let text = text.as_ref();
    // SAFETY: slices borrowed for the call; see the head of this file.
    let answer = unsafe {
        raw::lovemudarn_is_ident(
            text.as_ptr(),
            text.len(),
            lists.id_start.as_ptr(),
            lists.id_start.len(),
            lists.id_continue.as_ptr(),
            lists.id_continue.len(),
        )
    };
    yes_or_no(answer)
}

/// Whether a character is whitespace to Rust: one of 11.
pub fn is_whitespace(c: char) -> bool {
    raw::lovemudarn_is_whitespace(c.into())
}

/// Whether a character is a tab or a space.
pub fn is_horizontal_whitespace(c: char) -> bool {
    raw::lovemudarn_is_horizontal_whitespace(c.into())
}

/// Whether a character may begin an identifier. Refused is 3 (the list `id_start`).
pub fn is_id_start(c: char, lists: &Lists) -> Result<bool, Refusal> {
    let list = lists.id_start;
    // SAFETY: a slice borrowed for the call; see the head of this file.
    yes_or_no(unsafe { raw::lovemudarn_is_id_start(c.into(), list.as_ptr(), list.len()) })
}

/// Whether a character may go on in an identifier. Refused is 3 (the list `id_continue`).
pub fn is_id_continue(c: char, lists: &Lists) -> Result<bool, Refusal> {
    let list = lists.id_continue;
    // SAFETY: a slice borrowed for the call; see the head of this file.
    yes_or_no(unsafe { raw::lovemudarn_is_id_continue(c.into(), list.as_ptr(), list.len()) })
}

/// Whether a character is emoji; none of ASCII is. Refused is 3 (the list `emoji`).
pub fn is_emoji_char(c: char, lists: &Lists) -> Result<bool, Refusal> {
    let list = lists.emoji;
    // SAFETY: a slice borrowed for the call; see the head of this file.
    yes_or_no(unsafe { raw::lovemudarn_is_emoji_char(c.into(), list.as_ptr(), list.len()) })
}

fn refused(number: u32, beside: usize, second: usize) -> Result<(), Refusal> {
    if number == 0 { Ok(()) } else { Err(Refusal::of(number, beside, second)) }
}

// The number beside 0.
fn done(answer: raw::Answer) -> Result<usize, Refusal> {
    refused(answer.number, answer.beside, answer.second).map(|()| answer.beside)
}

fn yes_or_no(answer: raw::Answer) -> Result<bool, Refusal> {
    done(answer).map(|beside| beside != 0)
}

fn allowed(on: bool) -> FrontmatterAllowed {
    if on { FrontmatterAllowed::Yes } else { FrontmatterAllowed::No }
}

fn kind_of(code: u32, suffix_start: u32) -> Result<TokenKind, Refusal> {
    let unknown =
        Refusal::Unknown { number: 0, beside: code as usize, second: suffix_start as usize };
    TokenKind::from_code(code, suffix_start).ok_or(unknown)
}
