//! The lists that a caller lends, the file of lists, and where a text cannot do without them.

use std::fmt;

use crate::line_ends::replaced;
use crate::{
    FrontmatterAllowed, LiteralKind, Refusal, Token, TokenKind, Tokens, done, is_ident, lent_place,
    raw, tokenize,
};

/// The most pairs that a list may have.
pub const MAX_PAIRS: usize = 8192;

/// The three lists of code points that are lent to the calls, in place of Unicode's tables.
///
/// A list is pairs of low and high code point, both included, as numbers in turn. The rules: at most
/// [`MAX_PAIRS`] pairs; an even count of numbers; low ≤ high ≤ 0x10FFFF; low ≥ 0x80; each low above
/// the previous high; no pair covers a surrogate, U+0085, U+200E, U+200F, U+2028 or U+2029. A list
/// that breaks one is refused ([`Refusal::List`]). Below 0x80 the lists do not count.
/// [`Lists::parse`] reads them from a file.
///
/// Which lists are lent belongs to the answer: keys that were made with lists that hold different
/// code points are not comparable. How a list is cut into pairs does not matter: lists that hold the
/// same code points give the same tokens and keys.
#[derive(Clone, Copy, Debug, Default, PartialEq, Eq, Hash)]
pub struct Lists<'a> {
    /// What may begin an identifier.
    pub id_start: &'a [u32],
    /// What may go on in one.
    pub id_continue: &'a [u32],
    /// What is emoji.
    pub emoji: &'a [u32],
}

impl Lists<'static> {
    /// No list: identifiers are of ASCII.
    ///
    /// **With empty lists a text may part into other tokens than rustc's**, and then a key misses
    /// what it is for. The lifetime in `f!('é "' // limit 5");` is none with empty lists: its quote
    /// pairs with the one inside the string, and the rest of the string is taken for a comment. So
    /// this text and the one with `limit 9` have the same key. Ask [`needs_lists`] before you key a
    /// text with these.
    ///
    /// ```
    /// use lovemudarn::{Lists, key, needs_lists};
    ///
    /// let (five, nine) = ("f!('é \"' // limit 5\");", "f!('é \"' // limit 9\");");
    /// assert_eq!(key(five, &Lists::EMPTY)?, key(nine, &Lists::EMPTY)?); // never do this
    /// assert_eq!(needs_lists(five)?, Some(4)); // the é
    ///
    /// let lists = Lists { id_start: &[0xE9, 0xE9], id_continue: &[0xE9, 0xE9], emoji: &[] };
    /// assert_ne!(key(five, &lists)?, key(nine, &lists)?);
    /// # Ok::<(), lovemudarn::Refusal>(())
    /// ```
    pub const EMPTY: Lists<'static> = Lists { id_start: &[], id_continue: &[], emoji: &[] };

    /// The lists of a file, and the Unicode version that it names.
    ///
    /// The first line is `unicode` and the version, three decimal numbers of at most 65,535. Then there
    /// is a line a pair: `start`, `continue` or `emoji`, low and high, in hexadecimal of lower case
    /// and at most six digits. All pairs of `start` come first, then those of `continue`, then
    /// those of `emoji`. One tab stands between two fields, every line ends with LF, and no number has
    /// leading zeros. `data/unicode-15.0.0.lists` is such a file, and `tools/unicode-lists` makes
    /// that of another version.
    ///
    /// Refused are 9 with the first bad line, and 3. An empty file is bad in line 0, and a last line
    /// without LF is a bad one.
    ///
    /// ```
    /// use lovemudarn::{Lists, Refusal, is_ident};
    ///
    /// let file = "unicode\t15\t0\t0\nstart\te9\te9\ncontinue\te9\te9\n";
    /// let loaded = Lists::parse(file)?;
    /// assert_eq!(loaded.version.to_string(), "15.0.0");
    /// assert!(is_ident("é", &loaded.lists())?);
    /// assert_eq!(loaded.lists().to_file(loaded.version)?, file.as_bytes());
    ///
    /// let bad = "unicode\t15\t0\t0\nstart\tE9\te9\n";
    /// assert_eq!(Lists::parse(bad), Err(Refusal::Line { line: 1 }));
    /// # Ok::<(), lovemudarn::Refusal>(())
    /// ```
    pub fn parse(file: impl AsRef<[u8]>) -> Result<LoadedLists, Refusal> {
        // As much as a list may have: a file that has more is refused for that, before its room is looked at.
        let [mut id_start, mut id_continue, mut emoji] = [(); 3].map(|()| vec![0; 2 * MAX_PAIRS]);
        let held = Lists::parse_into(file, &mut id_start, &mut id_continue, &mut emoji)?;
        for (list, numbers) in [
            (&mut id_start, held.id_start),
            (&mut id_continue, held.id_continue),
            (&mut emoji, held.emoji),
        ] {
            list.truncate(numbers);
            list.shrink_to_fit();
        }
        Ok(LoadedLists { version: held.version, id_start, id_continue, emoji })
    }

    /// Writes the lists of a file into three buffers, as [`Lists::parse`] reads them. Numbers past
    /// a list keep their values.
    ///
    /// Refused are 9, 3, and 7 with the first list for which the buffer is too short and the numbers
    /// that it needs ([`Refusal::ListRoom`]); then nothing is written.
    pub fn parse_into(
        file: impl AsRef<[u8]>,
        id_start: &mut [u32],
        id_continue: &mut [u32],
        emoji: &mut [u32],
    ) -> Result<Held, Refusal> {
        let file = file.as_ref();
        // SAFETY: slices borrowed for the call, the last three uniquely; see the head of lib.rs.
        let answer = unsafe {
            raw::lovemudarn_read_lists(
                file.as_ptr(),
                file.len(),
                id_start.as_mut_ptr(),
                id_start.len(),
                id_continue.as_mut_ptr(),
                id_continue.len(),
                emoji.as_mut_ptr(),
                emoji.len(),
            )
        };
        if answer.number != 0 {
            return Err(Refusal::of_reader(answer.number, answer.beside, answer.second));
        }
        let unknown = Refusal::Unknown { number: 0, beside: answer.beside, second: answer.second };
        let number = |n: u32| u16::try_from(n).map_err(|_| unknown);
        Ok(Held {
            version: Version {
                major: number(answer.major)?,
                minor: number(answer.minor)?,
                update: number(answer.update)?,
            },
            id_start: answer.starts,
            id_continue: answer.continues,
            emoji: answer.emoji,
        })
    }
}

impl Lists<'_> {
    /// The file of these lists, as [`Lists::parse`] reads it. Version and lists have one file, to the
    /// byte.
    ///
    /// Refused is 3.
    pub fn to_file(&self, version: Version) -> Result<Vec<u8>, Refusal> {
        let mut out = Vec::new();
        if let Err(Refusal::Room { needed }) = self.to_file_into(version, &mut out) {
            out = vec![0; needed];
        }
        let bytes = self.to_file_into(version, &mut out)?;
        out.truncate(bytes);
        Ok(out)
    }

    /// Writes the file of these lists into a buffer and gives its bytes. Bytes past it keep their
    /// values.
    ///
    /// Refused are 3, and 7 with the bytes of the file; then nothing is written.
    pub fn to_file_into(&self, version: Version, out: &mut [u8]) -> Result<usize, Refusal> {
        let Version { major, minor, update } = version;
        // SAFETY: slices borrowed for the call, `out` uniquely; see the head of lib.rs.
        let answer = unsafe {
            raw::lovemudarn_write_lists(
                major.into(),
                minor.into(),
                update.into(),
                self.id_start.as_ptr(),
                self.id_start.len(),
                self.id_continue.as_ptr(),
                self.id_continue.len(),
                self.emoji.as_ptr(),
                self.emoji.len(),
                out.as_mut_ptr(),
                out.len(),
            )
        };
        done(answer)
    }
}

/// A Unicode version, as 15.0.0.
#[derive(Clone, Copy, Debug, Default, PartialEq, Eq, PartialOrd, Ord, Hash)]
pub struct Version {
    /// 15 of 15.0.0.
    pub major: u16,
    /// The second number.
    pub minor: u16,
    /// The third.
    pub update: u16,
}

impl fmt::Display for Version {
    fn fmt(&self, f: &mut fmt::Formatter<'_>) -> fmt::Result {
        write!(f, "{}.{}.{}", self.major, self.minor, self.update)
    }
}

/// What [`Lists::parse`] reads from a file. The default is empty lists, of no version (0.0.0).
#[derive(Clone, Debug, Default, PartialEq, Eq, Hash)]
pub struct LoadedLists {
    /// The version that the file names.
    pub version: Version,
    /// What may begin an identifier.
    pub id_start: Vec<u32>,
    /// What may go on in one.
    pub id_continue: Vec<u32>,
    /// What is emoji.
    pub emoji: Vec<u32>,
}

impl LoadedLists {
    /// The lists, as the calls are lent them.
    pub fn lists(&self) -> Lists<'_> {
        Lists { id_start: &self.id_start, id_continue: &self.id_continue, emoji: &self.emoji }
    }
}

/// What [`Lists::parse_into`] wrote: how many numbers each buffer now begins with.
#[derive(Clone, Copy, Debug, PartialEq, Eq, Hash)]
pub struct Held {
    /// The version that the file names.
    pub version: Version,
    /// The numbers of the list of what may begin an identifier.
    pub id_start: usize,
    /// Of what may go on in one.
    pub id_continue: usize,
    /// Of what is emoji.
    pub emoji: usize,
}

/// The first place where lists may matter: the byte at which a character past ASCII stands of which
/// [`Lists::EMPTY`] says that it is in no class. `None` where there is no such place; then any lists
/// that obey the rules give the same tokens, frontmatter off, and so the same [`key`](crate::key) or
/// the same refusal of it.
///
/// A character past ASCII inside a comment or a string does not matter, nor does one alone between
/// two single quotes.
///
/// Refused are 1 and 2.
pub fn needs_lists(text: impl AsRef<[u8]>) -> Result<Option<usize>, Refusal> {
    needs_newer_lists(text, &Lists::EMPTY)
}

/// The first place where newer lists may matter: the byte at which a character past ASCII stands that
/// by these lists is a token of its own ([`TokenKind::Unknown`]), or that by them begins no name and
/// stands after `r#`, or after a single quote and not alone before the next. `None` where there is no
/// such place; then lists that hold these code points, and beside them only some that none of these
/// holds, give the same tokens, frontmatter off, and so the same [`key`](crate::key) or the same refusal
/// of it.
///
/// A letter that is newer than the lists is in none of them. For a newer rustc it is part of a name, and
/// the text may part into other tokens, as [`Lists::EMPTY`] shows it of letters past ASCII. Rust that
/// is valid with these lists has no such place, but for what rustc takes away first: a byte order mark,
/// a shebang, frontmatter.
///
/// Two texts are looked at: the one that is lent, whose tokens the calls give, and the replaced one, in which
/// each CR LF is LF, of which the key is. A character in single quotes may end in the one and not in the other
/// (`\` before CR LF), and then all that follows parts otherwise. The place is one in the text that is lent.
///
/// Refused are 1, 3 and 2.
//
// Why these places are all: a list is asked about characters past ASCII alone. Where the lexer looks
// at such a character and the lists say no, it does not take it but where a single quote stands
// before it, or `r#`. Otherwise the token ends before the character, or before a `#` that then is a
// token by itself (`k#é`, `'r#é`): so the character begins a token, which is unknown, or whitespace, which no
// list may hold. A list is not asked about the character after a single quote where a quote follows it.
pub fn needs_newer_lists(text: impl AsRef<[u8]>, lists: &Lists) -> Result<Option<usize>, Refusal> {
    let text = text.as_ref();
    let of_tokens = first_asked(text, lists, tokenize(text, FrontmatterAllowed::No, lists)?)?;
    let Some(replaced) = replaced(text) else {
        return Ok(of_tokens);
    };
    let tokens = tokenize(&replaced, FrontmatterAllowed::No, lists)?;
    let of_key = first_asked(&replaced, lists, tokens)?.map(|at| lent_place(text, at));
    Ok(of_tokens.into_iter().chain(of_key).min())
}

fn first_asked(text: &[u8], lists: &Lists, mut tokens: Tokens) -> Result<Option<usize>, Refusal> {
    match tokens.find_map(|token| asked(text, lists, token)) {
        Some(place) => Ok(Some(place)),
        // The end of the tokens is the end of the text only where nothing is refused.
        None => tokens.refusal().map_or(Ok(None), Err),
    }
}

/// The place in a token of these lists at which they were asked and said no, and the character was
/// taken, or is the first.
fn asked(text: &[u8], lists: &Lists, token: Token) -> Option<usize> {
    let byte = |offset: usize| text.get(token.start + offset).copied().unwrap_or(0);
    let offset = match token.kind {
        TokenKind::Unknown => 0,
        TokenKind::Literal { kind: LiteralKind::Char { terminated }, suffix_start } => {
            // One character between quotes; the first byte of a character tells its bytes.
            let bytes = byte(1).leading_ones();
            if terminated && suffix_start == 2 + bytes {
                return None;
            }
            // A name between quotes: the lists said yes.
            let first = text.get(token.start + 1..token.start + 1 + bytes as usize);
            if first.is_some_and(|first| is_ident(first, lists) == Ok(true)) {
                return None;
            }
            1
        }
        TokenKind::Literal { kind: LiteralKind::RawStr { n_hashes: None }, .. }
            if byte(1) == b'#' =>
        {
            2
        }
        _ => return None,
    };
    (byte(offset) >= 0x80).then_some(token.start + offset)
}

#[cfg(test)]
mod tests {
    use super::*;

    /// What was not read is not said to need no lists.
    #[test]
    fn tokens_that_end_too_soon_are_refused() {
        let text = ";;;é";
        let none = &Lists::EMPTY;
        let tokens = || tokenize(text, FrontmatterAllowed::No, none).unwrap();
        assert_eq!(first_asked(text.as_bytes(), none, tokens()), Ok(Some(3)));
        let refused = first_asked(text.as_bytes(), none, tokens().stopped_after(2));
        assert!(matches!(refused, Err(Refusal::Unknown { .. })), "{refused:?}");
    }
}
