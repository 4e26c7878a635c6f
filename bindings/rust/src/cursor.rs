//! Going through a text, in time that grows as the text does.
//!
//! Every call of the archive checks the whole text, since it trusts nothing. So the cursor does not ask
//! for one token at a time but for blocks of them, and for a bounded number of blocks.

use std::fmt;
use std::iter::FusedIterator;
use std::sync::Arc;

use crate::{
    FrontmatterAllowed, GuardedStr, Lists, NUMBERS_OF_A_TOKEN, Record, Refusal, Token, TokenKind,
    guarded_double_quoted_string, token_of, tokens_from,
};

/// The tokens of the first block, and the least of any other that the text has bytes for.
const SMALL: usize = 256;

/// The other blocks have room for this part of the text's bytes: n bytes have at most n tokens, so
/// there are at most as many full ones.
const PART: usize = 8;

/// A place in a text, from which its tokens are read one after the other.
///
/// Text and lists are checked where the cursor is made, and every refusal comes there. They stay
/// borrowed, so what was checked stays so. The tokens are read in blocks, at most nine for a text, into
/// a buffer of the cursor's own of about two and a half times the text's bytes: the time to go through a
/// text grows as its length does.
///
/// A clone is a place to come back to, and costs little: clones share their block.
///
/// ```
/// use lovemudarn::{Cursor, FrontmatterAllowed, Lists, TokenKind};
///
/// let mut cursor = Cursor::new("a+1", FrontmatterAllowed::No, &Lists::EMPTY)?;
/// assert_eq!(cursor.advance_token().kind, TokenKind::Ident);
/// assert_eq!((cursor.position(), cursor.as_str()), (1, "+1"));
/// # Ok::<(), lovemudarn::Refusal>(())
/// ```
#[derive(Clone)]
pub struct Cursor<'a> {
    text: &'a str,
    lists: Lists<'a>,
    /// Where the cursor stands: a character begins there, or the text ends.
    at: usize,
    /// A place at or before it and the line there: the archive's, of the token given last.
    last: (usize, u32),
    /// Where the next token starts: before `at` only where hashes were passed that begin no string.
    start: usize,
    frontmatter: FrontmatterAllowed,
    block: Arc<Vec<Record>>,
    /// The tokens of the block, and how many of them were given.
    filled: usize,
    given: usize,
    /// The least room of the next block.
    room: usize,
    refusal: Option<Refusal>,
    #[cfg(test)]
    calls: usize,
}

impl<'a> Cursor<'a> {
    /// A cursor at the beginning of a text, with frontmatter allowed there or not.
    ///
    /// Refused are 1, 3 and 2.
    pub fn new<T: AsRef<[u8]> + ?Sized>(
        text: &'a T,
        frontmatter: FrontmatterAllowed,
        lists: &Lists<'a>,
    ) -> Result<Cursor<'a>, Refusal> {
        let bytes = text.as_ref();
        let mut block = Vec::new();
        let filled = fill(bytes, lists, 0, frontmatter, SMALL, &mut block)?;
        // The archive has found that this is UTF-8, or refused it; here it is found again for the type's
        // sake. Only the archive says where and why a text is not.
        let text = std::str::from_utf8(bytes).map_err(|_| FOREIGN)?;
        Ok(Cursor {
            text,
            lists: *lists,
            at: 0,
            last: (0, 0),
            start: 0,
            frontmatter,
            block: Arc::new(block),
            filled,
            given: 0,
            room: large(text),
            refusal: None,
            #[cfg(test)]
            calls: 1,
        })
    }

    /// The rest of the text, from the cursor on.
    pub fn as_str(&self) -> &'a str {
        self.text.get(self.at..).unwrap_or_default()
    }

    /// Where the cursor stands: bytes from the beginning of the text.
    pub fn position(&self) -> usize {
        self.at
    }

    /// Whether the next token may be frontmatter.
    pub fn frontmatter(&self) -> FrontmatterAllowed {
        self.frontmatter
    }

    /// The next character; NUL at the end of the text.
    pub fn first(&self) -> char {
        self.as_str().chars().next().unwrap_or('\0')
    }

    /// The third character from here on; NUL past the end of the text.
    pub fn third(&self) -> char {
        self.as_str().chars().nth(2).unwrap_or('\0')
    }

    /// The next token; the cursor then stands past it. At the end of the text it is
    /// [`TokenKind::Eof`] of length 0, as often as it is asked for. It is so too where
    /// [`refusal`](Cursor::refusal) tells of a fault, which
    /// [`try_advance_token`](Cursor::try_advance_token) does not let a caller overlook.
    pub fn advance_token(&mut self) -> Token {
        match self.try_advance_token() {
            Ok(Some(token)) => token,
            Ok(None) | Err(_) => {
                Token { kind: TokenKind::Eof, len: 0, start: self.at, line: self.line() }
            }
        }
    }

    /// The next token; the cursor then stands past it. `None` at the end of the text and nowhere else.
    ///
    /// Refused is what [`refusal`](Cursor::refusal) tells of.
    pub fn try_advance_token(&mut self) -> Result<Option<Token>, Refusal> {
        let taken = self.take();
        if let Err(refusal) = taken {
            self.refusal = Some(refusal);
        }
        taken
    }

    /// The string after hashes that begins here, if there is one; the cursor then stands past it. Where
    /// there is none, the cursor stands after the hashes, and they belong to the next token, as in rustc's
    /// lexer: it starts where they start, and its length counts them. A clone that was made before is
    /// the way back.
    ///
    /// Whether frontmatter is allowed stays as it is. Each string, and each run of hashes, costs a check
    /// of the whole text, and the tokens after it are read anew: a few of them are found quickly, but a
    /// text of nothing else takes time that grows as the square of its length.
    pub fn guarded_double_quoted_string(&mut self) -> Option<GuardedStr> {
        // What begins with neither is no such string, and nothing is passed.
        if self.refusal.is_some() || !matches!(self.first(), '#' | '"') {
            return None;
        }
        match self.take_guarded() {
            Ok(found) => found,
            Err(refusal) => {
                self.refusal = Some(refusal);
                None
            }
        }
    }

    /// Why the cursor cannot go on, and gave [`TokenKind::Eof`] or no string before the end of its text.
    ///
    /// It is always `None` where this crate and the archive are of the same sources and no one else
    /// writes to the text, for all checks were made before. It tells of a crate and an archive
    /// of different versions, and of a text that changes while it is borrowed, as a file may that is
    /// mapped to memory. A cursor that has a refusal keeps it, stays where it is, and gives no token
    /// any more: what it gave before is right, and `as_str` is what it did not read.
    pub fn refusal(&self) -> Option<Refusal> {
        self.refusal
    }

    fn take(&mut self) -> Result<Option<Token>, Refusal> {
        if let Some(refusal) = self.refusal {
            return Err(refusal);
        }
        if self.at == self.text.len() {
            return Ok(None);
        }
        if self.given == self.filled {
            self.refill()?;
        }
        let &record = self.block.get(self.given).ok_or(FOREIGN)?;
        let token = token_of(record)?;
        let next = self.past(token.len)?;
        let fits = self.fits(token.line);
        if token.start != self.at || !fits || token.kind == TokenKind::Eof {
            return Err(FOREIGN);
        }
        self.last = (self.at, token.line);
        let token = self.with_hashes(token);
        self.given += 1;
        self.at = next;
        self.start = next;
        if token.kind != TokenKind::Whitespace {
            self.frontmatter = FrontmatterAllowed::No;
        }
        Ok(Some(token))
    }

    fn take_guarded(&mut self) -> Result<Option<GuardedStr>, Refusal> {
        let (found, next) = guarded_double_quoted_string(self.text, &self.lists, self.at)?;
        let passed = u32::try_from(next - self.at.min(next)).map_err(|_| FOREIGN)?;
        self.at = self.past(passed)?;
        if found.is_some() {
            self.start = self.at;
        }
        // The tokens of the block need not begin here. A small one is enough where strings are many.
        (self.filled, self.given, self.room) = (0, 0, SMALL);
        Ok(found)
    }

    /// The next block: tokens from the cursor on, one at least.
    fn refill(&mut self) -> Result<(), Refusal> {
        #[cfg(test)]
        {
            self.calls += 1;
        }
        // A clone may have the block too, and keeps it.
        if Arc::get_mut(&mut self.block).is_none() {
            self.block = Arc::default();
        }
        let block = Arc::get_mut(&mut self.block).ok_or(FOREIGN)?;
        let bytes = self.text.as_bytes();
        self.given = 0;
        self.filled = 0;
        self.filled = fill(bytes, &self.lists, self.at, self.frontmatter, self.room, block)?;
        self.room = large(self.text);
        if self.filled == 0 { Err(FOREIGN) } else { Ok(()) }
    }

    /// The place that many bytes on, which is more than none: a character begins there, or the text ends.
    fn past(&self, bytes: u32) -> Result<usize, Refusal> {
        let next = self.at.saturating_add(bytes as usize);
        if bytes > 0 && self.text.is_char_boundary(next) { Ok(next) } else { Err(FOREIGN) }
    }

    /// A token that starts at the cursor, with the hashes that were passed before it.
    fn with_hashes(&self, token: Token) -> Token {
        // Within the text, and so within 32 bits.
        let hashes = (self.at - self.start) as u32;
        let kind = match token.kind {
            TokenKind::Literal { kind, suffix_start } => {
                TokenKind::Literal { kind, suffix_start: suffix_start.saturating_add(hashes) }
            }
            other => other,
        };
        // No line ends among hashes.
        Token { kind, len: token.len.saturating_add(hashes), start: self.start, line: token.line }
    }

    /// Whether a line can be the next token's: the first is 0, and lines never fall.
    fn fits(&self, line: u32) -> bool {
        if self.at == 0 { line == 0 } else { self.last.1 <= line }
    }

    /// The line where the cursor stands: the last token's, and the LFs from its start on.
    fn line(&self) -> u32 {
        let (from, line) = self.last;
        let passed = self.text.as_bytes().get(from..self.at).unwrap_or_default();
        // Within the text, and so within 32 bits.
        line.saturating_add(passed.iter().filter(|&&byte| byte == b'\n').count() as u32)
    }
}

impl fmt::Debug for Cursor<'_> {
    // Neither the text nor the block: they may be large.
    fn fmt(&self, f: &mut fmt::Formatter<'_>) -> fmt::Result {
        f.debug_struct("Cursor")
            .field("position", &self.at)
            .field("frontmatter", &self.frontmatter)
            .field("refusal", &self.refusal)
            .finish_non_exhaustive()
    }
}

/// An answer that is none about this text.
const FOREIGN: Refusal = Refusal::Unknown { number: 0, beside: 0, second: 0 };

fn large(text: &str) -> usize {
    SMALL.max(text.len() / PART)
}

/// Reads tokens from a position on into a block with that much room, and gives their number.
fn fill(
    text: &[u8],
    lists: &Lists,
    at: usize,
    frontmatter: FrontmatterAllowed,
    room: usize,
    block: &mut Vec<Record>,
) -> Result<usize, Refusal> {
    // There are no more tokens than bytes.
    let room = room.min(text.len().saturating_sub(at));
    block.resize(room, [0; NUMBERS_OF_A_TOKEN]);
    tokens_from(text, lists, at, frontmatter, block).map(|run| run.tokens)
}

/// The tokens of a text in order, without [`TokenKind::Eof`]: what [`tokenize`](crate::tokenize)
/// gives.
#[derive(Clone, Debug)]
pub struct Tokens<'a> {
    cursor: Cursor<'a>,
}

impl<'a> Tokens<'a> {
    pub(crate) fn of(cursor: Cursor<'a>) -> Tokens<'a> {
        Tokens { cursor }
    }

    /// As where the archive does not go on after so many tokens.
    #[cfg(test)]
    pub(crate) fn stopped_after(mut self, tokens: usize) -> Tokens<'a> {
        self.cursor.filled = tokens;
        self.cursor.room = 0;
        self
    }

    /// Why there are no more tokens though the text goes on: [`Cursor::refusal`], which says when that
    /// can be.
    pub fn refusal(&self) -> Option<Refusal> {
        self.cursor.refusal()
    }
}

impl Iterator for Tokens<'_> {
    type Item = Token;

    fn next(&mut self) -> Option<Token> {
        let token = self.cursor.advance_token();
        (token.kind != TokenKind::Eof).then_some(token)
    }

    fn size_hint(&self) -> (usize, Option<usize>) {
        (0, Some(self.cursor.as_str().len()))
    }
}

impl FusedIterator for Tokens<'_> {}

#[cfg(test)]
mod tests {
    use super::*;
    use FrontmatterAllowed::No;

    const NONE: &Lists = &Lists::EMPTY;

    /// To the end; the calls of the archive that it took.
    fn calls_through(text: &str) -> usize {
        let mut cursor = Cursor::new(text, No, NONE).unwrap();
        while cursor.advance_token().kind != TokenKind::Eof {}
        assert_eq!((cursor.refusal(), cursor.position()), (None, text.len()));
        cursor.calls
    }

    #[test]
    fn any_text_takes_at_most_nine_calls() {
        // As many tokens as bytes: there are no texts with more.
        let mut most = 0;
        for bytes in (0..3000).step_by(7).chain([2047, 2048, 2055, 2056, 100_000, 1_000_000]) {
            most = most.max(calls_through(&";".repeat(bytes)));
        }
        assert_eq!(most, 9);
        // Blocks that are full and no more.
        assert_eq!(calls_through(""), 1);
        assert_eq!(calls_through(&";".repeat(SMALL)), 1);
        assert_eq!(calls_through(&";".repeat(SMALL + 1)), 2);
        assert_eq!(calls_through(&";".repeat(2 * SMALL)), 2);
        assert_eq!(calls_through(&";".repeat(2 * SMALL + 1)), 3);
        // A source as they are.
        assert!(calls_through(&"let limit = 5; // ppm\n".repeat(50_000)) < 6);
    }

    #[test]
    fn asking_at_the_end_or_where_no_string_is_takes_no_call() {
        let mut cursor = Cursor::new("a + b", No, NONE).unwrap();
        for _ in 0..9 {
            assert_eq!(cursor.guarded_double_quoted_string(), None);
            cursor.advance_token();
        }
        assert_eq!(cursor.calls, 1);
    }

    #[test]
    fn clones_share_their_block_and_do_not_change_it() {
        let text = ";".repeat(5000);
        let mut cursor = Cursor::new(&text, No, NONE).unwrap();
        let mut start = cursor.clone();
        assert!(Arc::ptr_eq(&cursor.block, &start.block));
        while cursor.advance_token().kind != TokenKind::Eof {}
        for at in 0..text.len() {
            let token = Token { kind: TokenKind::Semi, len: 1, start: at, line: 0 };
            assert_eq!(start.advance_token(), token);
        }
        assert_eq!(start.advance_token().kind, TokenKind::Eof);
    }

    /// A cursor that was made and then spoiled: the tokens that it gives, and where it stops.
    fn spoiled(text: &str, spoil: impl Fn(&mut Cursor)) -> (usize, Option<Refusal>) {
        let mut cursor = Cursor::new(text, No, NONE).unwrap();
        spoil(&mut cursor);
        let mut tokens = 0;
        loop {
            let at = cursor.position();
            let token = cursor.advance_token();
            let line = text[..at].matches('\n').count() as u32;
            assert_eq!(token.line, line);
            if token.kind == TokenKind::Eof {
                assert_eq!((token.len, token.start, cursor.position()), (0, at, at));
                break;
            }
            assert_eq!((token.start, token.len), (at, 1));
            tokens += 1;
        }
        // It stays so.
        let (refusal, rest) = (cursor.refusal(), cursor.as_str());
        assert_eq!(cursor.advance_token().kind, TokenKind::Eof);
        assert_eq!(cursor.try_advance_token(), refusal.map_or(Ok(None), Err));
        assert_eq!(cursor.guarded_double_quoted_string(), None);
        assert_eq!((cursor.refusal(), cursor.as_str()), (refusal, rest));
        assert_eq!(rest.len(), text.len() - tokens);
        // An iterator ends there and tells why.
        let mut cursor = Cursor::new(text, No, NONE).unwrap();
        spoil(&mut cursor);
        let mut iterator = Tokens::of(cursor);
        assert_eq!((iterator.by_ref().count(), iterator.refusal()), (tokens, refusal));
        (tokens, refusal)
    }

    #[test]
    fn an_answer_that_cannot_be_stops_the_cursor() {
        let text = ";".repeat(1000);
        assert_eq!(spoiled(&text, |_| ()), (1000, None));
        let bad = Lists { id_start: &[1], ..Lists::EMPTY };
        assert_eq!(
            spoiled(&text, |cursor| cursor.lists = bad),
            (SMALL, Some(Refusal::List { list: crate::ListName::IdStart, pair: 0 }))
        );
        let record = |record: Record| {
            move |cursor: &mut Cursor| Arc::get_mut(&mut cursor.block).unwrap()[7] = record
        };
        // Right; of no kind; of no length; past the text; not here; Eof.
        assert_eq!(spoiled(&text, record([14, 0, 1, 7, 0])), (1000, None));
        let unknown = Refusal::Unknown { number: 0, beside: 43, second: 0 };
        assert_eq!(spoiled(&text, record([43, 0, 1, 7, 0])), (7, Some(unknown)));
        for bad in [
            [14, 0, 0, 7, 0],
            [14, 0, 994, 7, 0],
            [14, 0, u32::MAX, 7, 0],
            [14, 0, 1, 8, 0],
            [42, 0, 1, 7, 0],
        ] {
            assert_eq!(spoiled(&text, record(bad)), (7, Some(FOREIGN)), "{bad:?}");
        }
        // In its line, and in an earlier one than the token before it.
        let lines = "\n;".repeat(500);
        assert_eq!(spoiled(&lines, record([14, 0, 1, 7, 4])), (1000, None));
        for line in [0, 2] {
            let bad = [14, 0, 1, 7, line];
            assert_eq!(spoiled(&lines, record(bad)), (7, Some(FOREIGN)), "{bad:?}");
        }
        // The first one in line 0.
        let first =
            |line| move |cursor: &mut Cursor| Arc::get_mut(&mut cursor.block).unwrap()[0][4] = line;
        assert_eq!(spoiled(&lines, first(0)), (1000, None));
        assert_eq!(spoiled(&lines, first(1)), (0, Some(FOREIGN)));
        // Into a character.
        let text = format!(";;;;;;;é{text}");
        assert_eq!(spoiled(&text, record([41, 0, 1, 7, 0])), (7, Some(FOREIGN)));
        // More tokens than records, and none.
        let text = ";".repeat(1000);
        assert_eq!(spoiled(&text, |cursor| cursor.filled += 1), (SMALL, Some(FOREIGN)));
        assert_eq!(spoiled(&text, |cursor| cursor.room = 0), (SMALL, Some(FOREIGN)));
    }

    #[test]
    fn a_string_that_is_refused_stops_the_cursor() {
        let mut cursor = Cursor::new("#\"a\" b", No, NONE).unwrap();
        cursor.lists.id_start = &[1];
        assert_eq!(cursor.guarded_double_quoted_string(), None);
        assert!(matches!(cursor.refusal(), Some(Refusal::List { .. })));
        assert_eq!((cursor.position(), cursor.advance_token().kind), (0, TokenKind::Eof));
        // It stays so, even where the fault goes.
        cursor.lists = Lists::EMPTY;
        assert_eq!(cursor.guarded_double_quoted_string(), None);
        assert_eq!((cursor.position(), cursor.advance_token().kind), (0, TokenKind::Eof));
    }
}
