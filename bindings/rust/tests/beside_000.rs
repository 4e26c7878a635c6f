//! Every call beside rustc's own lexer, on texts of fragments, on random characters and on damaged
//! bytes. tools/test-rust builds that lexer where its source is at hand, and sets `beside_000`.
//!
//! LOVEMUDARN_TEXTS is the number of texts, LOVEMUDARN_SEED another seed.

#![cfg(beside_000)]

mod common;
#[path = "../../../tools/bench/lists.rs"]
mod lists;

use std::env;
use std::ops::RangeInclusive;
use std::sync::{Mutex, MutexGuard, PoisonError};

use common::{by_rust, every_call_refuses};
use lists::pairs;
use lovemudarn::{
    Base, Cursor, DocStyle, FrontmatterAllowed, GuardedStr, Lists, LiteralKind, RawStrError,
    Record, Refusal, Token, TokenKind,
};

// ---- what rustc's lexer says, in the types of this crate ----

fn doc(style: Option<rustc_lexer::DocStyle>) -> Option<DocStyle> {
    style.map(|style| match style {
        rustc_lexer::DocStyle::Outer => DocStyle::Outer,
        rustc_lexer::DocStyle::Inner => DocStyle::Inner,
    })
}

fn base(base: rustc_lexer::Base) -> Base {
    match base {
        rustc_lexer::Base::Binary => Base::Binary,
        rustc_lexer::Base::Octal => Base::Octal,
        rustc_lexer::Base::Decimal => Base::Decimal,
        rustc_lexer::Base::Hexadecimal => Base::Hexadecimal,
    }
}

fn literal(kind: rustc_lexer::LiteralKind) -> LiteralKind {
    use rustc_lexer::LiteralKind as Theirs;
    match kind {
        Theirs::Int { base: b, empty_int } => LiteralKind::Int { base: base(b), empty_int },
        Theirs::Float { base: b, empty_exponent } => {
            LiteralKind::Float { base: base(b), empty_exponent }
        }
        Theirs::Char { terminated } => LiteralKind::Char { terminated },
        Theirs::Byte { terminated } => LiteralKind::Byte { terminated },
        Theirs::Str { terminated } => LiteralKind::Str { terminated },
        Theirs::ByteStr { terminated } => LiteralKind::ByteStr { terminated },
        Theirs::CStr { terminated } => LiteralKind::CStr { terminated },
        Theirs::RawStr { n_hashes } => LiteralKind::RawStr { n_hashes },
        Theirs::RawByteStr { n_hashes } => LiteralKind::RawByteStr { n_hashes },
        Theirs::RawCStr { n_hashes } => LiteralKind::RawCStr { n_hashes },
    }
}

fn kind(kind: rustc_lexer::TokenKind) -> TokenKind {
    use rustc_lexer::TokenKind as Theirs;
    match kind {
        Theirs::LineComment { doc_style } => TokenKind::LineComment { doc_style: doc(doc_style) },
        Theirs::BlockComment { doc_style, terminated } => {
            TokenKind::BlockComment { doc_style: doc(doc_style), terminated }
        }
        Theirs::Frontmatter { has_invalid_preceding_whitespace, invalid_infostring } => {
            TokenKind::Frontmatter { has_invalid_preceding_whitespace, invalid_infostring }
        }
        Theirs::Literal { kind, suffix_start } => {
            TokenKind::Literal { kind: literal(kind), suffix_start }
        }
        Theirs::Lifetime { starts_with_number } => TokenKind::Lifetime { starts_with_number },
        Theirs::Whitespace => TokenKind::Whitespace,
        Theirs::Ident => TokenKind::Ident,
        Theirs::InvalidIdent => TokenKind::InvalidIdent,
        Theirs::RawIdent => TokenKind::RawIdent,
        Theirs::ForcedKeywordIdent => TokenKind::ForcedKeywordIdent,
        Theirs::UnknownPrefix => TokenKind::UnknownPrefix,
        Theirs::UnknownPrefixLifetime => TokenKind::UnknownPrefixLifetime,
        Theirs::RawLifetime => TokenKind::RawLifetime,
        Theirs::GuardedStrPrefix => TokenKind::GuardedStrPrefix,
        Theirs::Semi => TokenKind::Semi,
        Theirs::Comma => TokenKind::Comma,
        Theirs::Dot => TokenKind::Dot,
        Theirs::OpenParen => TokenKind::OpenParen,
        Theirs::CloseParen => TokenKind::CloseParen,
        Theirs::OpenBrace => TokenKind::OpenBrace,
        Theirs::CloseBrace => TokenKind::CloseBrace,
        Theirs::OpenBracket => TokenKind::OpenBracket,
        Theirs::CloseBracket => TokenKind::CloseBracket,
        Theirs::At => TokenKind::At,
        Theirs::Pound => TokenKind::Pound,
        Theirs::Tilde => TokenKind::Tilde,
        Theirs::Question => TokenKind::Question,
        Theirs::Colon => TokenKind::Colon,
        Theirs::Dollar => TokenKind::Dollar,
        Theirs::Eq => TokenKind::Eq,
        Theirs::Bang => TokenKind::Bang,
        Theirs::Lt => TokenKind::Lt,
        Theirs::Gt => TokenKind::Gt,
        Theirs::Minus => TokenKind::Minus,
        Theirs::And => TokenKind::And,
        Theirs::Or => TokenKind::Or,
        Theirs::Plus => TokenKind::Plus,
        Theirs::Star => TokenKind::Star,
        Theirs::Slash => TokenKind::Slash,
        Theirs::Caret => TokenKind::Caret,
        Theirs::Percent => TokenKind::Percent,
        Theirs::Unknown => TokenKind::Unknown,
        Theirs::Eof => TokenKind::Eof,
    }
}

fn allowed(frontmatter: FrontmatterAllowed) -> rustc_lexer::FrontmatterAllowed {
    match frontmatter {
        FrontmatterAllowed::Yes => rustc_lexer::FrontmatterAllowed::Yes,
        FrontmatterAllowed::No => rustc_lexer::FrontmatterAllowed::No,
    }
}

fn guarded(found: rustc_lexer::GuardedStr) -> GuardedStr {
    GuardedStr {
        n_hashes: found.n_hashes,
        terminated: found.terminated,
        token_len: found.token_len,
    }
}

/// The line of a place: the LFs before it. Their tokens have neither starts nor lines.
fn line_at(text: &str, place: usize) -> u32 {
    text.bytes().take(place).filter(|&byte| byte == b'\n').count() as u32
}

fn their_tokens(text: &str, frontmatter: FrontmatterAllowed) -> Vec<Token> {
    let mut start = 0;
    rustc_lexer::tokenize(text, allowed(frontmatter))
        .map(|token| {
            let line = line_at(text, start);
            let token = Token { kind: kind(token.kind), len: token.len, start, line };
            start += token.len as usize;
            token
        })
        .collect()
}

/// The hidden direction marks.
const MARKS: &[char] = &[
    '\u{202a}', '\u{202b}', '\u{202c}', '\u{202d}', '\u{202e}', '\u{2066}', '\u{2067}', '\u{2068}',
    '\u{2069}',
];

/// The key by the scope paper's words, over their tokens of the text in which each CR LF is LF.
fn their_key(text: &str) -> Result<Vec<u8>, Refusal> {
    if let Some(at) = text.find("\r\r\n") {
        return Err(Refusal::DoubleReturn { at });
    }
    if let Some(at) = text.find(MARKS) {
        return Err(Refusal::HiddenMark { at });
    }
    let text = &text.replace("\r\n", "\n");
    let tokens = their_tokens(text, FrontmatterAllowed::No);
    if let Some(token) = tokens.iter().find(|token| token.kind.is_broken()) {
        return Err(Refusal::Broken { at: token.start });
    }
    let mut out = Vec::new();
    let mut gap = false;
    for token in tokens {
        let trivia = token.kind.is_trivia();
        if !trivia {
            out.extend(&text.as_bytes()[token.start..token.start + token.len as usize]);
        } else if !gap {
            out.push(b'\n');
        }
        gap = trivia;
    }
    Ok(out)
}

// ---- texts ----

/// A fixed run of pseudo-random numbers.
struct Chance(u64);

impl Chance {
    fn below(&mut self, limit: usize) -> usize {
        self.0 = self.0.wrapping_mul(6364136223846793005).wrapping_add(1442695040888963407);
        (self.0 >> 33) as usize % limit
    }

    fn pick<T: Copy>(&mut self, items: &[T]) -> T {
        items[self.below(items.len())]
    }
}

#[rustfmt::skip]
const PIECES: &[&str] = &[
    // blanks and comments
    " ", "\n", "\t", "\r\n", "\r", "\r\r\n", "\\\r\n", "\u{85}", "\u{200e}", "\u{2028}", "\u{2029}", "\u{b}", "//", "///", "//!", "////", "/*",
    "*/", "/**", "/*!", "/***", "/**/", "/", "*", "!", "// a\n", "/// b\n", "/* c */", "/** d */", "/*! e */", "/*/",
    // words
    "a", "r", "b", "c", "k", "br", "cr", "rb", "e", "E", "_", "x", "fn", "é", "日本", "ß", "r#a", "k#fn", "'a", "'r#a",
    "\u{301}", "\u{200d}", "\u{202f}", "\u{2065}", "\u{206a}", "😀", "👩\u{200d}💻", "№", "\u{feff}", "\0",
    // quotes
    "'", "\"", "\\", "\\\\", "\\\"", "\\'", "#", "##", "###", "'a'", "'\\n'", "'''", "\"a\"", "b'a'", "b\"a\"",
    "c\"a\"", "r\"a\"", "r#\"a\"#", "br##\"a\"##", "cr#\"", "\"#", "\"##", "~",
    // numbers
    "0", "1", "2", "9", "0b", "0o", "0x", "0b1", "0x1e3", "1.", "1.5", "1e3", "1e", "1e+", "1E-", "12_u8", ".", "..",
    "-", "+",
    // marks
    ";", ",", "(", ")", "{", "}", "[", "]", "@", "?", ":", "$", "=", "<", ">", "&", "|", "^", "%",
    // frontmatter and shebang
    "---", "----", "--", "---\n", "\n---", "\n----", "--- a\n", "\nuse ", "\n//!", "\n#![", "use ", "#!", "#![a]",
    "---a-b.c", " ---",
];

#[rustfmt::skip]
const RANGES: &[RangeInclusive<u32>] = &[
    0..=0x7F, 0x20..=0x7E, 0x80..=0x3FF, 0x2000..=0x206F, 0x3040..=0x30FF, 0x1F300..=0x1F6FF, 0..=0x10FFFF,
];

fn fragments(chance: &mut Chance) -> String {
    (0..1 + chance.below(14)).map(|_| chance.pick(PIECES)).collect()
}

fn characters(chance: &mut Chance) -> String {
    let range = &RANGES[chance.below(RANGES.len())];
    let span = (range.end() - range.start() + 1) as usize;
    (0..1 + chance.below(12))
        .filter_map(|_| char::from_u32(range.start() + chance.below(span) as u32))
        .collect()
}

/// A raw string, mostly one with a wrong end.
fn raw_string(chance: &mut Chance) -> String {
    let mut text = chance.pick(&["r", "br", "cr", "r#", "br#", "cr#", "r##", "r###"]).to_string();
    text.push_str(chance.pick(&["\"", "\"", "\"", "#", "a", ""]));
    text.extend(
        (0..chance.below(12)).map(|_| chance.pick(&["\"", "\"", "#", "#", "##", "a", "é"])),
    );
    text
}

fn any_text(chance: &mut Chance) -> String {
    let text = match chance.below(16) {
        0..4 => characters(chance),
        4 | 5 => raw_string(chance),
        6 => format!("#!{}", fragments(chance)),
        7 => format!("---{}", fragments(chance)),
        _ => fragments(chance),
    };
    marked(text, chance)
}

/// The text, now and then with a hidden direction mark somewhere in it.
fn marked(mut text: String, chance: &mut Chance) -> String {
    if chance.below(12) == 0 {
        let places: Vec<usize> =
            text.char_indices().map(|(at, _)| at).chain([text.len()]).collect();
        text.insert(chance.pick(&places), chance.pick(MARKS));
    }
    text
}

// ---- lists ----

struct Owned([Vec<u32>; 3]);

impl Owned {
    /// The same lists for both sides, in a test that has its [`turn`].
    fn lend(&self) -> Lists<'_> {
        let theirs = |list: &[u32]| list.chunks(2).map(|pair| (pair[0], pair[1])).collect();
        unicode_ident::lend_start(theirs(&self.0[0]));
        unicode_ident::lend_continue(theirs(&self.0[1]));
        unicode_properties::lend_emoji(theirs(&self.0[2]));
        Lists { id_start: &self.0[0], id_continue: &self.0[1], emoji: &self.0[2] }
    }
}

/// The lists of rustc's lexer are shared by all threads: one test at a time lends them.
fn turn() -> MutexGuard<'static, ()> {
    static TURN: Mutex<()> = Mutex::new(());
    TURN.lock().unwrap_or_else(PoisonError::into_inner)
}

fn all_lists() -> Vec<Owned> {
    let pictures =
        |c| ('\u{1f300}'..='\u{1f9ff}').contains(&c) || ('\u{2600}'..='\u{27bf}').contains(&c);
    vec![
        Owned([vec![], vec![], vec![]]),
        Owned([pairs(char::is_alphabetic), pairs(char::is_alphanumeric), pairs(pictures)]),
        // Odd ones: all is everything; starts that do not go on.
        Owned([pairs(|_| true), pairs(|_| true), pairs(|_| true)]),
        Owned([
            pairs(|c| u32::from(c) % 1000 < 500),
            pairs(|c| u32::from(c) % 1000 >= 500),
            pairs(|c| u32::from(c) % 3000 < 9),
        ]),
    ]
}

// ---- the comparison ----

#[derive(Default)]
struct Count {
    texts: usize,
    tokens: usize,
    /// Of these, how many are past the first line.
    later: usize,
    strings: usize,
    keys: usize,
    /// Of these, how many are of a text with CR LF.
    replaced: usize,
    double_returns: usize,
    /// Texts with a hidden direction mark, and how many of them have it inside a longer token.
    marks: usize,
    marks_inside: usize,
    broken: usize,
    ill_formed: usize,
    /// Of these, how many of each cause.
    causes: [usize; 3],
}

fn compare(text: &str, lists: &Lists, count: &mut Count) {
    count.texts += 1;
    for frontmatter in [FrontmatterAllowed::No, FrontmatterAllowed::Yes] {
        let theirs = their_tokens(text, frontmatter);
        let ours: Vec<Token> = lovemudarn::tokenize(text, frontmatter, lists).unwrap().collect();
        assert_eq!(ours, theirs, "{text:?} {frontmatter:?}");
        let mut records = vec![Record::default(); text.len()];
        let tokens = lovemudarn::tokenize_into(text, frontmatter, lists, &mut records).unwrap();
        let read = |&record| lovemudarn::token_of(record).unwrap();
        assert!(records[..tokens].iter().map(read).eq(ours), "{text:?} {frontmatter:?}");
        count.tokens += theirs.len();
        count.later += theirs.iter().filter(|token| token.line > 0).count();
        // One by one, with the flag that their cursor has.
        let mut cursor = rustc_lexer::Cursor::new(text, allowed(frontmatter));
        let (mut at, mut flag) = (0, frontmatter);
        for token in theirs.iter().map(Some).chain([None]) {
            let one = lovemudarn::advance_token(text, lists, at, flag).unwrap();
            let end = text.len();
            let eof = Token { kind: TokenKind::Eof, len: 0, start: end, line: line_at(text, end) };
            assert_eq!(one.token, token.copied().unwrap_or(eof), "{text:?} {at}");
            cursor.advance_token();
            assert_eq!(
                one.frontmatter == FrontmatterAllowed::Yes,
                rustc_lexer::allows_frontmatter(&cursor)
            );
            assert_eq!(one.next, text.len() - cursor.as_str().len());
            (at, flag) = (one.next, one.frontmatter);
        }
    }
    let theirs = their_key(text);
    let ours = lovemudarn::key(text, lists);
    assert_eq!(ours, theirs, "{text:?}");
    match ours {
        Ok(key) => {
            count.keys += 1;
            count.replaced += usize::from(text.contains("\r\n"));
            assert_eq!(
                lovemudarn::key(&key, lists).as_ref(),
                Ok(&key),
                "the key of a key: {text:?}"
            );
        }
        Err(Refusal::DoubleReturn { .. }) => count.double_returns += 1,
        Err(Refusal::HiddenMark { at }) => {
            count.marks += 1;
            let starts = |token: &Token| token.start == at && token.len == 3;
            let alone = their_tokens(text, FrontmatterAllowed::No).iter().any(starts);
            count.marks_inside += usize::from(!alone);
        }
        Err(_) => count.broken += 1,
    }
    assert_eq!(lovemudarn::strip_shebang(text), Ok(rustc_lexer::strip_shebang(text)), "{text:?}");
    assert_eq!(lovemudarn::is_ident(text, lists), Ok(rustc_lexer::is_ident(text)), "{text:?}");
    for (at, _) in text.char_indices().chain([(text.len(), ' ')]) {
        let one = lovemudarn::advance_token(text, lists, at, FrontmatterAllowed::No).unwrap();
        assert_eq!((one.token.start, one.token.line), (at, line_at(text, at)), "{text:?}");
        let rest = &text[at..];
        let mut cursor = rustc_lexer::Cursor::new(rest, rustc_lexer::FrontmatterAllowed::No);
        let found = cursor.guarded_double_quoted_string().map(guarded);
        let next = text.len() - cursor.as_str().len();
        let ours = lovemudarn::guarded_double_quoted_string(text, lists, at);
        assert_eq!(ours, Ok((found, next)), "{text:?} {at}");
        for (prefix, begins) in
            [(1, rest.starts_with('r')), (2, rest.starts_with("br") || rest.starts_with("cr"))]
        {
            let ours = lovemudarn::validate_raw_str(rest, prefix);
            if begins {
                let theirs = rustc_lexer::validate_raw_str(rest, prefix as u32).map_err(raw_error);
                assert_eq!(ours, Ok(theirs), "{rest:?}");
            } else {
                assert_eq!(ours, Err(Refusal::Prefix), "{rest:?} {prefix}");
            }
        }
    }
}

/// Both cursors side by side, over tokens and strings after hashes as chance wants it.
fn compare_cursors(text: &str, lists: &Lists, chance: &mut Chance, count: &mut Count) {
    for frontmatter in [FrontmatterAllowed::No, FrontmatterAllowed::Yes] {
        let mut theirs = rustc_lexer::Cursor::new(text, allowed(frontmatter));
        let mut ours = Cursor::new(text, frontmatter, lists).unwrap();
        let often = 1 + chance.below(4);
        // Where the next token starts, if lengths are added up.
        let mut start = 0;
        loop {
            assert_eq!(ours.as_str(), theirs.as_str(), "{text:?}");
            assert_eq!(ours.position(), text.len() - theirs.as_str().len());
            assert_eq!((ours.first(), ours.third()), (theirs.first(), theirs.third()));
            let flag = rustc_lexer::allows_frontmatter(&theirs);
            assert_eq!(ours.frontmatter() == FrontmatterAllowed::Yes, flag, "{text:?}");
            let string = matches!(theirs.first(), '#' | '"') || chance.below(20) == 0;
            if string && chance.below(often) == 0 {
                let found = theirs.guarded_double_quoted_string().map(guarded);
                assert_eq!(ours.guarded_double_quoted_string(), found, "{text:?}");
                start += found.map_or(0, |found| found.token_len as usize);
                count.strings += usize::from(found.is_some());
            } else {
                let token = theirs.advance_token();
                let (token, ours) = ((kind(token.kind), token.len), ours.advance_token());
                assert_eq!((ours.kind, ours.len), token, "{text:?}");
                assert_eq!(ours.line, line_at(text, ours.start), "{text:?}");
                if ours.kind == TokenKind::Eof {
                    assert_eq!(ours.start, text.len());
                    break;
                }
                assert_eq!(ours.start, start, "{text:?}");
                start += ours.len as usize;
            }
        }
        assert_eq!(ours.refusal(), None);
    }
}

fn raw_error(error: rustc_lexer::RawStrError) -> RawStrError {
    use rustc_lexer::RawStrError as Theirs;
    match error {
        Theirs::InvalidStarter { bad_char } => RawStrError::InvalidStarter { bad_char },
        Theirs::NoTerminator { expected, found, possible_terminator_offset } => {
            RawStrError::NoTerminator { expected, found, possible_terminator_offset }
        }
        Theirs::TooManyDelimiters { found } => RawStrError::TooManyDelimiters { found },
    }
}

/// A text with some bytes changed: where it is not UTF-8 any more, every call tells where and why.
fn compare_damaged(text: &str, chance: &mut Chance, lists: &Lists, count: &mut Count) {
    let mut bytes = text.as_bytes().to_vec();
    for _ in 0..1 + chance.below(3) {
        if !bytes.is_empty() {
            let at = chance.below(bytes.len());
            match chance.below(4) {
                0 => bytes[at] = chance.below(256) as u8,
                1 => drop(bytes.remove(at)),
                2 => bytes.truncate(at),
                _ => bytes.insert(at, 0x80 + chance.below(128) as u8),
            }
        }
    }
    let Some(refusal) = by_rust(&bytes) else {
        return compare(std::str::from_utf8(&bytes).unwrap(), lists, count);
    };
    every_call_refuses(&bytes, lists, refusal);
    count.ill_formed += 1;
    count.causes[refusal.cause().unwrap().number() as usize - 1] += 1;
}

fn number(name: &str, otherwise: u64) -> u64 {
    env::var(name).ok().and_then(|word| word.parse().ok()).unwrap_or(otherwise)
}

#[test]
fn the_same_as_rustcs_lexer() {
    let _turn = turn();
    let texts = number("LOVEMUDARN_TEXTS", 40_000) as usize;
    let mut chance = Chance(number("LOVEMUDARN_SEED", 1));
    let all = all_lists();
    let mut count = Count::default();
    for owned in &all {
        let lists = owned.lend();
        for c in '\0'..=char::MAX {
            assert_eq!(lovemudarn::is_whitespace(c), rustc_lexer::is_whitespace(c));
            assert_eq!(
                lovemudarn::is_horizontal_whitespace(c),
                rustc_lexer::is_horizontal_whitespace(c)
            );
            // The searches go from the front: a part of the characters is enough here.
            if u32::from(c) < 0x3000 || u32::from(c) % 97 == 0 {
                assert_eq!(lovemudarn::is_id_start(c, &lists), Ok(rustc_lexer::is_id_start(c)));
                assert_eq!(
                    lovemudarn::is_id_continue(c, &lists),
                    Ok(rustc_lexer::is_id_continue(c))
                );
            }
        }
        for _ in 0..texts / all.len() {
            let text = any_text(&mut chance);
            compare(&text, &lists, &mut count);
            compare_cursors(&text, &lists, &mut chance, &mut count);
            if chance.below(4) == 0 {
                compare_damaged(&text, &mut chance, &lists, &mut count);
            }
        }
        // Long ones.
        for _ in 0..20 {
            let text: String = (0..200).map(|_| chance.pick(PIECES)).collect();
            compare(&marked(text, &mut chance), &lists, &mut count);
        }
        // Longer than several blocks of the cursor.
        for _ in 0..40 {
            let pieces = 100 + chance.below(3000);
            let text: String = (0..pieces).map(|_| chance.pick(PIECES)).collect();
            compare_cursors(&text, &lists, &mut chance, &mut count);
        }
        // As many tokens as the blocks have, and some more or less.
        for tokens in (250..262).chain(506..518).chain(2040..2064) {
            for piece in ["x ", "; ", "é ", "1#"] {
                let text: String = piece.chars().cycle().take(tokens).collect();
                compare_cursors(&text, &lists, &mut chance, &mut count);
            }
        }
    }
    println!(
        "{} texts, {} tokens, {} of them past the first line, {} strings after hashes, {} keys, {} of them of texts with CR LF, {} with CR CR LF, {} with hidden marks ({} inside a token), {} broken, {} ill-formed by cause {:?}: all agree",
        count.texts,
        count.tokens,
        count.later,
        count.strings,
        count.keys,
        count.replaced,
        count.double_returns,
        count.marks,
        count.marks_inside,
        count.broken,
        count.ill_formed,
        count.causes
    );
    for seen in [count.strings, count.keys, count.broken, count.ill_formed] {
        assert!(seen * 50 > count.texts, "too few to tell");
    }
    for seen in [count.replaced, count.double_returns] {
        assert!(seen * 200 > count.texts, "too few line ends to tell");
    }
    for seen in [count.marks, count.marks_inside] {
        assert!(seen * 100 > count.texts, "too few hidden marks to tell");
    }
    for seen in count.causes {
        assert!(seen * 400 > count.texts, "too few of a cause to tell");
    }
    assert!(count.later * 10 > count.tokens, "too few lines to tell");
}

#[test]
fn the_same_orders() {
    use rustc_lexer::{Base as TheirBase, LiteralKind as Theirs};
    let bases = [TheirBase::Binary, TheirBase::Octal, TheirBase::Decimal, TheirBase::Hexadecimal];
    let mut all = Vec::new();
    for flag in [false, true] {
        for base in bases {
            all.push(Theirs::Int { base, empty_int: flag });
            all.push(Theirs::Float { base, empty_exponent: flag });
        }
        all.push(Theirs::Char { terminated: flag });
        all.push(Theirs::Byte { terminated: flag });
        all.push(Theirs::Str { terminated: flag });
        all.push(Theirs::ByteStr { terminated: flag });
        all.push(Theirs::CStr { terminated: flag });
    }
    for n_hashes in [None, Some(0), Some(1), Some(255)] {
        all.push(Theirs::RawStr { n_hashes });
        all.push(Theirs::RawByteStr { n_hashes });
        all.push(Theirs::RawCStr { n_hashes });
    }
    for &one in &all {
        for &two in &all {
            assert_eq!(literal(one).cmp(&literal(two)), one.cmp(&two), "{one:?} {two:?}");
        }
    }
    for one in bases {
        assert_eq!(base(one) as u32, one as u32);
        for two in bases {
            assert_eq!(base(one).cmp(&base(two)), one.cmp(&two));
        }
    }
    let mut chance = Chance(1);
    let mut number = || chance.below(3) as u32;
    let errors: Vec<_> = (0..60)
        .map(|_| {
            use rustc_lexer::RawStrError as Theirs;
            let (expected, found) = (number(), number());
            let possible_terminator_offset = number().checked_sub(1);
            match number() {
                0 => Theirs::InvalidStarter { bad_char: if found == 0 { 'a' } else { 'b' } },
                1 => Theirs::TooManyDelimiters { found },
                _ => Theirs::NoTerminator { expected, found, possible_terminator_offset },
            }
        })
        .collect();
    let strings: Vec<_> = (0..60)
        .map(|_| rustc_lexer::GuardedStr {
            n_hashes: number(),
            terminated: number() == 0,
            token_len: number(),
        })
        .collect();
    for one in 0..60 {
        for two in 0..60 {
            let theirs = errors[one].cmp(&errors[two]);
            assert_eq!(raw_error(errors[one]).cmp(&raw_error(errors[two])), theirs);
            let theirs = strings[one].cmp(&strings[two]);
            assert_eq!(guarded(strings[one]).cmp(&guarded(strings[two])), theirs);
        }
    }
}

// ---- where lists may matter ----

/// What rustc's lexer says of a text with the lists that are lent.
#[derive(PartialEq, Debug)]
struct Said {
    tokens: Vec<Token>,
    key: Result<Vec<u8>, Refusal>,
}

fn said(text: &str) -> Said {
    Said { tokens: their_tokens(text, FrontmatterAllowed::No), key: their_key(text) }
}

#[derive(Default, Debug)]
struct Needs {
    /// Texts with a character past ASCII that need no lists, and how many of them have a key.
    free: usize,
    free_keys: usize,
    /// Texts that may need them; those whose tokens differ, and whose keys differ.
    bound: usize,
    tokens_differ: usize,
    keys_differ: usize,
}

/// A text that needs no lists but these is the same with the newer ones; the others are counted by what
/// those do.
fn compare_needs(texts: &[String], these: &Owned, newer: &[Owned]) -> Needs {
    let lists = these.lend();
    let place = |text| lovemudarn::needs_newer_lists(text, &lists).unwrap();
    let with_these: Vec<(Option<usize>, Said)> =
        texts.iter().map(|text| (place(text), said(text))).collect();
    if lists == Lists::EMPTY {
        for (text, (place, _)) in texts.iter().zip(&with_these) {
            assert_eq!(lovemudarn::needs_lists(text), Ok(*place), "{text:?}");
        }
    }
    let mut needs = Needs::default();
    let mut differs = vec![(false, false); texts.len()];
    for owned in newer {
        let lists = owned.lend();
        for ((text, (place, old)), differs) in texts.iter().zip(&with_these).zip(&mut differs) {
            let new = said(text);
            match *place {
                None => {
                    assert_eq!(new, *old, "{text:?}");
                    assert_eq!(lovemudarn::key(text, &lists), old.key, "{text:?}");
                }
                Some(place) => {
                    assert!(!text[place..].starts_with(|c: char| c.is_ascii()), "{text:?}");
                    differs.0 |= new.tokens != old.tokens;
                    differs.1 |= new.key != old.key;
                }
            }
        }
    }
    for ((text, (place, none)), (tokens, keys)) in texts.iter().zip(&with_these).zip(differs) {
        if place.is_some() {
            needs.bound += 1;
            needs.tokens_differ += usize::from(tokens);
            needs.keys_differ += usize::from(keys);
        } else if !text.is_ascii() {
            needs.free += 1;
            needs.free_keys += usize::from(none.key.is_ok());
        }
    }
    needs
}

/// The characters at which tokens turn, and some that lists are asked about.
#[rustfmt::skip]
const TURNS: &[&str] = &[
    "'", "\"", "#", "r", "k", "b", "a", "1", ".", "e", "/", "*", "\\", "\n", "\r\n", " ", "é", "😀", "\u{85}",
];

/// Every text of at most so many of them.
fn short_texts(most: usize) -> Vec<String> {
    let mut all = vec![String::new()];
    let mut from = 0;
    for _ in 0..most {
        let until = all.len();
        for at in from..until {
            for piece in TURNS {
                all.push(format!("{}{piece}", all[at]));
            }
        }
        from = until;
    }
    all
}

#[test]
fn a_text_that_needs_no_lists_is_the_same_with_any() {
    let _turn = turn();
    let every = || pairs(|_| true);
    let simple = [
        Owned([every(), every(), every()]),
        Owned([every(), every(), vec![]]),
        Owned([every(), vec![], vec![]]),
        Owned([vec![], every(), vec![]]),
        Owned([vec![], vec![], every()]),
    ];
    let none = Owned([vec![], vec![], vec![]]);
    let short = compare_needs(&short_texts(4), &none, &simple);
    println!("short texts: {short:?}");
    let mut chance = Chance(number("LOVEMUDARN_SEED", 1));
    let texts: Vec<String> = (0..number("LOVEMUDARN_TEXTS", 40_000))
        .map(|_| match chance.below(3) {
            0 => any_text(&mut chance),
            1 => (0..5 + chance.below(8)).map(|_| chance.pick(TURNS)).collect(),
            _ => {
                // Characters past ASCII mostly where they do not matter.
                let whole = [
                    "'é'",
                    "\"é\"",
                    "// é\n",
                    "/*é*/",
                    "r\"😀\"",
                    "b'é'",
                    "\"é",
                    " ",
                    "a",
                    "'",
                    "1",
                ];
                (0..1 + chance.below(8)).map(|_| chance.pick(&whole)).collect()
            }
        })
        .collect();
    let mut all = all_lists();
    all.extend(simple);
    let random = compare_needs(&texts, &none, &all);
    println!("random texts: {random:?}");
    for needs in [short, random] {
        let all = needs.free + needs.bound;
        assert!(needs.free * 5 > all && needs.free_keys * 10 > all, "{needs:?}");
        assert!(needs.bound * 5 > all && needs.keys_differ * 100 > all, "{needs:?}");
        // It is seldom asked for in vain.
        assert!(needs.tokens_differ * 10 > needs.bound * 9, "{needs:?}");
    }
}

/// The same of lists that are not empty: those of a few characters, and newer ones that hold others
/// beside them.
#[test]
fn a_text_that_needs_no_newer_lists_is_the_same_with_them() {
    let _turn = turn();
    let mut chance = Chance(number("LOVEMUDARN_SEED", 1));
    let mut texts = short_texts(3);
    texts.extend((0..number("LOVEMUDARN_TEXTS", 40_000)).map(|_| match chance.below(3) {
        0 => any_text(&mut chance),
        _ => (0..4 + chance.below(9)).map(|_| chance.pick(TURNS)).collect(),
    }));
    let mut needs = Needs::default();
    // What starts a name, goes on in one, and is emoji.
    for these in [["é", "é", ""], ["", "é", ""], ["é", "", ""], ["😀", "é", "é"], ["", "", "😀"]]
    {
        let lists = |more: [bool; 3]| {
            let of = |list: usize| {
                pairs(|c| {
                    these[list].contains(c) || more[list] && !these.iter().any(|l| l.contains(c))
                })
            };
            Owned([of(0), of(1), of(2)])
        };
        let newer = [
            [true, true, true],
            [true, true, false],
            [true, false, false],
            [false, true, false],
            [false, false, true],
        ];
        let one = compare_needs(&texts, &lists([false; 3]), &newer.map(lists));
        println!("{these:?}: {one:?}");
        needs.free += one.free;
        needs.free_keys += one.free_keys;
        needs.bound += one.bound;
        needs.tokens_differ += one.tokens_differ;
        needs.keys_differ += one.keys_differ;
    }
    let all = needs.free + needs.bound;
    assert!(needs.free * 10 > all && needs.free_keys * 20 > all, "{needs:?}");
    assert!(needs.bound * 5 > all && needs.keys_differ * 100 > all, "{needs:?}");
}
