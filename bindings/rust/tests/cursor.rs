//! The cursor and the iterator beside the calls that give all tokens, or one, at once.

use lovemudarn::{
    Cursor, FrontmatterAllowed, GuardedStr, Lists, LiteralKind, Record, Token, TokenKind,
    advance_token, token_of, tokenize, tokenize_into,
};

use FrontmatterAllowed::{No, Yes};

const NONE: &Lists = &Lists::EMPTY;

/// By the list call, with room for as many tokens as a text may have.
fn all_at_once(text: &str, frontmatter: FrontmatterAllowed, lists: &Lists) -> Vec<Token> {
    let mut records = vec![Record::default(); text.len()];
    let count = tokenize_into(text, frontmatter, lists, &mut records).unwrap();
    records[..count].iter().map(|&record| token_of(record).unwrap()).collect()
}

/// The same tokens by the cursor and by the iterator; how many there are.
fn same(text: &str, frontmatter: FrontmatterAllowed, lists: &Lists) -> usize {
    let tokens = all_at_once(text, frontmatter, lists);
    let mut cursor = Cursor::new(text, frontmatter, lists).unwrap();
    for &token in &tokens {
        assert_eq!(cursor.position(), token.start);
        assert_eq!(cursor.as_str(), &text[token.start..]);
        assert_eq!(cursor.advance_token(), token, "{text:?}");
    }
    for _ in 0..3 {
        let line = text.matches('\n').count() as u32;
        let end = Token { kind: TokenKind::Eof, len: 0, start: text.len(), line };
        assert_eq!(cursor.advance_token(), end);
        assert_eq!((cursor.position(), cursor.as_str(), cursor.refusal()), (text.len(), "", None));
    }
    let mut cursor = Cursor::new(text, frontmatter, lists).unwrap();
    for &token in &tokens {
        assert_eq!(cursor.try_advance_token(), Ok(Some(token)));
    }
    assert_eq!((cursor.try_advance_token(), cursor.try_advance_token()), (Ok(None), Ok(None)));
    let mut iterator = tokenize(text, frontmatter, lists).unwrap();
    assert_eq!(iterator.by_ref().collect::<Vec<_>>(), tokens);
    assert_eq!((iterator.next(), iterator.refusal()), (None, None));
    tokens.len()
}

const SOURCE: &str =
    "--- a\nb\n---\nfn f<'a>(x: &'a str) -> u8 { /* é */ 12_u8 + b'\\n' /// d\n}\n";

#[test]
fn the_same_tokens_at_every_length() {
    assert_eq!(same("", Yes, NONE), 0);
    for tokens in (1..20).chain(250..265).chain(505..520).chain(2045..2060).chain([9_999]) {
        assert_eq!(same(&";".repeat(tokens), No, NONE), tokens);
        // Two bytes a token, and one character more.
        assert_eq!(same(&"é".repeat(tokens), No, NONE), tokens);
        let text: String = ["x", "\n"].iter().cycle().take(tokens).copied().collect();
        assert_eq!(same(&text, Yes, NONE), tokens);
    }
    for times in [1, 2, 9, 10, 11, 30, 300] {
        let text = SOURCE.repeat(times);
        assert_ne!(same(&text, Yes, NONE), same(&text, No, NONE));
    }
}

#[test]
fn lists_go_on_through_the_blocks() {
    let lists = Lists { id_start: &[0xE9, 0xE9], id_continue: &[0xE9, 0xE9], emoji: &[] };
    let text = "é+'é \"' // a\" ".repeat(1000);
    let (with, without) = (same(&text, No, &lists), same(&text, No, NONE));
    assert_eq!(with, 6000);
    assert_ne!(with, without);
}

/// Frontmatter is allowed through whitespace alone: a block may end right before or after it.
#[test]
fn the_flag_at_every_position() {
    for text in ["\n\n---\na\n---\nb", "x ---\n", " \u{85}\n", "---\n---\n---\n"] {
        for flag in [Yes, No] {
            let mut cursor = Cursor::new(text, flag, NONE).unwrap();
            let (mut at, mut flag) = (0, flag);
            while at < text.len() {
                let one = advance_token(text, NONE, at, flag).unwrap();
                assert_eq!(cursor.frontmatter(), flag);
                assert_eq!(cursor.advance_token(), one.token, "{text:?}");
                (at, flag) = (one.next, one.frontmatter);
            }
            assert_eq!((cursor.position(), cursor.frontmatter()), (at, flag));
        }
    }
}

#[test]
fn characters_ahead() {
    let cursor = Cursor::new("aé€", No, NONE).unwrap();
    assert_eq!((cursor.first(), cursor.third()), ('a', '€'));
    let mut cursor = Cursor::new("a€", No, NONE).unwrap();
    assert_eq!((cursor.first(), cursor.third()), ('a', '\0'));
    cursor.advance_token();
    assert_eq!((cursor.first(), cursor.third()), ('€', '\0'));
    cursor.advance_token();
    assert_eq!((cursor.first(), cursor.third()), ('\0', '\0'));
}

#[test]
fn a_string_after_hashes() {
    let mut cursor = Cursor::new("a ##\"b\n/*\"# c", No, NONE).unwrap();
    cursor.advance_token();
    cursor.advance_token();
    let before = cursor.clone();
    let found = GuardedStr { n_hashes: 2, terminated: true, token_len: 9 };
    assert_eq!(cursor.guarded_double_quoted_string(), Some(found));
    assert_eq!((cursor.position(), cursor.as_str()), (11, " c"));
    let rest = [
        Token { kind: TokenKind::Whitespace, len: 1, start: 11, line: 1 },
        Token { kind: TokenKind::Ident, len: 1, start: 12, line: 1 },
        Token { kind: TokenKind::Eof, len: 0, start: 13, line: 1 },
    ];
    assert_eq!(rest.map(|_| cursor.advance_token()), rest);
    // The clone stands where it stood, and reads the tokens that are there without it.
    let mut before = before;
    let prefix = Token { kind: TokenKind::GuardedStrPrefix, len: 2, start: 2, line: 0 };
    assert_eq!((before.position(), before.advance_token()), (2, prefix));
    let kind = LiteralKind::Str { terminated: true };
    let string = TokenKind::Literal { kind, suffix_start: 6 };
    assert_eq!(before.advance_token(), Token { kind: string, len: 6, start: 4, line: 0 });
    assert_eq!(
        before.advance_token(),
        Token { kind: TokenKind::Pound, len: 1, start: 10, line: 1 }
    );
    // One that does not end, and a quote without hashes.
    for (text, n_hashes, terminated) in [("#\"a", 1, false), ("\"a\"b", 0, true)] {
        let mut cursor = Cursor::new(text, No, NONE).unwrap();
        let found = GuardedStr { n_hashes, terminated, token_len: text.len() as u32 };
        assert_eq!(cursor.guarded_double_quoted_string(), Some(found));
        assert_eq!(cursor.advance_token().kind, TokenKind::Eof);
    }
}

/// Hashes that begin no string are passed, and belong to the next token.
#[test]
fn hashes_that_were_passed() {
    let mut cursor = Cursor::new("\n###12u8 b", No, NONE).unwrap();
    assert_eq!(cursor.guarded_double_quoted_string(), None);
    assert_eq!(cursor.position(), 0);
    cursor.advance_token();
    assert_eq!(cursor.guarded_double_quoted_string(), None);
    assert_eq!((cursor.position(), cursor.as_str()), (4, "12u8 b"));
    assert_eq!(cursor.guarded_double_quoted_string(), None);
    assert_eq!(cursor.position(), 4);
    let token = cursor.advance_token();
    assert_eq!((token.start, token.len, token.line), (1, 7, 1));
    assert!(matches!(token.kind, TokenKind::Literal { suffix_start: 5, .. }), "{token:?}");
    let blank = Token { kind: TokenKind::Whitespace, len: 1, start: 8, line: 1 };
    assert_eq!(cursor.advance_token(), blank);
    // At the end no token takes them.
    let mut cursor = Cursor::new("##", No, NONE).unwrap();
    assert_eq!(cursor.guarded_double_quoted_string(), None);
    let end = Token { kind: TokenKind::Eof, len: 0, start: 2, line: 0 };
    assert_eq!(cursor.advance_token(), end);
}

/// Past the first block too, and the tokens after a string are read from there on.
#[test]
fn strings_between_many_tokens() {
    for before in [0, 1, 255, 256, 257, 1000] {
        let text = format!("{}#\"\n\"#{}", ";".repeat(before), ";#".repeat(before));
        let mut cursor = Cursor::new(&text, No, NONE).unwrap();
        for _ in 0..before {
            assert_eq!(cursor.advance_token().kind, TokenKind::Semi);
        }
        let found = GuardedStr { n_hashes: 1, terminated: true, token_len: 5 };
        assert_eq!(cursor.guarded_double_quoted_string(), Some(found));
        for at in 0..before {
            let start = before + 5 + 2 * at;
            let semi = Token { kind: TokenKind::Semi, len: 1, start, line: 1 };
            let pound = Token { kind: TokenKind::Pound, len: 1, start: start + 1, line: 1 };
            assert_eq!((cursor.advance_token(), cursor.advance_token()), (semi, pound));
        }
        assert_eq!((cursor.advance_token().kind, cursor.refusal()), (TokenKind::Eof, None));
    }
}

/// Frontmatter stays allowed past a string, as in rustc's lexer.
#[test]
fn a_string_before_frontmatter() {
    let mut cursor = Cursor::new("#\"\"#---\n---\n", Yes, NONE).unwrap();
    assert!(cursor.guarded_double_quoted_string().is_some());
    assert_eq!(cursor.frontmatter(), Yes);
    let token = cursor.advance_token();
    assert!(matches!(token.kind, TokenKind::Frontmatter { .. }), "{token:?}");
    assert_eq!((token.start, token.len, cursor.frontmatter()), (4, 7, No));
}
