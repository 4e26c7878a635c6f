//! The line of a token by every call: by hand, and counted in the text.

use lovemudarn::{
    Cursor, FrontmatterAllowed, Lists, Record, Token, TokenKind, advance_token, token_of, tokenize,
    tokenize_into, tokens_from,
};

use FrontmatterAllowed::{No, Yes};

const NONE: &Lists = &Lists::EMPTY;

/// The line of a place in a text: the LFs before it.
fn line_at(text: &str, place: usize) -> u32 {
    text[..place].matches('\n').count() as u32
}

fn read(records: &[Record]) -> Vec<Token> {
    records.iter().map(|&record| token_of(record).unwrap()).collect()
}

/// The tokens of a text: by all calls the same, each in the line of its start, and with the end.
fn tokens(text: &str, frontmatter: FrontmatterAllowed) -> Vec<Token> {
    let mut records = vec![Record::default(); text.len()];
    let count = tokenize_into(text, frontmatter, NONE, &mut records).unwrap();
    let tokens = read(&records[..count]);
    assert_eq!(tokenize(text, frontmatter, NONE).unwrap().collect::<Vec<_>>(), tokens, "{text:?}");
    let mut cursor = Cursor::new(text, frontmatter, NONE).unwrap();
    let (mut at, mut flag) = (0, frontmatter);
    for (index, &token) in tokens.iter().enumerate() {
        assert_eq!((token.start, token.line), (at, line_at(text, at)), "{text:?}");
        assert_eq!(cursor.advance_token(), token, "{text:?}");
        // From here on to the end.
        let run = tokens_from(text, NONE, at, flag, &mut records).unwrap();
        assert_eq!(read(&records[..run.tokens]), tokens[index..], "{text:?} {at}");
        let one = advance_token(text, NONE, at, flag).unwrap();
        assert_eq!(one.token, token, "{text:?} {at}");
        (at, flag) = (one.next, one.frontmatter);
    }
    let line = line_at(text, text.len());
    let end = Token { kind: TokenKind::Eof, len: 0, start: text.len(), line };
    assert_eq!((at, cursor.advance_token(), cursor.advance_token()), (text.len(), end, end));
    assert_eq!(advance_token(text, NONE, at, flag).unwrap().token, end, "{text:?}");
    tokens
}

/// The bytes of a token, and its line.
type Lined = (&'static str, u32);

#[rustfmt::skip]
const BY_HAND: &[(&str, FrontmatterAllowed, &[Lined])] = &[
    ("", Yes, &[]),
    ("\n", No, &[("\n", 0)]),
    ("a\nb\n\n c\n", No, &[("a", 0), ("\n", 0), ("b", 1), ("\n\n ", 1), ("c", 3), ("\n", 3)]),
    ("a\nb", No, &[("a", 0), ("\n", 0), ("b", 1)]),
    // What else may end a line elsewhere ends none here.
    ("a\rb\r\nc\n\rd", No, &[("a", 0), ("\r", 0), ("b", 0), ("\r\n", 0), ("c", 1), ("\n\r", 1), ("d", 2)]),
    ("a\u{2028}b\u{2029}c\u{85}d\u{b}\u{c}e\nf", No, &[
        ("a", 0), ("\u{2028}", 0), ("b", 0), ("\u{2029}", 0), ("c", 0), ("\u{85}", 0), ("d", 0), ("\u{b}\u{c}", 0),
        ("e", 0), ("\n", 0), ("f", 1),
    ]),
    // LFs in a token: those after it count them.
    ("// a\n/// b\r\nc", No, &[("// a", 0), ("\n", 0), ("/// b\r", 1), ("\n", 1), ("c", 2)]),
    ("a/* b\n/* c\n*/\n*/d", No, &[("a", 0), ("/* b\n/* c\n*/\n*/", 0), ("d", 3)]),
    ("\n/*\n\n", No, &[("\n", 0), ("/*\n\n", 1)]),
    ("\"a\n\\\nb\"c\nd", No, &[("\"a\n\\\nb\"c", 0), ("\n", 2), ("d", 3)]),
    ("a \"b\n\n", No, &[("a", 0), (" ", 0), ("\"b\n\n", 0)]),
    ("r#\"\n\"\n\"#;br\"\n\";'\n'.", No, &[
        ("r#\"\n\"\n\"#", 0), (";", 2), ("br\"\n\"", 2), (";", 3), ("'\n'", 3), (".", 4),
    ]),
    ("\n\n---\na\n---\nb", Yes, &[("\n\n", 0), ("---\na\n---", 2), ("\n", 4), ("b", 5)]),
    ("\n\n---\na\n---\nb", No, &[
        ("\n\n", 0), ("-", 2), ("-", 2), ("-", 2), ("\n", 2), ("a", 3), ("\n", 3), ("-", 4), ("-", 4), ("-", 4),
        ("\n", 4), ("b", 5),
    ]),
    ("\n ---\na\n---\nb", Yes, &[("\n ---\na\n---", 0), ("\n", 3), ("b", 4)]),
];

#[test]
fn by_hand() {
    for &(text, frontmatter, right) in BY_HAND {
        let given: Vec<(&str, u32)> = tokens(text, frontmatter)
            .iter()
            .map(|token| (&text[token.start..][..token.len as usize], token.line))
            .collect();
        assert_eq!(given, right, "{text:?}");
    }
}

/// Where no token of the whole text starts, the line is that of the place.
#[test]
fn at_every_place() {
    let text = "fn f() {\n    g(\"h\r\n\", '\\n'); /* i\n\n é */\r\n\t// \u{2028} j\n}\n\nk";
    for at in (0..=text.len()).filter(|&at| text.is_char_boundary(at)) {
        let one = advance_token(text, NONE, at, No).unwrap().token;
        assert_eq!((one.start, one.line), (at, line_at(text, at)));
        let mut records = [Record::default(); 2];
        let run = tokens_from(text, NONE, at, No, &mut records).unwrap();
        for token in read(&records[..run.tokens]) {
            assert_eq!(token.line, line_at(text, token.start));
        }
    }
}

/// Over all blocks of a cursor, and over more lines than 16 bits count.
#[test]
fn many_lines() {
    for lines in [100, 128, 129, 256, 1000, 5000, 65_536, 70_000] {
        let text = ";\n".repeat(lines);
        let mut cursor = Cursor::new(&text, No, NONE).unwrap();
        for line in 0..lines as u32 {
            let (semi, blank) = (cursor.advance_token(), cursor.advance_token());
            assert_eq!((semi.kind, semi.line), (TokenKind::Semi, line));
            assert_eq!((blank.kind, blank.line), (TokenKind::Whitespace, line));
        }
        let end = cursor.advance_token();
        assert_eq!((end.kind, end.line), (TokenKind::Eof, lines as u32));
        let mut records = vec![Record::default(); 2 * lines];
        assert_eq!(tokenize_into(&text, No, NONE, &mut records), Ok(2 * lines));
        assert!(records.iter().enumerate().all(|(index, record)| record[4] as usize == index / 2));
    }
    let text = format!("{}a", "\n".repeat(65_536));
    assert_eq!(advance_token(&text, NONE, 65_536, No).unwrap().token.line, 65_536);
    assert_eq!(tokens(&text, No)[1].line, 65_536);
}

/// A clone goes on in its own line.
#[test]
fn a_clone_keeps_its_line() {
    let mut cursor = Cursor::new("a\n\"b\n\"\nc", No, NONE).unwrap();
    let lines = |cursor: &mut Cursor| [(); 6].map(|()| cursor.advance_token().line);
    cursor.advance_token();
    let mut clone = cursor.clone();
    assert_eq!(lines(&mut cursor), [0, 1, 2, 3, 3, 3]);
    assert_eq!(lines(&mut clone), [0, 1, 2, 3, 3, 3]);
}
