//! The rows and examples of the scope paper.

use lovemudarn::{
    Base, Cursor, DocStyle, FrontmatterAllowed, GuardedStr, Lists, LiteralKind, RawStrError, Token,
    TokenKind, advance_token, guarded_double_quoted_string, is_emoji_char,
    is_horizontal_whitespace, is_id_continue, is_id_start, is_ident, is_whitespace, key,
    strip_shebang, tokenize, validate_raw_str,
};

use FrontmatterAllowed::{No, Yes};

const NONE: &Lists = &Lists::EMPTY;

/// The first token, by all calls.
fn first(text: &str, frontmatter: FrontmatterAllowed) -> Token {
    let one = advance_token(text, NONE, 0, frontmatter).unwrap();
    assert_eq!(tokenize(text, frontmatter, NONE).unwrap().next(), Some(one.token), "{text:?}");
    let mut cursor = Cursor::new(text, frontmatter, NONE).unwrap();
    assert_eq!(cursor.advance_token(), one.token, "{text:?}");
    assert_eq!((one.next, cursor.position()), (one.token.len as usize, one.next));
    one.token
}

fn literal(kind: LiteralKind, suffix_start: u32) -> TokenKind {
    TokenKind::Literal { kind, suffix_start }
}

#[test]
fn rows() {
    let int = |base| LiteralKind::Int { base, empty_int: false };
    let chr = LiteralKind::Char { terminated: true };
    let block = |doc_style, terminated| TokenKind::BlockComment { doc_style, terminated };
    let rows = [
        ("/*/*/", block(None, false), 5),
        ("/***/", block(None, true), 5),
        ("/**a*/", block(Some(DocStyle::Outer), true), 6),
        ("////", TokenKind::LineComment { doc_style: None }, 4),
        ("r##~x", literal(LiteralKind::RawStr { n_hashes: None }, 4), 4),
        ("'ab'c", literal(chr, 4), 4),
        ("'a'c", literal(chr, 3), 4),
        ("'''", literal(chr, 3), 3),
        ("1.foo", literal(int(Base::Decimal), 1), 1),
        ("1.", literal(LiteralKind::Float { base: Base::Decimal, empty_exponent: false }, 2), 2),
        ("12_u8", literal(int(Base::Decimal), 3), 5),
        ("0b2", literal(int(Base::Binary), 3), 3),
        ("0x1e3", literal(int(Base::Hexadecimal), 5), 5),
    ];
    for (text, kind, len) in rows {
        assert_eq!(first(text, No), Token { kind, len, start: 0, line: 0 }, "{text:?}");
    }
    let kind = TokenKind::Frontmatter {
        has_invalid_preceding_whitespace: false,
        invalid_infostring: false,
    };
    let rows = [
        ("---\nx\n---\n", 9),
        ("---\n----x\n", 9),
        ("----\nx\n---\ny", 10),
        ("--- a\nb---  ---\nz", 15),
    ];
    for (text, len) in rows {
        assert_eq!(first(text, Yes), Token { kind, len, start: 0, line: 0 }, "{text:?}");
        assert_eq!(first(text, No).kind, TokenKind::Minus);
    }
}

#[test]
fn key_of_the_example() {
    let text = "/* a */x = 1; // b\n";
    assert_eq!(text.len(), 19);
    assert_eq!(key(text, NONE).unwrap(), b"\nx\n=\n1;\n");
    assert_eq!(key("\nx\n=\n1;\n", NONE).unwrap(), b"\nx\n=\n1;\n");
    assert_eq!(key("", NONE).unwrap(), b"");
}

#[test]
fn what_a_key_keeps_apart() {
    assert_eq!(key("= =", NONE).unwrap(), b"=\n=");
    assert_eq!(key("==", NONE).unwrap(), b"==");
    // What documents something is kept, byte for byte.
    assert_eq!(key("/// a\nx", NONE).unwrap(), b"/// a\nx");
    assert_eq!(key("/** a */x", NONE).unwrap(), b"/** a */x");
    assert_eq!(key("//// a\nx", NONE).unwrap(), b"\nx");
    assert_eq!(key("\"/* a */\" 'b'", NONE).unwrap(), b"\"/* a */\"\n'b'");
    // The frontmatter is off.
    assert_eq!(key("---\nx\n---\n", NONE).unwrap(), b"---\nx\n---\n");
}

/// Document 02, W3: a text, its twin with CR LF line ends, and their key, which is keyed again.
#[test]
fn line_ends_change_no_key() {
    for (text, right) in [
        ("", ""),
        ("\n", "\n"),
        ("a;\nb; // c\n", "a;\nb;\n"),
        ("a /* b\n */ c", "a\nc"),
        ("/// a\nb", "/// a\nb"),
        ("/** a\n */b", "/** a\n */b"),
        ("\"a\nb\" c\"\n\"", "\"a\nb\"\nc\"\n\""),
        ("\"a\\\n  b\"", "\"a\\\n  b\""),
        ("r#\"\n\"\n\"# br\"\n\"", "r#\"\n\"\n\"#\nbr\"\n\""),
        ("'\n' '+\n'", "'\n'\n'+\n'"),
        ("'\\\nx' b'\\\nx'", "'\\\nx'\nb'\\\nx'"),
        ("é\n'é'\n\"é\n\"", "é\n'é'\n\"é\n\""),
    ] {
        let twin = text.replace('\n', "\r\n");
        for text in [text, &twin, right] {
            assert_eq!(key(text, NONE).unwrap(), right.as_bytes(), "{text:?}");
        }
    }
    // A CR alone stays: in a token it is one of its bytes, and between tokens it is whitespace.
    for (text, right) in [
        ("a\rb\r\rc\r", "a\nb\nc\n"),
        ("\"a\rb\" \"\r\r\"", "\"a\rb\"\n\"\r\r\""),
        ("\"\n\r\"", "\"\n\r\""),
        ("\"\r\n\r\"", "\"\n\r\""),
        ("/// a\rb\r\nc", "/// a\rb\nc"),
    ] {
        assert_eq!(key(text, NONE).unwrap(), right.as_bytes(), "{text:?}");
        assert_eq!(key(right, NONE).unwrap(), right.as_bytes(), "{right:?}");
    }
    // The calls on tokens read the text as it is lent: there CR LF ends this character.
    let chr = |terminated, len| Token {
        kind: literal(LiteralKind::Char { terminated }, len),
        len,
        start: 0,
        line: 0,
    };
    assert_eq!(first("'\\\r\nx'", No), chr(false, 3));
    assert_eq!(first("'\\\nx'", No), chr(true, 5));
    let string = literal(LiteralKind::Str { terminated: true }, 6);
    assert_eq!(first("\"a\r\nb\"", No), Token { kind: string, len: 6, start: 0, line: 0 });
    assert_eq!(first("\r\r\n", No).len, 3);
}

#[test]
fn raw_checks() {
    let no_end =
        RawStrError::NoTerminator { expected: 2, found: 1, possible_terminator_offset: Some(7) };
    assert_eq!(validate_raw_str("r##\"é\"#", 1), Ok(Err(no_end)));
    assert_eq!(validate_raw_str("br\"a\"", 2), Ok(Ok(())));
    let nowhere =
        RawStrError::NoTerminator { expected: 0, found: 0, possible_terminator_offset: None };
    assert_eq!(validate_raw_str("cr\"a", 2), Ok(Err(nowhere)));
    assert_eq!(validate_raw_str("r#", 1), Ok(Err(RawStrError::InvalidStarter { bad_char: '\0' })));
    assert_eq!(validate_raw_str("r#é", 1), Ok(Err(RawStrError::InvalidStarter { bad_char: 'é' })));
    let many = "#".repeat(256);
    assert_eq!(
        validate_raw_str(format!("r{many}\"a\"{many}"), 1),
        Ok(Err(RawStrError::TooManyDelimiters { found: 256 }))
    );
}

#[test]
fn guarded_strings() {
    let found = GuardedStr { n_hashes: 2, terminated: true, token_len: 6 };
    assert_eq!(guarded_double_quoted_string("##\"a\"x", NONE, 0), Ok((Some(found), 6)));
    assert_eq!(guarded_double_quoted_string("##a", NONE, 0), Ok((None, 2)));
    assert_eq!(guarded_double_quoted_string("##a", NONE, 3), Ok((None, 3)));
}

#[test]
fn shebangs() {
    assert_eq!(strip_shebang("#!a\r\n"), Ok(Some(3)));
    assert_eq!(strip_shebang("#!"), Ok(Some(2)));
    assert_eq!(strip_shebang("#![a]"), Ok(None));
    assert_eq!(strip_shebang("#! /* a */ [a]"), Ok(None));
    assert_eq!(strip_shebang(""), Ok(None));
}

#[test]
fn classes() {
    let white = "\t\n\u{b}\u{c}\r \u{85}\u{200e}\u{200f}\u{2028}\u{2029}";
    for c in '\0'..=char::MAX {
        assert_eq!(is_whitespace(c), white.contains(c), "{c:?}");
        assert_eq!(is_horizontal_whitespace(c), c == '\t' || c == ' ', "{c:?}");
    }
    let lists =
        Lists { id_start: &[0xC0, 0xD6], id_continue: &[0x300, 0x36F], emoji: &[0x1F600, 0x1F64F] };
    for (c, start, goes_on, emoji) in [
        ('a', true, true, false),
        ('_', true, true, false),
        ('0', false, true, false),
        ('#', false, false, false),
        ('\u{c0}', true, false, false),
        ('\u{d7}', false, false, false),
        ('\u{36f}', false, true, false),
        ('\u{1f600}', false, false, true),
    ] {
        assert_eq!(is_id_start(c, &lists), Ok(start), "{c:?}");
        assert_eq!(is_id_continue(c, &lists), Ok(goes_on), "{c:?}");
        assert_eq!(is_emoji_char(c, &lists), Ok(emoji), "{c:?}");
    }
    assert_eq!(is_ident("", NONE), Ok(false));
    assert_eq!(is_ident("a9", NONE), Ok(true));
    assert_eq!(is_ident("9a", NONE), Ok(false));
    assert_eq!(is_ident("\u{c0}\u{301}", &lists), Ok(true));
    assert_eq!(is_ident("\u{c0}\u{301}", NONE), Ok(false));
}

#[test]
fn the_flag_goes_on() {
    let text = "\n ---\nx\n---\n";
    let white = advance_token(text, NONE, 0, Yes).unwrap();
    // Whitespace that does not end in a newline and the fence are one token.
    assert_eq!(
        white.token.kind,
        TokenKind::Frontmatter {
            has_invalid_preceding_whitespace: true,
            invalid_infostring: false,
        }
    );
    assert_eq!(white.frontmatter, No);
    let blank = advance_token("\n---\n", NONE, 0, Yes).unwrap();
    assert_eq!((blank.token.kind, blank.next, blank.frontmatter), (TokenKind::Whitespace, 1, Yes));
    let end = advance_token(text, NONE, text.len(), Yes).unwrap();
    assert_eq!(end.token, Token { kind: TokenKind::Eof, len: 0, start: text.len(), line: 4 });
    assert_eq!((end.next, end.frontmatter), (text.len(), Yes));
}
