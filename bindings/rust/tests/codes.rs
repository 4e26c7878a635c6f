//! The number of a kind: reading it is the inverse of making it, over all numbers and all kinds.

use lovemudarn::{Base, DocStyle, LiteralKind, TokenKind};

const FLAGS: [bool; 2] = [false, true];
const DOCS: [Option<DocStyle>; 3] = [None, Some(DocStyle::Outer), Some(DocStyle::Inner)];
const BASES: [Base; 4] = [Base::Binary, Base::Octal, Base::Decimal, Base::Hexadecimal];

fn literals() -> Vec<LiteralKind> {
    let mut all = Vec::new();
    for base in BASES {
        for flag in FLAGS {
            all.push(LiteralKind::Int { base, empty_int: flag });
            all.push(LiteralKind::Float { base, empty_exponent: flag });
        }
    }
    for terminated in FLAGS {
        all.push(LiteralKind::Char { terminated });
        all.push(LiteralKind::Byte { terminated });
        all.push(LiteralKind::Str { terminated });
        all.push(LiteralKind::ByteStr { terminated });
        all.push(LiteralKind::CStr { terminated });
    }
    for n_hashes in (0..=255).map(Some).chain([None]) {
        all.push(LiteralKind::RawStr { n_hashes });
        all.push(LiteralKind::RawByteStr { n_hashes });
        all.push(LiteralKind::RawCStr { n_hashes });
    }
    all
}

/// Every kind, but for the start of a suffix.
fn kinds(suffix_start: u32) -> Vec<TokenKind> {
    use TokenKind::*;
    #[rustfmt::skip]
    let mut all = vec![
        Whitespace, Ident, InvalidIdent, RawIdent, ForcedKeywordIdent, UnknownPrefix,
        UnknownPrefixLifetime, RawLifetime, GuardedStrPrefix, Semi, Comma, Dot, OpenParen, CloseParen,
        OpenBrace, CloseBrace, OpenBracket, CloseBracket, At, Pound, Tilde, Question, Colon, Dollar, Eq,
        Bang, Lt, Gt, Minus, And, Or, Plus, Star, Slash, Caret, Percent, Unknown, Eof,
    ];
    all.extend(DOCS.map(|doc_style| LineComment { doc_style }));
    for one in FLAGS {
        all.push(Lifetime { starts_with_number: one });
        all.extend(DOCS.map(|doc_style| BlockComment { doc_style, terminated: one }));
        all.extend(FLAGS.map(|two| Frontmatter {
            has_invalid_preceding_whitespace: one,
            invalid_infostring: two,
        }));
    }
    all.extend(literals().into_iter().map(|kind| Literal { kind, suffix_start }));
    all
}

#[test]
fn every_kind_is_read_back() {
    for suffix_start in [0, 1, 7, u32::MAX] {
        for kind in kinds(suffix_start) {
            assert_eq!(TokenKind::from_code(kind.code(), suffix_start), Some(kind));
        }
    }
}

#[test]
fn every_number_is_of_one_kind_or_none() {
    let all = kinds(5);
    let top = all.iter().map(|kind| kind.code()).max().unwrap();
    let mut read = Vec::new();
    for code in 0..=4 * top {
        if let Some(kind) = TokenKind::from_code(code, 5) {
            assert_eq!(kind.code(), code);
            read.push(kind);
        }
    }
    assert_eq!(read.len(), all.len());
    assert!(all.iter().all(|kind| read.contains(kind)));
    // Larger numbers: no number of 32 bits wraps round to a kind.
    for high in (0..32).map(|bit| 1u32 << bit).chain([u32::MAX - 63, 3 << 30, 5 << 29]) {
        for low in 0..64 {
            let code = high | low;
            if code > top {
                assert_eq!(TokenKind::from_code(code, 5), None, "{code}");
            }
        }
    }
}

#[test]
fn the_numbers_are_the_archives() {
    assert_eq!(TokenKind::LineComment { doc_style: Some(DocStyle::Inner) }.code(), 128);
    let closed = TokenKind::BlockComment { doc_style: None, terminated: true };
    assert_eq!(closed.code(), 1 + 64 * 4);
    let kind = LiteralKind::Int { base: Base::Decimal, empty_int: false };
    assert_eq!(TokenKind::Literal { kind, suffix_start: 0 }.code(), 12 + 64 * 32);
    let kind = LiteralKind::RawCStr { n_hashes: Some(255) };
    assert_eq!(TokenKind::Literal { kind, suffix_start: 0 }.code(), 12 + 64 * (9 + 16 * 256));
    assert_eq!(TokenKind::Eof.code(), 42);
}
