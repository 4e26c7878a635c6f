//! The calls of 000 that read tokens, each as one line of text. A call that panics
//! is answered `panic`: what the port says there is not for the Rust to decide.

use std::panic::{self, UnwindSafe};

use rustc_lexer::{
    Base, Cursor, DocStyle, FrontmatterAllowed, LiteralKind, RawStrError, Token, TokenKind,
    allows_frontmatter,
};

pub fn tokens(text: &str, allowed: FrontmatterAllowed) -> String {
    caught(|| {
        let words: Vec<String> = rustc_lexer::tokenize(text, allowed)
            .map(|token| kind_and_length(&token))
            .collect();
        // No answer is an empty line.
        if words.is_empty() { "-".to_string() } else { words.join(" ") }
    })
}

/// Every token up to Eof and Eof itself, from one cursor.
pub fn steps(text: &str, allowed: FrontmatterAllowed) -> String {
    caught(|| {
        let mut cursor = Cursor::new(text, allowed);
        let mut words = Vec::new();
        loop {
            let token = cursor.advance_token();
            words.push(with_flag(&token, &cursor));
            if token.kind == TokenKind::Eof {
                return words.join(" ");
            }
        }
    })
}

/// `place` is a boundary of a character.
pub fn one(text: &str, place: usize, allowed: FrontmatterAllowed) -> String {
    caught(|| {
        let mut cursor = Cursor::new(&text[place..], allowed);
        let token = cursor.advance_token();
        with_flag(&token, &cursor)
    })
}

pub fn shebang(text: &str) -> String {
    caught(|| number_or_none(rustc_lexer::strip_shebang(text)))
}

pub fn raw(text: &str, prefix: u32) -> String {
    caught(|| match rustc_lexer::validate_raw_str(text, prefix) {
        Ok(()) => "ok".to_string(),
        Err(RawStrError::InvalidStarter { bad_char }) => {
            format!("InvalidStarter {:x}", bad_char as u32)
        }
        Err(RawStrError::NoTerminator { expected, found, possible_terminator_offset }) => {
            let offset = number_or_none(possible_terminator_offset);
            format!("NoTerminator {expected:x} {found:x} {offset}")
        }
        Err(RawStrError::TooManyDelimiters { found }) => format!("TooManyDelimiters {found:x}"),
    })
}

/// `place` is a boundary of a character.
pub fn guarded(text: &str, place: usize) -> String {
    caught(|| {
        let mut cursor = Cursor::new(&text[place..], FrontmatterAllowed::No);
        let answer = cursor.guarded_double_quoted_string();
        let stands = text.len() - cursor.as_str().len();
        match answer {
            Some(found) => format!(
                "found {:x} {} {:x} {stands:x}",
                found.n_hashes, found.terminated, found.token_len
            ),
            None => format!("none {stands:x}"),
        }
    })
}

fn caught(call: impl FnOnce() -> String + UnwindSafe) -> String {
    // The message would only fill standard error; a panic elsewhere keeps its own.
    panic::set_hook(Box::new(|_| ()));
    let answer = panic::catch_unwind(call);
    let _ = panic::take_hook();
    answer.unwrap_or_else(|_| "panic".to_string())
}

fn kind_and_length(token: &Token) -> String {
    format!("{},{:x}", kind(token.kind), token.len)
}

fn with_flag(token: &Token, cursor: &Cursor) -> String {
    let flag = if allows_frontmatter(cursor) { "on" } else { "off" };
    format!("{},{flag}", kind_and_length(token))
}

fn number_or_none<N: std::fmt::LowerHex>(number: Option<N>) -> String {
    number.map_or_else(|| "none".to_string(), |number| format!("{number:x}"))
}

/// The name of the kind and what it holds, in the order of 000's fields.
fn kind(kind: TokenKind) -> String {
    match kind {
        TokenKind::LineComment { doc_style } => format!("LineComment,{}", doc(doc_style)),
        TokenKind::BlockComment { doc_style, terminated } => {
            format!("BlockComment,{},{terminated}", doc(doc_style))
        }
        TokenKind::Frontmatter { has_invalid_preceding_whitespace, invalid_infostring } => {
            format!("Frontmatter,{has_invalid_preceding_whitespace},{invalid_infostring}")
        }
        TokenKind::Literal { kind, suffix_start } => {
            format!("Literal,{},{suffix_start:x}", literal(kind))
        }
        TokenKind::Lifetime { starts_with_number } => format!("Lifetime,{starts_with_number}"),
        // The other kinds hold nothing.
        named => format!("{named:?}"),
    }
}

fn doc(style: Option<DocStyle>) -> &'static str {
    match style {
        Some(DocStyle::Outer) => "outer",
        Some(DocStyle::Inner) => "inner",
        None => "none",
    }
}

fn literal(kind: LiteralKind) -> String {
    match kind {
        LiteralKind::Int { base, empty_int } => format!("Int,{},{empty_int}", name(base)),
        LiteralKind::Float { base, empty_exponent } => {
            format!("Float,{},{empty_exponent}", name(base))
        }
        LiteralKind::Char { terminated } => format!("Char,{terminated}"),
        LiteralKind::Byte { terminated } => format!("Byte,{terminated}"),
        LiteralKind::Str { terminated } => format!("Str,{terminated}"),
        LiteralKind::ByteStr { terminated } => format!("ByteStr,{terminated}"),
        LiteralKind::CStr { terminated } => format!("CStr,{terminated}"),
        LiteralKind::RawStr { n_hashes } => format!("RawStr,{}", number_or_none(n_hashes)),
        LiteralKind::RawByteStr { n_hashes } => format!("RawByteStr,{}", number_or_none(n_hashes)),
        LiteralKind::RawCStr { n_hashes } => format!("RawCStr,{}", number_or_none(n_hashes)),
    }
}

fn name(base: Base) -> &'static str {
    match base {
        Base::Binary => "Binary",
        Base::Octal => "Octal",
        Base::Decimal => "Decimal",
        Base::Hexadecimal => "Hexadecimal",
    }
}
