//! The types of a token, with the names of rustc's lexer, and the one number in which the
//! archive tells a kind.

/// Whether a token may be frontmatter: at the head of a whole file it may, in a part of one it
/// may not.
#[derive(Clone, Copy, Debug, PartialEq, Eq, Hash)]
pub enum FrontmatterAllowed {
    /// Frontmatter is read, until the first token that is not whitespace.
    Yes,
    /// Dashes are minus signs.
    No,
}

/// A token of a text: `len` bytes from byte `start` on, in line `line`.
#[derive(Clone, Copy, Debug, PartialEq, Eq, Hash)]
pub struct Token {
    /// What the token is.
    pub kind: TokenKind,
    /// Its length in bytes, at least 1 but for [`TokenKind::Eof`].
    pub len: u32,
    /// Where it starts: bytes from the beginning of the text.
    pub start: usize,
    /// The line in which it starts: how many LFs stand before it, 0 in the first line. No other
    /// character ends a line; a CR alone does not, nor does U+2028.
    pub line: u32,
}

/// The kinds of tokens.
#[derive(Clone, Copy, Debug, PartialEq, Eq, Hash)]
pub enum TokenKind {
    /// From `//` to the end of the line, which does not belong to it.
    LineComment {
        /// Whether it documents something.
        doc_style: Option<DocStyle>,
    },
    /// From `/*` to the `*/` that closes it; comments nest.
    BlockComment {
        /// Whether it documents something.
        doc_style: Option<DocStyle>,
        /// Whether it is closed.
        terminated: bool,
    },
    /// One or more whitespace characters.
    Whitespace,
    /// A block between fences of dashes at the head of a file.
    Frontmatter {
        /// Whether something other than a newline stands before the fence.
        has_invalid_preceding_whitespace: bool,
        /// Whether more than a name follows the fence on its line.
        invalid_infostring: bool,
    },
    /// An identifier or a keyword.
    Ident,
    /// What would be an identifier if it held no emoji.
    InvalidIdent,
    /// An identifier after `r#`.
    RawIdent,
    /// A keyword after `k#`.
    ForcedKeywordIdent,
    /// An identifier right before `#`, `"` or `'` that is no known prefix of a literal; what
    /// follows is a token of its own.
    UnknownPrefix,
    /// A lifetime right before `#`; the `#` is a token of its own.
    UnknownPrefixLifetime,
    /// A lifetime after `'r#`.
    RawLifetime,
    /// `#"` or `##`.
    GuardedStrPrefix,
    /// A number, a character or a string.
    Literal {
        /// Which literal it is.
        kind: LiteralKind,
        /// Where its suffix starts: bytes from the token's start. Without one it is the length.
        suffix_start: u32,
    },
    /// A lifetime or a label.
    Lifetime {
        /// Whether a digit follows the quote, which no lifetime may have.
        starts_with_number: bool,
    },
    /// `;`
    Semi,
    /// `,`
    Comma,
    /// `.`
    Dot,
    /// `(`
    OpenParen,
    /// `)`
    CloseParen,
    /// `{`
    OpenBrace,
    /// `}`
    CloseBrace,
    /// `[`
    OpenBracket,
    /// `]`
    CloseBracket,
    /// `@`
    At,
    /// `#`
    Pound,
    /// `~`
    Tilde,
    /// `?`
    Question,
    /// `:`
    Colon,
    /// `$`
    Dollar,
    /// `=`
    Eq,
    /// `!`
    Bang,
    /// `<`
    Lt,
    /// `>`
    Gt,
    /// `-`
    Minus,
    /// `&`
    And,
    /// `|`
    Or,
    /// `+`
    Plus,
    /// `*`
    Star,
    /// `/`
    Slash,
    /// `^`
    Caret,
    /// `%`
    Percent,
    /// A character that begins no token.
    Unknown,
    /// The end of the text; no list of tokens holds it.
    Eof,
}

/// Where the documentation of a doc comment belongs.
#[derive(Clone, Copy, Debug, PartialEq, Eq, Hash)]
pub enum DocStyle {
    /// To what follows: `///` and `/**`.
    Outer,
    /// To what it stands in: `//!` and `/*!`.
    Inner,
}

/// The kinds of literals. A suffix does not count: `1f32` is an `Int`.
#[derive(Clone, Copy, Debug, PartialEq, Eq, PartialOrd, Ord, Hash)]
pub enum LiteralKind {
    /// A whole number.
    Int {
        /// The base that its prefix names.
        base: Base,
        /// Whether no digit follows the prefix.
        empty_int: bool,
    },
    /// A number with a point or an exponent.
    Float {
        /// The base that its prefix names.
        base: Base,
        /// Whether no digit follows the `e`.
        empty_exponent: bool,
    },
    /// `'a'`
    Char {
        /// Whether it is closed.
        terminated: bool,
    },
    /// `b'a'`
    Byte {
        /// Whether it is closed.
        terminated: bool,
    },
    /// `"a"`
    Str {
        /// Whether it is closed.
        terminated: bool,
    },
    /// `b"a"`
    ByteStr {
        /// Whether it is closed.
        terminated: bool,
    },
    /// `c"a"`
    CStr {
        /// Whether it is closed.
        terminated: bool,
    },
    /// `r"a"`, `r#"a"#`
    RawStr {
        /// The hashes on each side; `None` where it is broken or has more than 255.
        n_hashes: Option<u8>,
    },
    /// `br"a"`, `br#"a"#`
    RawByteStr {
        /// The hashes on each side; `None` where it is broken or has more than 255.
        n_hashes: Option<u8>,
    },
    /// `cr"a"`, `cr#"a"#`
    RawCStr {
        /// The hashes on each side; `None` where it is broken or has more than 255.
        n_hashes: Option<u8>,
    },
}

/// The base of a number.
#[derive(Clone, Copy, Debug, PartialEq, Eq, PartialOrd, Ord, Hash)]
pub enum Base {
    /// Behind `0b`.
    Binary = 2,
    /// Behind `0o`.
    Octal = 8,
    /// Behind no prefix.
    Decimal = 10,
    /// Behind `0x`.
    Hexadecimal = 16,
}

/// A string after hashes, as [`guarded_double_quoted_string`](crate::guarded_double_quoted_string)
/// finds it.
#[derive(Clone, Copy, Debug, PartialEq, Eq, PartialOrd, Ord, Hash)]
pub struct GuardedStr {
    /// The hashes before it.
    pub n_hashes: u32,
    /// Whether it is closed.
    pub terminated: bool,
    /// Its length in bytes: hashes and suffix belong to it.
    pub token_len: u32,
}

/// What is wrong with a raw string, as [`validate_raw_str`](crate::validate_raw_str) tells.
#[derive(Clone, Copy, Debug, PartialEq, Eq, PartialOrd, Ord, Hash)]
pub enum RawStrError {
    /// Something other than a quote follows the hashes.
    InvalidStarter {
        /// What follows; NUL where the text ends.
        bad_char: char,
    },
    /// No quote has enough hashes after it.
    NoTerminator {
        /// The hashes that the string opens with.
        expected: u32,
        /// The most hashes after a quote.
        found: u32,
        /// Where the first such quote's hashes start: bytes from the beginning of the text.
        possible_terminator_offset: Option<u32>,
    },
    /// The string is whole but has more than 255 hashes.
    TooManyDelimiters {
        /// The hashes that it opens with.
        found: u32,
    },
}

impl TokenKind {
    /// The kind as one number, but for the start of a suffix: the number of the kind and 64
    /// times what it holds. [`from_code`](TokenKind::from_code) reads it back.
    pub fn code(self) -> u32 {
        let (number, detail) = match self {
            TokenKind::LineComment { doc_style } => (0, doc_code(doc_style)),
            TokenKind::BlockComment { doc_style, terminated } => {
                (1, doc_code(doc_style) + 4 * u32::from(terminated))
            }
            TokenKind::Frontmatter { has_invalid_preceding_whitespace, invalid_infostring } => {
                (3, u32::from(has_invalid_preceding_whitespace) + 2 * u32::from(invalid_infostring))
            }
            TokenKind::Literal { kind, suffix_start: _ } => (12, kind.code()),
            TokenKind::Lifetime { starts_with_number } => (13, u32::from(starts_with_number)),
            TokenKind::Whitespace => (2, 0),
            TokenKind::Ident => (4, 0),
            TokenKind::InvalidIdent => (5, 0),
            TokenKind::RawIdent => (6, 0),
            TokenKind::ForcedKeywordIdent => (7, 0),
            TokenKind::UnknownPrefix => (8, 0),
            TokenKind::UnknownPrefixLifetime => (9, 0),
            TokenKind::RawLifetime => (10, 0),
            TokenKind::GuardedStrPrefix => (11, 0),
            TokenKind::Semi => (14, 0),
            TokenKind::Comma => (15, 0),
            TokenKind::Dot => (16, 0),
            TokenKind::OpenParen => (17, 0),
            TokenKind::CloseParen => (18, 0),
            TokenKind::OpenBrace => (19, 0),
            TokenKind::CloseBrace => (20, 0),
            TokenKind::OpenBracket => (21, 0),
            TokenKind::CloseBracket => (22, 0),
            TokenKind::At => (23, 0),
            TokenKind::Pound => (24, 0),
            TokenKind::Tilde => (25, 0),
            TokenKind::Question => (26, 0),
            TokenKind::Colon => (27, 0),
            TokenKind::Dollar => (28, 0),
            TokenKind::Eq => (29, 0),
            TokenKind::Bang => (30, 0),
            TokenKind::Lt => (31, 0),
            TokenKind::Gt => (32, 0),
            TokenKind::Minus => (33, 0),
            TokenKind::And => (34, 0),
            TokenKind::Or => (35, 0),
            TokenKind::Plus => (36, 0),
            TokenKind::Star => (37, 0),
            TokenKind::Slash => (38, 0),
            TokenKind::Caret => (39, 0),
            TokenKind::Percent => (40, 0),
            TokenKind::Unknown => (41, 0),
            TokenKind::Eof => (42, 0),
        };
        number + 64 * detail
    }

    /// The kind of a number, with the start of a suffix, which only a literal keeps. `None`
    /// where no kind has this number.
    pub fn from_code(code: u32, suffix_start: u32) -> Option<TokenKind> {
        let detail = code / 64;
        let kind = match code % 64 {
            0 => return Some(TokenKind::LineComment { doc_style: doc_style(detail)? }),
            1 => {
                let (doc, terminated) = (detail % 4, detail / 4);
                return Some(TokenKind::BlockComment {
                    doc_style: doc_style(doc)?,
                    terminated: flag(terminated)?,
                });
            }
            3 => {
                return Some(TokenKind::Frontmatter {
                    has_invalid_preceding_whitespace: detail % 2 == 1,
                    invalid_infostring: flag(detail / 2)?,
                });
            }
            12 => {
                let kind = LiteralKind::from_code(detail)?;
                return Some(TokenKind::Literal { kind, suffix_start });
            }
            13 => return Some(TokenKind::Lifetime { starts_with_number: flag(detail)? }),
            2 => TokenKind::Whitespace,
            4 => TokenKind::Ident,
            5 => TokenKind::InvalidIdent,
            6 => TokenKind::RawIdent,
            7 => TokenKind::ForcedKeywordIdent,
            8 => TokenKind::UnknownPrefix,
            9 => TokenKind::UnknownPrefixLifetime,
            10 => TokenKind::RawLifetime,
            11 => TokenKind::GuardedStrPrefix,
            14 => TokenKind::Semi,
            15 => TokenKind::Comma,
            16 => TokenKind::Dot,
            17 => TokenKind::OpenParen,
            18 => TokenKind::CloseParen,
            19 => TokenKind::OpenBrace,
            20 => TokenKind::CloseBrace,
            21 => TokenKind::OpenBracket,
            22 => TokenKind::CloseBracket,
            23 => TokenKind::At,
            24 => TokenKind::Pound,
            25 => TokenKind::Tilde,
            26 => TokenKind::Question,
            27 => TokenKind::Colon,
            28 => TokenKind::Dollar,
            29 => TokenKind::Eq,
            30 => TokenKind::Bang,
            31 => TokenKind::Lt,
            32 => TokenKind::Gt,
            33 => TokenKind::Minus,
            34 => TokenKind::And,
            35 => TokenKind::Or,
            36 => TokenKind::Plus,
            37 => TokenKind::Star,
            38 => TokenKind::Slash,
            39 => TokenKind::Caret,
            40 => TokenKind::Percent,
            41 => TokenKind::Unknown,
            42 => TokenKind::Eof,
            _ => return None,
        };
        // The other kinds hold nothing.
        if detail == 0 { Some(kind) } else { None }
    }

    /// Whether the key leaves the token out: whitespace, and comments that document nothing.
    pub fn is_trivia(self) -> bool {
        matches!(
            self,
            TokenKind::Whitespace
                | TokenKind::LineComment { doc_style: None }
                | TokenKind::BlockComment { doc_style: None, .. }
        )
    }

    /// Whether a text has no key if its replaced text, in which each CR LF is LF, has such a token: a
    /// literal that is not closed or has no count of hashes, a block comment that is not closed.
    pub fn is_broken(self) -> bool {
        match self {
            TokenKind::BlockComment { terminated, .. } => !terminated,
            TokenKind::Literal { kind, .. } => match kind {
                LiteralKind::Int { .. } | LiteralKind::Float { .. } => false,
                LiteralKind::Char { terminated }
                | LiteralKind::Byte { terminated }
                | LiteralKind::Str { terminated }
                | LiteralKind::ByteStr { terminated }
                | LiteralKind::CStr { terminated } => !terminated,
                LiteralKind::RawStr { n_hashes }
                | LiteralKind::RawByteStr { n_hashes }
                | LiteralKind::RawCStr { n_hashes } => n_hashes.is_none(),
            },
            _ => false,
        }
    }
}

impl LiteralKind {
    fn code(self) -> u32 {
        let (number, detail) = match self {
            LiteralKind::Int { base, empty_int } => (0, base_code(base) + 4 * u32::from(empty_int)),
            LiteralKind::Float { base, empty_exponent } => {
                (1, base_code(base) + 4 * u32::from(empty_exponent))
            }
            LiteralKind::Char { terminated } => (2, u32::from(terminated)),
            LiteralKind::Byte { terminated } => (3, u32::from(terminated)),
            LiteralKind::Str { terminated } => (4, u32::from(terminated)),
            LiteralKind::ByteStr { terminated } => (5, u32::from(terminated)),
            LiteralKind::CStr { terminated } => (6, u32::from(terminated)),
            LiteralKind::RawStr { n_hashes } => (7, hash_code(n_hashes)),
            LiteralKind::RawByteStr { n_hashes } => (8, hash_code(n_hashes)),
            LiteralKind::RawCStr { n_hashes } => (9, hash_code(n_hashes)),
        };
        number + 16 * detail
    }

    fn from_code(code: u32) -> Option<LiteralKind> {
        let detail = code / 16;
        Some(match code % 16 {
            0 => LiteralKind::Int { base: base(detail % 4), empty_int: flag(detail / 4)? },
            1 => LiteralKind::Float { base: base(detail % 4), empty_exponent: flag(detail / 4)? },
            2 => LiteralKind::Char { terminated: flag(detail)? },
            3 => LiteralKind::Byte { terminated: flag(detail)? },
            4 => LiteralKind::Str { terminated: flag(detail)? },
            5 => LiteralKind::ByteStr { terminated: flag(detail)? },
            6 => LiteralKind::CStr { terminated: flag(detail)? },
            7 => LiteralKind::RawStr { n_hashes: hashes(detail)? },
            8 => LiteralKind::RawByteStr { n_hashes: hashes(detail)? },
            9 => LiteralKind::RawCStr { n_hashes: hashes(detail)? },
            _ => return None,
        })
    }
}

fn doc_code(doc_style: Option<DocStyle>) -> u32 {
    match doc_style {
        None => 0,
        Some(DocStyle::Outer) => 1,
        Some(DocStyle::Inner) => 2,
    }
}

fn doc_style(code: u32) -> Option<Option<DocStyle>> {
    match code {
        0 => Some(None),
        1 => Some(Some(DocStyle::Outer)),
        2 => Some(Some(DocStyle::Inner)),
        _ => None,
    }
}

fn base_code(base: Base) -> u32 {
    match base {
        Base::Binary => 0,
        Base::Octal => 1,
        Base::Decimal => 2,
        Base::Hexadecimal => 3,
    }
}

// Of a number below 4.
fn base(code: u32) -> Base {
    match code {
        0 => Base::Binary,
        1 => Base::Octal,
        2 => Base::Decimal,
        _ => Base::Hexadecimal,
    }
}

fn hash_code(n_hashes: Option<u8>) -> u32 {
    n_hashes.map_or(0, |n| u32::from(n) + 1)
}

fn hashes(code: u32) -> Option<Option<u8>> {
    match code.checked_sub(1) {
        None => Some(None),
        Some(n) => u8::try_from(n).ok().map(Some),
    }
}

fn flag(code: u32) -> Option<bool> {
    match code {
        0 => Some(false),
        1 => Some(true),
        _ => None,
    }
}
