//! What is derived: at least what rustc's lexer derives on the type of the same name, and the orders
//! are the same. That this file compiles is half of the test.

use std::fmt::Debug;
use std::hash::Hash;

use lovemudarn::{
    Advanced, Base, Cause, Cursor, DocStyle, FrontmatterAllowed, GuardedStr, Held, ListName, Lists,
    LiteralKind, LoadedLists, RawStrError, Refusal, Run, Token, TokenKind, Tokens, Version,
};

const fn value<T: Clone + Copy + Debug + PartialEq + Eq + Hash + Send + Sync + 'static>() {}
const fn ordered<T: Copy + PartialOrd + Ord>() {}
const fn place<T: Clone + Debug + Send + Sync>() {}
const fn owned<T: Clone + Debug + Default + PartialEq + Eq + Hash + Send + Sync + 'static>() {}

const _: () = {
    // In rustc's lexer too: Clone, Copy, Debug, PartialEq, Eq.
    value::<TokenKind>();
    value::<DocStyle>();
    value::<LiteralKind>();
    value::<GuardedStr>();
    value::<RawStrError>();
    value::<Base>();
    // And these: PartialOrd, Ord.
    ordered::<LiteralKind>();
    ordered::<GuardedStr>();
    ordered::<RawStrError>();
    ordered::<Base>();
    // There Debug alone, or nothing.
    value::<Token>();
    value::<FrontmatterAllowed>();
    place::<Cursor>();
    place::<Tokens>();
    // Not there.
    value::<Advanced>();
    value::<Run>();
    value::<Cause>();
    value::<ListName>();
    value::<Lists>();
    value::<Refusal>();
    value::<Version>();
    ordered::<Version>();
    value::<Held>();
    owned::<LoadedLists>();
};

/// Each is less than the next.
fn ascend<T: Ord + Debug>(values: &[T]) {
    assert!(values.len() > 1);
    for pair in values.windows(2) {
        assert!(pair[0] < pair[1], "{pair:?}");
    }
}

#[test]
fn orders() {
    ascend(&[Base::Binary, Base::Octal, Base::Decimal, Base::Hexadecimal]);
    let (binary, decimal) = (Base::Binary, Base::Decimal);
    ascend(&[
        LiteralKind::Int { base: binary, empty_int: true },
        LiteralKind::Int { base: decimal, empty_int: false },
        LiteralKind::Int { base: decimal, empty_int: true },
        LiteralKind::Float { base: binary, empty_exponent: true },
        LiteralKind::Float { base: decimal, empty_exponent: false },
        LiteralKind::Char { terminated: false },
        LiteralKind::Char { terminated: true },
        LiteralKind::Byte { terminated: false },
        LiteralKind::Str { terminated: false },
        LiteralKind::ByteStr { terminated: false },
        LiteralKind::CStr { terminated: false },
        LiteralKind::RawStr { n_hashes: None },
        LiteralKind::RawStr { n_hashes: Some(0) },
        LiteralKind::RawByteStr { n_hashes: None },
        LiteralKind::RawCStr { n_hashes: None },
        LiteralKind::RawCStr { n_hashes: Some(255) },
    ]);
    let guarded = |n_hashes, terminated, token_len| GuardedStr { n_hashes, terminated, token_len };
    ascend(&[guarded(1, true, 9), guarded(2, false, 9), guarded(2, true, 3), guarded(2, true, 4)]);
    let no_end = |expected, found, possible_terminator_offset| RawStrError::NoTerminator {
        expected,
        found,
        possible_terminator_offset,
    };
    ascend(&[
        RawStrError::InvalidStarter { bad_char: 'a' },
        RawStrError::InvalidStarter { bad_char: 'é' },
        no_end(1, 5, Some(3)),
        no_end(2, 0, None),
        no_end(2, 1, None),
        no_end(2, 1, Some(0)),
        RawStrError::TooManyDelimiters { found: 0 },
    ]);
    let version = |major, minor, update| Version { major, minor, update };
    ascend(&[version(9, 10, 11), version(15, 0, 0), version(15, 0, 1), version(15, 1, 0)]);
}
