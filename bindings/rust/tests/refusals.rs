//! Every refusal, its place, the order of the checks, and that a refusal writes nothing. tests/lists_file.rs has
//! those of the file of lists.

mod common;

use common::{UNTOUCHED, by_rust, every_call_refuses};
use lovemudarn::{
    Cause, Cursor, FrontmatterAllowed::No, ListName, Lists, MAX_PAIRS, NUMBERS_OF_A_TOKEN, Refusal,
    Run, advance_token, check, guarded_double_quoted_string, is_emoji_char, is_id_continue,
    is_id_start, is_ident, key, key_into, lent_place, mark_name, needs_lists, strip_shebang,
    token_of, tokenize, tokenize_into, tokens_from, validate_raw_str,
};

const NONE: &Lists = &Lists::EMPTY;

/// That the calls on all tokens refuse a text so, and write nothing.
fn no_tokens(text: &[u8], lists: &Lists, refusal: Refusal) {
    assert_eq!(tokenize(text, No, lists).map(Iterator::count), Err(refusal));
    assert_eq!(Cursor::new(text, No, lists).map(|cursor| cursor.position()), Err(refusal));
    let mut records = [UNTOUCHED; 3];
    assert_eq!(tokenize_into(text, No, lists, &mut records), Err(refusal));
    assert_eq!(tokens_from(text, lists, 99, No, &mut records), Err(refusal));
    assert_eq!(records, [UNTOUCHED; 3]);
}

#[test]
fn not_utf8() {
    let texts: [(&[u8], usize, Cause); 24] = [
        // A first byte that starts nothing, whatever comes after it.
        (b"\xff", 0, Cause::Start),
        (b"\x80", 0, Cause::Start),
        (b"a\xc0\x80", 1, Cause::Start),
        (b"a\xc1", 1, Cause::Start),
        (b"a\xf5\x80\x80\x80", 1, Cause::Start),
        (b"caf\xc3\xa9\xa9", 5, Cause::Start),
        (b"\"a\xff\" /*", 2, Cause::Start),
        (b"#!\xfe \xe2\x82", 2, Cause::Start),
        // The end where every byte was right.
        (b"\xc2", 0, Cause::Cut),
        (b"a\xe2\x82", 1, Cause::Cut),
        (b"a\xed\x9f", 1, Cause::Cut),
        (b"caf\xc3\xa9 \xf0\x9f\x98", 6, Cause::Cut),
        (b"r#\"\xf4\x8f\xbf", 3, Cause::Cut),
        // A byte that is wrong after others, with more after it or not.
        (b"\xe0\x80", 0, Cause::Follow),
        (b"\xe2(", 0, Cause::Follow),
        (b"a\xe2\xff", 1, Cause::Follow),
        (b"a\xe2\x82b", 1, Cause::Follow),
        (b"a\xe2\x82\0", 1, Cause::Follow),
        (b"caf\xc3\xa9 \xed\xa0\x80", 6, Cause::Follow),
        (b"a\xed\xa0", 1, Cause::Follow),
        (b"a\xf0\x8f\xbf\xbf", 1, Cause::Follow),
        (b"a\xf4\x90\x80\x80", 1, Cause::Follow),
        (b"a\xf0\x90\x80\xc0", 1, Cause::Follow),
        (b"#\"\xc3\" \xff", 2, Cause::Follow),
    ];
    for (text, at, cause) in texts {
        let refusal = Refusal::NotUtf8 { at, cause };
        assert_eq!(
            (refusal.number(), refusal.place(), refusal.cause()),
            (2, Some(at), Some(cause))
        );
        every_call_refuses(text, NONE, refusal);
    }
}

/// Every text of so many of these bytes.
fn texts_of(bytes: &[u8], len: u32) -> impl Iterator<Item = Vec<u8>> {
    let count = bytes.len();
    (0..count.pow(len))
        .map(move |n| (0..len).map(|place| bytes[n / count.pow(place) % count]).collect())
}

/// Every text of up to three bytes, and every one of four at which the rules of UTF-8 turn.
#[test]
fn not_utf8_as_rust_says() {
    let every: Vec<u8> = (0..=255).collect();
    let turns = [
        0x00, 0x7F, 0x80, 0x8F, 0x90, 0x9F, 0xA0, 0xBF, 0xC0, 0xC1, 0xC2, 0xDF, 0xE0, 0xE1, 0xEC,
        0xED, 0xEE, 0xEF, 0xF0, 0xF1, 0xF3, 0xF4, 0xF5, 0xFF,
    ];
    let mut seen = [0; 4];
    for text in (0..=3).flat_map(|len| texts_of(&every, len)).chain(texts_of(&turns, 4)) {
        let refusal = by_rust(&text);
        assert_eq!(check(&text, NONE).err(), refusal, "{text:x?}");
        seen[refusal.and_then(Refusal::cause).map_or(0, Cause::number) as usize] += 1;
    }
    assert_eq!(seen.iter().sum::<usize>(), 1 + 256 + 65_536 + 16_777_216 + 331_776);
    assert!(seen.iter().all(|&count| count > 3000), "{seen:?}");
}

/// `cargo test --release -- --ignored` runs it.
#[test]
#[ignore = "takes some minutes"]
fn every_text_of_four_bytes_as_rust_says() {
    for number in 0..=u32::MAX {
        let text = number.to_be_bytes();
        assert_eq!(check(text, NONE).err(), by_rust(&text), "{text:x?}");
    }
}

#[test]
fn lists() {
    let pairs = 0x10000..0x10000 + 4 * (MAX_PAIRS as u32 + 1);
    let many: Vec<u32> = pairs.step_by(4).flat_map(|low| [low, low + 1]).collect();
    let bad: [(&[u32], usize); 9] = [
        (&[0x41, 0x5A], 0),
        (&[0x100], 0),
        (&[0xAA, 0xAA, 0x100], 1),
        (&[0xAA, 0xAA, 0xAA, 0xAA], 1),
        (&[0x301, 0x300], 0),
        (&[0x80, 0x84, 0x85, 0x85], 1),
        (&[0xD7FF, 0xD800], 0),
        (&[0xE000, 0x110000], 0),
        (&many, MAX_PAIRS),
    ];
    for (list, pair) in bad {
        let cases = [
            (Lists { id_start: list, ..Lists::EMPTY }, ListName::IdStart),
            (Lists { id_continue: list, ..Lists::EMPTY }, ListName::IdContinue),
            (Lists { emoji: list, ..Lists::EMPTY }, ListName::Emoji),
        ];
        for (lists, name) in cases {
            let refused = Refusal::List { list: name, pair };
            assert_eq!((refused.number(), refused.place()), (3, None));
            // Lists come before the text's bytes.
            for text in [&b"a"[..], b"\xff", b""] {
                assert_eq!(check(text, &lists), Err(refused));
                no_tokens(text, &lists, refused);
                assert_eq!(key(text, &lists), Err(refused));
                assert_eq!(advance_token(text, &lists, 9, No), Err(refused));
            }
            // Calls check only what they use.
            let ident = is_ident("a", &lists);
            let guarded = guarded_double_quoted_string("a", &lists, 0);
            if name == ListName::Emoji {
                assert_eq!((ident, guarded), (Ok(true), Ok((None, 0))));
            } else {
                assert_eq!((ident, guarded), (Err(refused), Err(refused)));
            }
            let class = |uses: ListName, answer: Result<bool, Refusal>| {
                assert_eq!(answer.is_err(), uses == name);
                assert!(answer.is_ok() || answer == Err(refused));
            };
            class(ListName::IdStart, is_id_start('a', &lists));
            class(ListName::IdContinue, is_id_continue('a', &lists));
            class(ListName::Emoji, is_emoji_char('a', &lists));
        }
        // The first bad list is named.
        let all = Lists { id_start: list, id_continue: &[1, 0], emoji: &[1] };
        assert_eq!(check("", &all), Err(Refusal::List { list: ListName::IdStart, pair }));
    }
    let most = &many[..2 * MAX_PAIRS];
    assert_eq!(check("", &Lists { id_start: most, id_continue: most, emoji: most }), Ok(()));
}

#[test]
fn positions() {
    let text = "aé€😀z";
    for at in (0..20).chain([usize::MAX]) {
        let one = advance_token(text, NONE, at, No);
        let guarded = guarded_double_quoted_string(text, NONE, at);
        let mut records = [UNTOUCHED; 3];
        let run = tokens_from(text, NONE, at, No, &mut records);
        if text.is_char_boundary(at) {
            assert!(one.is_ok() && run.is_ok() && guarded == Ok((None, at)));
        } else {
            let refusal = Refusal::Position { at };
            assert_eq!((refusal.number(), refusal.place()), (4, Some(at)));
            assert_eq!((one, run, guarded), (Err(refusal), Err(refusal), Err(refusal)));
            assert_eq!(records, [UNTOUCHED; 3]);
        }
    }
}

#[test]
fn too_few_slots_write_nothing() {
    let text = "a + 1;";
    let mut records = [UNTOUCHED; 9];
    for slots in 0..6 {
        let refusal = Refusal::Slots { needed: 6 };
        assert_eq!((refusal.number(), refusal.needed()), (5, Some(6)));
        assert_eq!(tokenize_into(text, No, NONE, &mut records[..slots]), Err(refusal));
        assert_eq!(records, [UNTOUCHED; 9]);
    }
    // Past the answer the records keep their values.
    assert_eq!(tokenize_into(text, No, NONE, &mut records[..8]), Ok(6));
    assert_eq!(records[6..], [UNTOUCHED; 3]);
    let tokens: Vec<_> = records[..6].iter().map(|&record| token_of(record).unwrap()).collect();
    assert_eq!(tokens, tokenize(text, No, NONE).unwrap().collect::<Vec<_>>());
    assert_eq!(
        tokenize_into("\u{ff}\u{85}'", No, NONE, &mut []),
        Err(Refusal::Slots { needed: 3 })
    );
    assert_eq!(tokenize_into("", No, NONE, &mut []), Ok(0));
}

#[test]
fn a_run_goes_on_where_it_ended() {
    let text = "a + é1\n;";
    let mut all = [UNTOUCHED; 9];
    assert_eq!(tokenize_into(text, No, NONE, &mut all), Ok(8));
    let (mut at, mut count) = (0, 0);
    while at < text.len() {
        let mut records = [UNTOUCHED; 4];
        let run = tokens_from(text, NONE, at, No, &mut records[..3]).unwrap();
        assert_eq!(run.tokens, 3.min(8 - count));
        assert_eq!(records[..run.tokens], all[count..count + run.tokens]);
        // Past the answer the records keep their values.
        assert!(records[run.tokens..].iter().all(|&record| record == UNTOUCHED));
        (at, count) = (run.next, count + run.tokens);
    }
    assert_eq!(count, 8);
    let end = Run { tokens: 0, next: text.len(), frontmatter: No };
    assert_eq!(tokens_from(text, NONE, text.len(), No, &mut all), Ok(end));
    let none = Run { tokens: 0, next: 2, frontmatter: No };
    assert_eq!(tokens_from(text, NONE, 2, No, &mut []), Ok(none));
}

#[test]
fn broken_tokens_have_no_key() {
    for (text, at) in [
        ("a /*/*/", 2),
        ("/** a", 0),
        ("x = \"a", 4),
        ("'/**/'", 0),
        ("b'", 0),
        ("b\"", 0),
        ("c\"", 0),
        ("r#\"a\"", 0),
        ("br##", 0),
        ("é cr\"", 3),
        // The first of two.
        ("'/ /*", 0),
    ] {
        let refusal = Refusal::Broken { at };
        assert_eq!((refusal.number(), refusal.place()), (6, Some(at)));
        assert_eq!(key(text, NONE), Err(refusal), "{text:?}");
        // Before too little room.
        let mut none = [];
        assert_eq!(key_into(text, NONE, &mut none), Err(refusal));
    }
}

/// The key call refuses a text, before too little room too, and writes nothing; the calls on tokens know
/// nothing of it.
fn has_tokens_and_no_key(text: &str, refusal: Refusal, number: u32, at: usize) {
    assert_eq!((refusal.number(), refusal.place()), (number, Some(at)));
    assert_eq!(key(text, NONE), Err(refusal), "{text:?}");
    let mut out = *b"0123456789";
    for room in [0, 10] {
        assert_eq!(key_into(text, NONE, &mut out[..room]), Err(refusal), "{text:?}");
    }
    assert_eq!(&out, b"0123456789");
    assert_eq!(check(text, NONE), Ok(()));
    assert!(tokenize(text, No, NONE).is_ok());
}

/// Document 02, W3: each place is one in the text that is lent.
#[test]
fn double_returns_have_no_key() {
    for (text, at) in [
        ("\r\r\n", 0),
        ("a\r\r\nb", 1),
        ("\r\r\r\n", 1),
        ("a\r\r\r\r\n", 3),
        ("\n\r\r\n", 1),
        ("\r\n\r\r\n", 2),
        ("a\r\n\r\n\r\r\n", 5),
        ("\r\r;\r\r\n", 3),
        ("é\r\r\n", 2),
        // The first of two.
        ("a\r\r\nb\r\r\n", 1),
        // In tokens, and in what a key drops.
        ("\"\r\r\n\"", 1),
        ("// a\r\r\nb", 4),
        ("/*\r\r\n*/", 2),
        ("/// \r\r\n", 4),
        // Before a broken token.
        ("\"\r\r\n", 1),
        ("'/ /*\r\r\n", 5),
    ] {
        has_tokens_and_no_key(text, Refusal::DoubleReturn { at }, 10, at);
        assert_eq!(needs_lists(text), Ok(text.starts_with('é').then_some(0)));
        assert_eq!(strip_shebang(text), Ok(None));
    }
    // After lists and bytes.
    let bad = Lists { emoji: &[1], ..Lists::EMPTY };
    let refusal = Refusal::List { list: ListName::Emoji, pair: 0 };
    assert_eq!(key("\r\r\n", &bad), Err(refusal));
    let refusal = Refusal::NotUtf8 { at: 3, cause: Cause::Start };
    assert_eq!(key(b"\r\r\n\xff", NONE), Err(refusal));
    let refusal = Refusal::NotUtf8 { at: 6, cause: Cause::Cut };
    assert_eq!(key(b"a\r\r\n\r\n\xe2\x82", NONE), Err(refusal));
}

/// The hidden direction marks of document 02, W6, with what stands in their names.
const MARKS: [(char, &str); 9] = [
    ('\u{202a}', "LEFT-TO-RIGHT EMBEDDING"),
    ('\u{202b}', "RIGHT-TO-LEFT EMBEDDING"),
    ('\u{202c}', "POP DIRECTIONAL FORMATTING"),
    ('\u{202d}', "LEFT-TO-RIGHT OVERRIDE"),
    ('\u{202e}', "RIGHT-TO-LEFT OVERRIDE"),
    ('\u{2066}', "LEFT-TO-RIGHT ISOLATE"),
    ('\u{2067}', "RIGHT-TO-LEFT ISOLATE"),
    ('\u{2068}', "FIRST STRONG ISOLATE"),
    ('\u{2069}', "POP DIRECTIONAL ISOLATE"),
];

/// Each place is one in the text that is lent. X is the mark.
#[test]
fn hidden_marks_have_no_key() {
    for (mark, name) in MARKS {
        for text in [
            "X",
            "Xx = 1;",
            "x = 1; X",
            "aXb",
            "éXé",
            "1X2",
            " X\n",
            // The first of several.
            "aXbX\u{202e}\u{2066}",
            // In tokens, and in what a key drops.
            "\"X\"",
            "r#\"X\"#",
            "'X'",
            "// aX\nb",
            "/* X */",
            "/// X\n",
            "#!X\nb",
            "---\nX\n---\n",
            // With CR LF, and with CR alone.
            "a\r\nb\r\nX\r\n",
            "\"\r\n\r\nX\"",
            "\rX\n",
            "\r\rX\r\n",
            // After its neighbours.
            "\u{2029}\u{202f}\u{2065}\u{206a}X",
            // Before a broken token.
            "X\"",
            "\"X",
            "/*X",
            "'/ X",
            "r##X",
        ] {
            let (at, text) = (text.find('X').unwrap(), &text.replace('X', &mark.to_string()));
            let refusal = Refusal::HiddenMark { at };
            has_tokens_and_no_key(text, refusal, 11, at);
            // Whatever the lists are.
            let all: &[u32] = &[0x202A, 0x206A];
            let lists = Lists { id_start: all, id_continue: all, emoji: all };
            assert_eq!(key(text, &lists), Err(refusal), "{text:?}");
            let full = format!("U+{:04X} {name}", u32::from(mark));
            assert_eq!(mark_name(text, at), Some(full.as_str()), "{text:?}");
            assert!(strip_shebang(text).is_ok());
        }
        // After lists, bytes and CR CR LF, wherever they stand.
        let bad = Lists { emoji: &[1], ..Lists::EMPTY };
        let refusal = Refusal::List { list: ListName::Emoji, pair: 0 };
        assert_eq!(key(mark.to_string(), &bad), Err(refusal));
        let of = |before: &[u8], after: &[u8]| {
            key([before, mark.to_string().as_bytes(), after].concat(), NONE)
        };
        let refusal = Refusal::NotUtf8 { at: 3, cause: Cause::Start };
        assert_eq!(of(b"", b"\xff"), Err(refusal));
        let refusal = Refusal::NotUtf8 { at: 4, cause: Cause::Cut };
        assert_eq!(of(b"a", b"\xe2\x80"), Err(refusal));
        let refusal = Refusal::NotUtf8 { at: 0, cause: Cause::Follow };
        assert_eq!(of(b"\xe2\x80", b""), Err(refusal));
        assert_eq!(of(b"a", b"b\r\r\n"), Err(Refusal::DoubleReturn { at: 5 }));
        assert_eq!(of(b"\r\r\n", b""), Err(Refusal::DoubleReturn { at: 0 }));
    }
}

/// What is no mark has a key, which is its own: each other character, in a string.
#[test]
fn other_characters_have_a_key() {
    for c in '\0'..=char::MAX {
        let text = format!("\"{}\"", if c == '"' || c == '\\' { 'a' } else { c });
        if MARKS.iter().any(|&(mark, _)| mark == c) {
            assert_eq!(key(&text, NONE), Err(Refusal::HiddenMark { at: 1 }), "{text:?}");
        } else {
            assert_eq!(key(&text, NONE).as_deref(), Ok(text.as_bytes()), "{text:?}");
        }
    }
    // The advice: a mark that is written as an escape.
    let text = "x = \"\\u{202e}\"; // U+202E";
    assert_eq!(key(text, NONE).as_deref(), Ok(&b"x\n=\n\"\\u{202e}\";\n"[..]));
}

/// The place of a broken token is one in the replaced text, whose tokens count; and so do the bytes of its key.
#[test]
fn places_in_the_replaced_text() {
    for (text, at, lent) in [
        ("a\r\nb\r\n\"c", 4, 6),
        ("\r\n\r\n/*\r\n", 2, 4),
        ("\"\r\n\" \"", 4, 5),
        ("a\r\"", 2, 2),
        ("é\r\nr#\r\n", 3, 4),
        ("\r\n'\\\r\nx", 1, 2),
        // In the text that is lent the first broken one starts at 0.
        ("'\\\r\nx' \"", 6, 7),
    ] {
        let refusal = Refusal::Broken { at };
        assert_eq!(key(text, NONE), Err(refusal), "{text:?}");
        assert_eq!(key_into(text, NONE, &mut []), Err(refusal), "{text:?}");
        assert_eq!(lent_place(text, at), lent, "{text:?}");
    }
    let mut out = *b"0123456789";
    for room in 0..5 {
        let refusal = Refusal::Room { needed: 5 };
        assert_eq!(key_into("\"a\r\nb\"", NONE, &mut out[..room]), Err(refusal));
        assert_eq!(&out, b"0123456789");
    }
    assert_eq!(key_into("\"a\r\nb\"", NONE, &mut out), Ok(5));
    assert_eq!(&out, b"\"a\nb\"56789");
}

#[test]
fn too_little_room_writes_nothing() {
    let text = "/* a */x = 1; // b\n";
    let mut out = *b"0123456789";
    for room in 0..8 {
        let refusal = Refusal::Room { needed: 8 };
        assert_eq!((refusal.number(), refusal.needed()), (7, Some(8)));
        assert_eq!(key_into(text, NONE, &mut out[..room]), Err(refusal));
        assert_eq!(&out, b"0123456789");
    }
    assert_eq!(key_into(text, NONE, &mut out), Ok(8));
    assert_eq!(&out, b"\nx\n=\n1;\n89");
}

#[test]
fn prefixes() {
    for (text, prefix) in [
        ("", 1),
        ("a\"b\"", 1),
        ("r\"\"", 0),
        ("r\"\"", 2),
        ("br\"\"", 1),
        ("dr\"\"", 2),
        ("r", u32::MAX),
        // No number is cut.
        ("r\"\"", 0x101),
        ("br\"\"", 0x1_0002),
    ] {
        assert_eq!(validate_raw_str(text, prefix), Err(Refusal::Prefix), "{text:?} {prefix}");
    }
    assert_eq!(Refusal::Prefix.number(), 8);
}

#[test]
fn a_record_of_no_token() {
    for record in [
        [43, 0, 1, 0, 0],
        [u32::MAX; NUMBERS_OF_A_TOKEN],
        [64 * 3, 0, 1, 0, 0],
        [4 + 64, 0, 1, 0, 0],
    ] {
        assert!(matches!(token_of(record), Err(Refusal::Unknown { number: 0, .. })));
    }
}

/// Reads 4 GiB of zeros twice; `cargo test -- --ignored` runs it.
#[test]
#[ignore = "takes 4 GiB of address space and some minutes"]
fn too_long() {
    let text = vec![0; 1 << 32];
    let bad = Lists { id_start: &[1], ..Lists::EMPTY };
    assert_eq!(check(&text, &bad), Err(Refusal::TooLong));
    assert_eq!(Cursor::new(&text, No, &bad).map(|cursor| cursor.position()), Err(Refusal::TooLong));
    assert_eq!(needs_lists(&text), Err(Refusal::TooLong));
    assert_eq!(strip_shebang(&text), Err(Refusal::TooLong));
    assert_eq!(Refusal::TooLong.number(), 1);
}
