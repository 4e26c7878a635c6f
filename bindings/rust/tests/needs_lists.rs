//! Where a text needs lists. tests/beside_000.rs compares what this promises with rustc's lexer.

use lovemudarn::{Cause, ListName, Lists, Refusal, key, needs_lists, needs_newer_lists};

#[test]
fn places() {
    for (text, place) in [
        // The accident: a lifetime that is none, whose quote pairs with one in a string.
        ("f!('é \"' // limit 5\");", Some(4)),
        // Names, alone, in the middle and at the ends of others, before what they may be a prefix of.
        ("é", Some(0)),
        ("a é", Some(2)),
        ("naïve", Some(2)),
        ("1é", Some(1)),
        ("1.é", Some(2)),
        ("\"a\"é", Some(3)),
        ("'a'é", Some(3)),
        ("éa#", Some(0)),
        ("aé\"\"", Some(1)),
        ("k#é", Some(2)),
        ("'r#é", Some(3)),
        ("'aé", Some(2)),
        ("'aé'", Some(2)),
        ("'0é", Some(2)),
        ("r#é", Some(2)),
        ("😀", Some(0)),
        ("a😀", Some(1)),
        ("a\u{200d}", Some(1)),
        // After a quote.
        ("'é", Some(1)),
        ("'éa", Some(1)),
        ("'éa'", Some(1)),
        ("'é b'", Some(1)),
        ("'日\n", Some(1)),
        ("'😀😀'", Some(1)),
        ("x 'é' 'é", Some(8)),
        // Not where a list is not asked.
        ("", None),
        ("a 'a' \"a\" r#a 1.5 // a", None),
        ("'é' '日' '😀'", None),
        ("'é'u8", None),
        ("'\\é'", None),
        ("b'éé' 'é'", None),
        ("\"é\" r\"é\" r#\"é\"# br\"é\" c\"é\"", None),
        ("// é\n/* é */ /** é */", None),
        ("a\u{85}b \u{2028}", None),
        ("---é\n---", Some(3)),
        // Broken with any lists.
        ("r\"é", None),
        ("r##é", None),
        ("br#é", None),
        ("\"é", None),
    ] {
        assert_eq!(needs_lists(text), Ok(place), "{text:?}");
        assert_eq!(needs_newer_lists(text, &Lists::EMPTY), Ok(place), "{text:?}");
    }
    for (text, cause) in
        [(b"a\xff(", Cause::Start), (b"a\xe2\x82", Cause::Cut), (b"a\xe2(", Cause::Follow)]
    {
        assert_eq!(needs_lists(text), Err(Refusal::NotUtf8 { at: 1, cause }));
    }
    // Past the first block of tokens.
    let text = format!("{}é", ";".repeat(3000));
    assert_eq!(needs_lists(&text), Ok(Some(3000)));
}

/// The texts of the accident: one key with empty lists, two with real ones.
#[test]
fn why_it_is_asked() {
    let (five, nine) = ("f!('é \"' // limit 5\");", "f!('é \"' // limit 9\");");
    assert_eq!(key(five, &Lists::EMPTY), key(nine, &Lists::EMPTY));
    assert!(key(five, &Lists::EMPTY).is_ok());
    let lists = Lists { id_start: &[0xE9, 0xE9], id_continue: &[0xE9, 0xE9], emoji: &[] };
    assert_eq!(key(five, &lists).unwrap(), "f!('é\n\"' // limit 5\");".as_bytes());
    assert_eq!(key(nine, &lists).unwrap(), "f!('é\n\"' // limit 9\");".as_bytes());
}

/// The text as it is lent, and the one in which each CR LF is LF, of which the key is: where `'\` stands before
/// CR LF, a character ends in the second alone, and what follows parts otherwise.
#[test]
fn line_ends() {
    for (text, place) in [
        ("a\r\nb \"é\r\n\" // é\r\n", None),
        ("a\r\n'é\r\n", Some(4)),
        ("a\r\n\r\né", Some(5)),
        // As it is lent a character, ' ', ends before the first é.
        ("'\\\r\nx' 'é' é", Some(8)),
        ("'\\\nx' 'é' é", Some(11)),
        // As it is lent é is in a string, "'é ".
        ("'\\\r\nx'\"'\"'é \"' // limit 5\"", Some(10)),
        ("'\\\nx'\"'\"'é \"' // limit 5\"", Some(9)),
        // In the replaced text é is in a string, "'é'".
        ("'\\\r\nx'\"'é'\"", Some(8)),
        ("'\\\nx'\"'é'\"", None),
        // CR CR LF has no key, but it has tokens.
        ("a\r\r\né", Some(4)),
        // Nor has a hidden direction mark: it is a character as others are, and needs no lists where they need none.
        ("\u{202e}", Some(0)),
        ("a\r\nb\u{2066}", Some(4)),
        ("'\u{202a}a'", Some(1)),
        ("r#\u{2069}", Some(2)),
        ("'\u{202e}' \"\u{2067}\" // \u{202c}\r\n/* \u{2068} */", None),
    ] {
        assert_eq!(needs_lists(text), Ok(place), "{text:?}");
    }
    // Why both are looked at: one key with empty lists, two with real ones.
    let texts = [5, 9].map(|limit| format!("'\\\r\nx'\"'\"'é \"' // limit {limit}\""));
    let lists = Lists { id_start: &[0xE9, 0xE9], id_continue: &[0xE9, 0xE9], emoji: &[] };
    for (text, limit) in texts.iter().zip([5, 9]) {
        assert_eq!(key(text, &Lists::EMPTY).unwrap(), "'\\\nx'\"'\"'é \"'\n".as_bytes());
        let right = format!("'\\\nx'\"'\"'é\n\"' // limit {limit}\"");
        assert_eq!(key(text, &lists).unwrap(), right.as_bytes());
        assert_eq!(needs_newer_lists(text, &lists), Ok(None));
    }
}

/// With lists: é begins a name, U+0301 goes on in one, U+2764 is emoji, and ß and 日 are in none.
#[test]
fn places_with_lists() {
    let lists = Lists {
        id_start: &[0xE9, 0xE9],
        id_continue: &[0xE9, 0xE9, 0x301, 0x301],
        emoji: &[0x2764, 0x2764],
    };
    for (text, place) in [
        // What the lists judge.
        ("é naéve a\u{301} 'é 'éa r#é k#é 'r#é 1é \"\"é éb\"\" a❤ ❤", None),
        ("f!('é \"' // limit 5\");", None),
        ("'é' 'ß' '日' 'éé' 'éa'u8", None),
        ("// ß\n\"日\" r#\"ß\"# b'ß'", None),
        // What they do not.
        ("f!('ß \"' // limit 5\");", Some(4)),
        ("éß", Some(2)),
        ("é日é", Some(2)),
        ("'éß", Some(3)),
        ("'éß'", Some(3)),
        ("'ßé'", Some(1)),
        ("'❤a'", Some(1)),
        ("'\u{301}a'", Some(1)),
        ("\u{301}", Some(0)),
        ("a❤ß", Some(4)),
        ("r#ß", Some(2)),
        ("r#éß", Some(4)),
        ("k#ß", Some(2)),
        ("1ß", Some(1)),
        ("\u{feff}a", Some(0)),
        // Broken with any lists.
        ("r##é", None),
        ("r\"é", None),
    ] {
        assert_eq!(needs_newer_lists(text, &lists), Ok(place), "{text:?}");
    }
    let bad = Lists { emoji: &[1], ..lists };
    let refusal = Refusal::List { list: ListName::Emoji, pair: 0 };
    assert_eq!(needs_newer_lists(b"\xff", &bad), Err(refusal));
    let refusal = Refusal::NotUtf8 { at: 0, cause: Cause::Start };
    assert_eq!(needs_newer_lists(b"\xff", &lists), Err(refusal));
}
