//! The file of lists: the one of the repository, what is read from a file and what is written, every
//! refusal, and files that are damaged beside a reader that is written here.

use lovemudarn::{
    FrontmatterAllowed::No, Held, ListName, Lists, LoadedLists, MAX_PAIRS, Refusal, TokenKind,
    Version, check, is_emoji_char, is_ident, key, needs_lists, needs_newer_lists, tokenize,
};

const FILE: &[u8] = include_bytes!("../../../data/unicode-15.0.0.lists");

/// Two pairs a list.
const SMALL: &str = "unicode\t15\t0\t1\nstart\taa\taa\nstart\tc0\td6\ncontinue\t300\t36f\n\
    continue\t10fffe\t10ffff\nemoji\ta9\ta9\nemoji\t1f600\t1f64f\n";
const SMALL_LISTS: Lists = Lists {
    id_start: &[0xAA, 0xAA, 0xC0, 0xD6],
    id_continue: &[0x300, 0x36F, 0x10FFFE, 0x10FFFF],
    emoji: &[0xA9, 0xA9, 0x1F600, 0x1F64F],
};
const SMALL_VERSION: Version = Version { major: 15, minor: 0, update: 1 };

// ---- the reader that is written here ----

/// A number, if it is written as it is printed.
fn number(field: &str, radix: u32, most: u32) -> Option<u32> {
    let n = u32::from_str_radix(field, radix).ok().filter(|&n| n <= most)?;
    let printed = if radix == 16 { format!("{n:x}") } else { n.to_string() };
    (printed == field).then_some(n)
}

fn fields<const N: usize>(line: &[u8]) -> Option<[&str; N]> {
    let line = std::str::from_utf8(line).ok()?.strip_suffix('\n')?;
    line.split('\t').collect::<Vec<_>>().try_into().ok()
}

fn version_line(line: &[u8]) -> Option<Version> {
    let ["unicode", numbers @ ..] = fields::<4>(line)? else {
        return None;
    };
    let [major, minor, update] = numbers.map(|field| number(field, 10, 65_535));
    Some(Version { major: major? as u16, minor: minor? as u16, update: update? as u16 })
}

fn record(line: &[u8]) -> Option<(usize, [u32; 2])> {
    let [name, low, high] = fields(line)?;
    let list = ["start", "continue", "emoji"].iter().position(|&other| other == name)?;
    Some((list, [number(low, 16, 0xFF_FFFF)?, number(high, 16, 0xFF_FFFF)?]))
}

/// The pair of a list that breaks a rule first.
fn bad_pair(list: &[u32]) -> Option<usize> {
    if list.len() / 2 > MAX_PAIRS {
        return Some(MAX_PAIRS);
    }
    let never = [0x85, 0x200E, 0x200F, 0x2028, 0x2029, 0xD800, 0xDFFF];
    let mut before = 0x7F;
    list.chunks(2).position(|pair| {
        let (low, high) = (pair[0], pair[1]);
        let covers = |point| low <= point && point <= high;
        let good = before < low
            && low <= high
            && high <= 0x10_FFFF
            && !never.into_iter().any(covers)
            && !(0xD800..=0xDFFF).contains(&low);
        before = high;
        !good
    })
}

fn read_here(file: &[u8]) -> Result<LoadedLists, Refusal> {
    let mut lines = file.split_inclusive(|&byte| byte == b'\n').enumerate();
    let first = lines.next().and_then(|(_, line)| version_line(line));
    let version = first.ok_or(Refusal::Line { line: 0 })?;
    let mut lists = [const { Vec::new() }; 3];
    let mut group = 0;
    for (line, text) in lines {
        let (list, pair) =
            record(text).filter(|&(list, _)| list >= group).ok_or(Refusal::Line { line })?;
        group = list;
        lists[list].extend(pair);
    }
    for (list, name) in lists.iter().zip([ListName::IdStart, ListName::IdContinue, ListName::Emoji])
    {
        if let Some(pair) = bad_pair(list) {
            return Err(Refusal::List { list: name, pair });
        }
    }
    let [id_start, id_continue, emoji] = lists;
    Ok(LoadedLists { version, id_start, id_continue, emoji })
}

/// That a file is read so, whole and into buffers; what is loaded has this file.
fn reads(file: &[u8], right: &Result<LoadedLists, Refusal>) {
    let told = || String::from_utf8_lossy(file).into_owned();
    assert_eq!(Lists::parse(file), *right, "{:?}", told());
    match right {
        Ok(loaded) => assert_eq!(loaded.lists().to_file(loaded.version).unwrap(), file),
        Err(refusal) => {
            // Before too little room, and nothing is written.
            for room in [0, 4] {
                let mut runs = [[7; 4]; 3];
                let [id_start, id_continue, emoji] = &mut runs;
                let said = Lists::parse_into(
                    file,
                    &mut id_start[..room],
                    &mut id_continue[..room],
                    &mut emoji[..room],
                );
                assert_eq!(said, Err(*refusal), "{:?}", told());
                assert_eq!(runs, [[7; 4]; 3]);
            }
        }
    }
}

// ---- the file of the repository ----

#[test]
fn the_file_of_the_repository() {
    let loaded = Lists::parse(FILE).unwrap();
    assert_eq!(FILE.len(), 28_270);
    assert_eq!(loaded.version, Version { major: 15, minor: 0, update: 0 });
    assert_eq!(loaded.version.to_string(), "15.0.0");
    let lists = loaded.lists();
    assert_eq!(
        [lists.id_start, lists.id_continue, lists.emoji].map(<[u32]>::len),
        [2 * 664, 2 * 771, 2 * 148]
    );
    assert_eq!(check("", &lists), Ok(()));
    assert_eq!(lists.id_start[..4], [0xAA, 0xAA, 0xB5, 0xB5]);
    assert_eq!(lists.emoji[2 * 148 - 2..], [0x1FAF0, 0x1FAF8]);
    // It has one file, to the byte.
    assert_eq!(lists.to_file(loaded.version).unwrap(), FILE);
    reads(FILE, &read_here(FILE));
}

#[test]
fn names_past_ascii_with_its_lists() {
    let loaded = Lists::parse(FILE).unwrap();
    let lists = &loaded.lists();
    for name in ["naïve", "é", "日本語", "Ωmega", "a\u{301}", "ß", "\u{10ffff}"] {
        assert_eq!(is_ident(name, lists), Ok(name != "\u{10ffff}"), "{name}");
        assert_eq!(is_ident(name, &Lists::EMPTY), Ok(false), "{name}");
    }
    assert_eq!(is_ident("\u{301}a", lists), Ok(false));
    assert_eq!(is_emoji_char('🦀', lists), Ok(true));
    for (text, kind) in [
        ("naïve", TokenKind::Ident),
        ("r#é", TokenKind::RawIdent),
        ("k#é", TokenKind::ForcedKeywordIdent),
        ("'é", TokenKind::Lifetime { starts_with_number: false }),
        ("'r#é", TokenKind::RawLifetime),
        ("a🦀", TokenKind::InvalidIdent),
    ] {
        let tokens: Vec<_> = tokenize(text, No, lists).unwrap().map(|token| token.kind).collect();
        assert_eq!(tokens, [kind], "{text}");
        // Nothing is left for lists to say.
        assert!(needs_lists(text).unwrap().is_some(), "{text}");
        assert_eq!(needs_newer_lists(text, lists), Ok(None), "{text}");
    }
    // With empty lists these two have one key.
    let (five, nine) = ("f!('é \"' // limit 5\");", "f!('é \"' // limit 9\");");
    for text in [five, nine] {
        assert_eq!(needs_newer_lists(text, lists), Ok(None));
        assert_eq!(key(text, lists).unwrap(), text.replace("é ", "é\n").as_bytes());
    }
    // U+1C89 is a letter since Unicode 16.0: with these lists the same happens to it.
    let (five, nine) = (five.replace('é', "\u{1c89}"), nine.replace('é', "\u{1c89}"));
    assert_eq!(key(&five, lists).unwrap(), key(&nine, lists).unwrap());
    assert_eq!(needs_newer_lists(&five, lists), Ok(Some(4)));
}

// ---- what is read ----

#[test]
fn small_files() {
    let loaded = Lists::parse(SMALL).unwrap();
    assert_eq!((loaded.version, loaded.lists()), (SMALL_VERSION, SMALL_LISTS));
    reads(SMALL.as_bytes(), &Ok(loaded));
    // No pair, or none of some list.
    assert_eq!(Lists::parse("unicode\t0\t0\t0\n"), Ok(LoadedLists::default()));
    for (file, lists) in [
        ("start\t80\t80\n", Lists { id_start: &[0x80, 0x80], ..Lists::EMPTY }),
        ("continue\t80\t80\n", Lists { id_continue: &[0x80, 0x80], ..Lists::EMPTY }),
        ("emoji\t80\t80\n", Lists { emoji: &[0x80, 0x80], ..Lists::EMPTY }),
        (
            "start\t80\t84\nemoji\te000\t10ffff\n",
            Lists { id_start: &[0x80, 0x84], emoji: &[0xE000, 0x10FFFF], ..Lists::EMPTY },
        ),
    ] {
        for (words, version) in [
            ("0\t0\t0", Version::default()),
            ("65535\t10\t9", Version { major: 65_535, minor: 10, update: 9 }),
            ("9\t65535\t10", Version { major: 9, minor: 65_535, update: 10 }),
            ("10\t9\t65535", Version { major: 10, minor: 9, update: 65_535 }),
        ] {
            let file = format!("unicode\t{words}\n{file}");
            let loaded = Lists::parse(&file).unwrap();
            assert_eq!((loaded.version, loaded.lists()), (version, lists));
            reads(file.as_bytes(), &Ok(loaded));
        }
    }
}

#[test]
fn bad_lines() {
    for (file, line) in [
        // The first line.
        ("", 0),
        ("\n", 0),
        ("unicode\t15\t0\t0", 0),
        ("unicode\t15\t0\n", 0),
        ("unicode\t15\t0\t0\t0\n", 0),
        ("unicode\t15\t0\t\n", 0),
        ("unicode\t15\t0\t0\t\n", 0),
        ("Unicode\t15\t0\t0\n", 0),
        ("unicode 15 0 0\n", 0),
        ("\u{feff}unicode\t15\t0\t0\n", 0),
        ("unicode\t15\t0\t0\r\n", 0),
        ("unicode\t015\t0\t0\n", 0),
        ("unicode\t15\t00\t0\n", 0),
        ("unicode\t+15\t0\t0\n", 0),
        ("unicode\t-1\t0\t0\n", 0),
        ("unicode\tf\t0\t0\n", 0),
        ("unicode\t65536\t0\t0\n", 0),
        ("unicode\t0\t65536\t0\n", 0),
        ("unicode\t0\t0\t65536\n", 0),
        ("unicode\t4294967296\t0\t0\n", 0),
        ("unicode\t18446744073709551616\t0\t0\n", 0),
        ("start\taa\taa\n", 0),
        // A record.
        ("unicode\t15\t0\t0\n\n", 1),
        ("unicode\t15\t0\t0\n# comment\n", 1),
        ("unicode\t15\t0\t0\nunicode\t15\t0\t0\n", 1),
        ("unicode\t15\t0\t0\nstart\taa\taa", 1),
        ("unicode\t15\t0\t0\nstart\taa\taa\r\n", 1),
        ("unicode\t15\t0\t0\nstart\taa\n", 1),
        ("unicode\t15\t0\t0\nstart\taa\taa\taa\n", 1),
        ("unicode\t15\t0\t0\nstart\taa\t\n", 1),
        ("unicode\t15\t0\t0\nstart\t\taa\n", 1),
        ("unicode\t15\t0\t0\nstart\t\taa\taa\n", 1),
        ("unicode\t15\t0\t0\nstart aa aa\n", 1),
        ("unicode\t15\t0\t0\nstarts\taa\taa\n", 1),
        ("unicode\t15\t0\t0\n\taa\taa\n", 1),
        ("unicode\t15\t0\t0\nstart\tAA\taa\n", 1),
        ("unicode\t15\t0\t0\nstart\taa\t0aa\n", 1),
        ("unicode\t15\t0\t0\nstart\t0xaa\taa\n", 1),
        ("unicode\t15\t0\t0\nstart\taa\t1000000\n", 1),
        ("unicode\t15\t0\t0\nstart\taa\t1000000aa\n", 1),
        ("unicode\t15\t0\t0\nstart\taa\t10000000000000000\n", 1),
        ("unicode\t15\t0\t0\nstart\tag\taa\n", 1),
        ("unicode\t15\t0\t0\nstart\taa\0\taa\n", 1),
        // Further on, and the first of two.
        ("unicode\t15\t0\t0\nstart\taa\taa\n\n", 2),
        ("unicode\t15\t0\t0\nstart\taa\taa\n ", 2),
        ("unicode\t15\t0\t0\nstart\taa\taa\nstart\tb5\tb5\nx\n\n", 3),
        // Out of order.
        ("unicode\t15\t0\t0\ncontinue\taa\taa\nstart\tb5\tb5\n", 2),
        ("unicode\t15\t0\t0\nemoji\taa\taa\nstart\tb5\tb5\n", 2),
        ("unicode\t15\t0\t0\nemoji\taa\taa\nemoji\tb5\tb5\ncontinue\tb5\tb5\n", 3),
        // Before a pair that breaks a rule.
        ("unicode\t15\t0\t0\nstart\t41\t5a\nx\n", 2),
    ] {
        let refusal = Refusal::Line { line };
        assert_eq!((refusal.number(), refusal.place(), refusal.needed()), (9, None, None));
        reads(file.as_bytes(), &Err(refusal));
        assert_eq!(read_here(file.as_bytes()), Err(refusal), "{file:?}");
    }
    reads(b"unicode\t15\t0\t0\n\xff\n", &Err(Refusal::Line { line: 1 }));
}

#[test]
fn pairs_that_break_a_rule() {
    let names = [
        ("start", ListName::IdStart),
        ("continue", ListName::IdContinue),
        ("emoji", ListName::Emoji),
    ];
    for (word, list) in names {
        for (records, pair) in [
            ("@\t0\t0\n", 0),
            ("@\t7f\t80\n", 0),
            ("@\t81\t80\n", 0),
            ("@\taa\taa\n@\taa\tab\n", 1),
            ("@\taa\taa\n@\tb5\tb5\n@\t84\t86\n", 2),
            ("@\td7ff\td800\n", 0),
            ("@\t2010\t2028\n", 0),
            ("@\t10ffff\t110000\n", 0),
            ("@\taa\tffffff\n", 0),
            // The first of two.
            ("@\t1\t2\n@\t1\t2\n", 0),
        ] {
            let file = format!("unicode\t15\t0\t0\n{}", records.replace('@', word));
            let refusal = Refusal::List { list, pair };
            reads(file.as_bytes(), &Err(refusal));
            assert_eq!(read_here(file.as_bytes()), Err(refusal), "{file:?}");
        }
    }
    // The first list that does.
    let file = "unicode\t15\t0\t0\nstart\taa\taa\ncontinue\t1\t1\nemoji\t1\t1\n";
    reads(file.as_bytes(), &Err(Refusal::List { list: ListName::IdContinue, pair: 0 }));
}

#[test]
fn the_most_pairs() {
    let most: Vec<u32> =
        (0x10000..).step_by(3).take(MAX_PAIRS + 1).flat_map(|low| [low, low + 1]).collect();
    let list = &most[..2 * MAX_PAIRS];
    let lists = Lists { id_start: list, id_continue: list, emoji: list };
    let file = lists.to_file(SMALL_VERSION).unwrap();
    let loaded = Lists::parse(&file).unwrap();
    assert_eq!((loaded.version, loaded.lists()), (SMALL_VERSION, lists));
    reads(&file, &read_here(&file));
    for (at, (word, list)) in [
        ("start", ListName::IdStart),
        ("continue", ListName::IdContinue),
        ("emoji", ListName::Emoji),
    ]
    .into_iter()
    .enumerate()
    {
        // One pair more, and a bad one before it: the count comes first.
        let mut file = String::from("unicode\t15\t0\t1\n");
        for other in ["start", "continue", "emoji"].iter().take(at) {
            file.push_str(&format!("{other}\t80\t80\n"));
        }
        file.push_str(&format!("{word}\t41\t41\n"));
        for pair in most[2..].chunks(2) {
            file.push_str(&format!("{word}\t{:x}\t{:x}\n", pair[0], pair[1]));
        }
        reads(file.as_bytes(), &Err(Refusal::List { list, pair: MAX_PAIRS }));
    }
}

#[test]
fn room_for_the_lists() {
    let names = [ListName::IdStart, ListName::IdContinue, ListName::Emoji];
    for rooms in (0..6 * 6 * 6).map(|n| [n / 36, n / 6 % 6, n % 6]) {
        let mut runs = [[7; 6]; 3];
        let [id_start, id_continue, emoji] = &mut runs;
        let said = Lists::parse_into(
            SMALL,
            &mut id_start[..rooms[0]],
            &mut id_continue[..rooms[1]],
            &mut emoji[..rooms[2]],
        );
        match rooms.iter().position(|&room| room < 4) {
            Some(at) => {
                let refusal = Refusal::ListRoom { list: names[at], needed: 4 };
                assert_eq!((refusal.number(), refusal.needed()), (7, Some(4)));
                assert_eq!(said, Err(refusal), "{rooms:?}");
                assert_eq!(runs, [[7; 6]; 3]);
            }
            None => {
                let held = Held { version: SMALL_VERSION, id_start: 4, id_continue: 4, emoji: 4 };
                assert_eq!(said, Ok(held));
                for (run, list) in runs.iter().zip([
                    SMALL_LISTS.id_start,
                    SMALL_LISTS.id_continue,
                    SMALL_LISTS.emoji,
                ]) {
                    // Past the list the numbers keep their values.
                    assert_eq!((&run[..4], &run[4..]), (list, &[7, 7][..]));
                }
            }
        }
    }
    // What the file does not have needs no room.
    let said = Lists::parse_into("unicode\t15\t0\t1\n", &mut [], &mut [], &mut []);
    assert_eq!(said, Ok(Held { version: SMALL_VERSION, id_start: 0, id_continue: 0, emoji: 0 }));
}

// ---- what is written ----

#[test]
fn room_for_the_file() {
    let bytes = SMALL.len();
    for room in 0..bytes + 3 {
        let mut out = vec![7; bytes + 3];
        let said = SMALL_LISTS.to_file_into(SMALL_VERSION, &mut out[..room]);
        if room < bytes {
            let refusal = Refusal::Room { needed: bytes };
            assert_eq!((refusal.number(), refusal.needed()), (7, Some(bytes)));
            assert_eq!(said, Err(refusal));
            assert_eq!(out, vec![7; bytes + 3]);
        } else {
            assert_eq!(said, Ok(bytes));
            assert_eq!((&out[..bytes], &out[bytes..]), (SMALL.as_bytes(), &[7; 3][..]));
        }
    }
    let empty = Lists::EMPTY.to_file(Version { major: 65_535, minor: 0, update: 65_535 });
    assert_eq!(empty.unwrap(), b"unicode\t65535\t0\t65535\n");
}

#[test]
fn bad_lists_have_no_file() {
    let many: Vec<u32> = (0x10000..).take(2 * MAX_PAIRS + 2).collect();
    let bad: [(&[u32], usize); 6] = [
        (&[0x41, 0x5A], 0),
        (&[0xAA, 0xAA, 0x100], 1),
        (&[0xAA, 0xAA, 0xAA, 0xAA], 1),
        (&[0xD7FF, 0xD800], 0),
        (&[0xE000, 0x110000], 0),
        (&many, MAX_PAIRS),
    ];
    for (list, pair) in bad {
        for (lists, name) in [
            (Lists { id_start: list, ..Lists::EMPTY }, ListName::IdStart),
            (Lists { id_continue: list, ..Lists::EMPTY }, ListName::IdContinue),
            (Lists { emoji: list, ..Lists::EMPTY }, ListName::Emoji),
        ] {
            let refusal = Refusal::List { list: name, pair };
            assert_eq!(lists.to_file(SMALL_VERSION), Err(refusal));
            // Before too little room, and nothing is written.
            let mut out = [7; 64];
            for room in [0, 64] {
                assert_eq!(lists.to_file_into(SMALL_VERSION, &mut out[..room]), Err(refusal));
            }
            assert_eq!(out, [7; 64]);
        }
    }
}

// ---- many files, beside the reader that is written here ----

/// Every file that is one byte away from a small one: changed, put in or taken out; and every part of it.
#[test]
fn one_byte_away() {
    let small = SMALL.as_bytes();
    let (mut loaded, mut lines, mut pairs) = (0, 0, 0);
    let mut seen = |file: &[u8]| {
        let right = read_here(file);
        reads(file, &right);
        match right {
            Ok(_) => loaded += 1,
            Err(Refusal::Line { .. }) => lines += 1,
            Err(_) => pairs += 1,
        }
    };
    for at in 0..=small.len() {
        seen(&small[..at]);
        seen(&small[at..]);
        let mut shorter = small.to_vec();
        shorter.drain(at..small.len().min(at + 1));
        seen(&shorter);
        for byte in 0..=255 {
            let mut file = small.to_vec();
            file.insert(at, byte);
            seen(&file);
            if at < small.len() {
                file.remove(at + 1);
                seen(&file);
            }
        }
    }
    assert!(loaded > 500 && lines > 30_000 && pairs > 200, "{loaded} {lines} {pairs}");
}

/// Files of random lists, and such files damaged.
#[test]
fn random_files() {
    let mut state = 1_u64;
    let mut below = |limit: usize| {
        state = state.wrapping_mul(6364136223846793005).wrapping_add(1442695040888963407);
        (state >> 33) as usize % limit
    };
    let (mut loaded, mut lines, mut pairs) = (0, 0, 0);
    for _ in 0..4000 {
        let mut lists = [const { Vec::new() }; 3];
        for list in &mut lists {
            let mut point = 0x80;
            for _ in 0..below(6) {
                let (gap, more) = (below(0x4000), below(0x300));
                let low = point + gap as u32;
                list.extend([low, low + more as u32]);
                point = low + more as u32 + 1;
            }
            // A rule is seldom broken by chance: mostly by U+0085 and its like.
            if let Some(pair) = bad_pair(list) {
                list.truncate(2 * pair);
            }
        }
        let lists = Lists { id_start: &lists[0], id_continue: &lists[1], emoji: &lists[2] };
        let [major, minor, update] = [(); 3].map(|()| {
            let bits = [1, 4, 8, 16][below(4)];
            below(1 << bits) as u16
        });
        let version = Version { major, minor, update };
        let file = lists.to_file(version).unwrap();
        let read = Lists::parse(&file).unwrap();
        assert_eq!((read.version, read.lists()), (version, lists));
        reads(&file, &Ok(read));
        // Lines in another order, twice or left out; bytes of the file elsewhere.
        let mut damaged = file.clone();
        for _ in 0..1 + below(3) {
            let lines: Vec<&[u8]> = file.split_inclusive(|&byte| byte == b'\n').collect();
            let (one, two) = (below(lines.len()), below(lines.len()));
            let (at, byte) = (below(damaged.len().max(1)), file[below(file.len())]);
            match below(5) {
                0 => {
                    let mut lines = lines;
                    lines.swap(one, two);
                    damaged = lines.concat();
                }
                1 => damaged.extend(lines[one]),
                2 if !damaged.is_empty() => damaged[at] = byte,
                3 if !damaged.is_empty() => drop(damaged.remove(at)),
                _ => damaged.insert(at.min(damaged.len()), byte),
            }
        }
        let right = read_here(&damaged);
        reads(&damaged, &right);
        match right {
            Ok(_) => loaded += 1,
            Err(Refusal::Line { .. }) => lines += 1,
            Err(_) => pairs += 1,
        }
    }
    assert!(loaded > 100 && lines > 2000 && pairs > 200, "{loaded} {lines} {pairs}");
}
