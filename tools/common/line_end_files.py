"""Which vectors of operation 17 are about ends of lines. tools/oracle/README.md describes them.

The key is that of the text with each CR LF as LF (document 02, W3), a text with CR CR LF is refused as 10, and a
CR anywhere else is a byte like others. The texts here are those at which such a replacement goes wrong: where a
token holds an end of a line, where CR and LF stand in another order or number, and where a place is counted in
the replaced text and not in the lent one, or the other way round.
"""

import sys

from common import key_files
from common.chance import Numbers
from common.ending import fail
from common.keys import replaced, with_cr_lf
from common.key_files import BEFORE, BROKEN, KEYS, LISTED, LONG_TEXTS, PAPER, ROOM_TEXTS, airy, named_texts
from common.line_files import airy_lines
from common.lists import EVERYTHING, GOOD, NO_LISTS, refused_lists
from common.packing import MOST_ROOM, numbers_in
from common.texts import LINE, POINTS, damaged, damaged_bytes, glued, over
from common.token_files import spread

SEED = 40
# Random texts, each with some ends of lines, and ill-formed ones.
RANDOM_TEXTS = 260
ILL_FORMED_TEXTS = 150


# ---- rows: answers written by hand ----

# A text, and its key or a refusal's number and place. The tool stops where the words of common/keys.py say something else.
ANSWERS = [
    # Inside literals: replaced, whatever the literal. The first is broken as it stands.
    ("'\\\r\nx'", "'\\\nx'"), ("b'\\\r\nx'", "b'\\\nx'"), ("'\r\n'", "'\n'"), ("b'\r\n'", "b'\n'"), ("'\\\r\n'", "'\\\n'"), ("'\\a\r\n'", "'\\a\n'"),
    ('"a\r\nb"', '"a\nb"'), ('"\\\r\n  b"', '"\\\n  b"'), ('"\r\n\r\n"', '"\n\n"'), ('"\n\r\n"', '"\n\n"'), ('"\r\n\n"', '"\n\n"'), ('b"\r\n"', 'b"\n"'),
    ('c"\r\n"', 'c"\n"'), ('r"a\r\n"', 'r"a\n"'), ('r#"\r\n"#', 'r#"\n"#'), ('br"\r\n"', 'br"\n"'), ('cr##"\r\n"##', 'cr##"\n"##'), ('"\\\\\r\n"', '"\\\\\n"'),
    # Trivia: a newline, as LF is.
    ("\r\n", "\n"), ("\r\n\r\n\r\n", "\n"), ("a\r\nb", "a\nb"), ("\r\na\r\n", "\na\n"), ("a\r\n", "a\n"), ("\r\na", "\na"), (" \r\n\ta", "\na"),
    ("// a\r\nb", "\nb"), ("// a\r\n", "\n"), ("//\r\n/", "\n/"), ("/* a\r\nb */c", "\nc"), ("/*\r\n*/", "\n"), ("//// a\r\nb\r\n", "\nb\n"),
    ("=\r\n=", "=\n="), ("-\r\n>", "-\n>"), ("1\r\n.a", "1\n.a"), ("'a\r\n'b", "'a\n'b"), ("r\r\n#a", "r\n#a"), ("fn f() {}\r\n// a\r\n", "fn\nf()\n{}\n"),
    # Doc comments are meaningful, and LF ends those of a line.
    ("/// a\r\nb", "/// a\nb"), ("/// a\r\n", "/// a\n"), ("///\r\n///\r\n", "///\n///\n"), ("//! a\r\n//! b\r\nc", "//! a\n//! b\nc"),
    ("/** a\r\n b */", "/** a\n b */"), ("/*!\r\n*/\r\nx", "/*!\n*/\nx"), ("/**\r\n*/", "/**\n*/"),
    # CR alone stays where it is meaningful, at the very end too.
    ("\r", "\n"), ("a\rb", "a\nb"), ("\ra\r", "\na\n"), ("// a\rb\nc", "\nc"), ("// a\r", "\n"), ("/// a\r", "/// a\r"), ("/// a\rb\r\nc", "/// a\rb\nc"),
    ("/**\r*/", "/**\r*/"), ('"\r"', '"\r"'), ('r"\r"', 'r"\r"'), ("'\r'", "'\r'"), ("'\\\rx'", "'\\\rx'"), ('"\r\r"', '"\r\r"'), ('"a\\\rb"', '"a\\\rb"'),
    # LF CR is LF and a CR; each byte is used once, from the left.
    ("\n\r", "\n"), ('"\n\r"', '"\n\r"'), ('"\r\n\r"', '"\n\r"'), ('"\n\r\n\r"', '"\n\n\r"'), ('"\r \r\n"', '"\r \n"'), ('"\r\\\r\n"', '"\r\\\n"'), ("\r\r", "\n"),
    ("\r\n\r", "\n"), ('"\r\r \n"', '"\r\r \n"'), ("a\r \r\nb", "a\nb"), ("/// \r \r\n", "/// \r \n"), ('"\\r\\n"', '"\\r\\n"'), ('"\\r\r\n"', '"\\r\n"'),
    # CR CR LF, wherever it stands, and the first of several: the second CR would become one with the LF by a second keying.
    ("\r\r\n", (10, 0)), ("\r\r\r\n", (10, 1)), ("\r\r\r\r\n", (10, 2)), ("a\r\r\nb", (10, 1)), ("a\r\r\n", (10, 1)), ('"\r\r\n"', (10, 1)), ('r"\r\r\n"', (10, 2)),
    ("'\r\r\n'", (10, 1)), ("'\\\r\r\nx'", (10, 2)), ("/// a\r\r\n", (10, 5)), ("/// a\r\r\nb", (10, 5)), ("/** \r\r\n*/", (10, 4)), ("// a\r\r\nb", (10, 4)),
    ("/* \r\r\n */", (10, 3)), ("\r\n\r\r\n", (10, 2)), ("\r\r\n\r\r\n", (10, 0)), ("\n\r\r\n", (10, 1)), ("\r\n\r\r\r\n", (10, 3)),
    # Its place is one in the lent text.
    ("\r\n\r\n\r\n/// a\r\r\n", (10, 11)), ("\u00e9\r\n\u20ac\r\r\n", (10, 7)),
    # It comes before a broken token, after it, inside it and before it.
    ("'/ \r\r\n", (10, 3)), ("\r\r\n'/", (10, 0)), ('"\r\r\n', (10, 1)), ("/* \r\r\n", (10, 3)), ("r#~\r\r\n", (10, 3)), ("'a \" \r\n\r\r\n", (10, 7)),
    # The place of a broken token is one in the replaced text.
    ("\r\n\r\n'/", (6, 2)), ('a\r\n"', (6, 2)), ("/* \r\n */ \r\n/*", (6, 9)), ('"\r\n"\r\nr#~', (6, 4)), ("\r\n\u00e9\r\n'/", (6, 4)), ("'a\r\n'", (6, 3)),
    ("\r\n/*!\r\n", (6, 1)), ("/// a\r\n'/", (6, 6)), ("'\\\r\nx' '/", (6, 6)), ("\r\n \r \r\nb'", (6, 5)), ("// a\r\n\r\n\r\nbr#\r\n", (6, 7)),
    # Broken at the start, with CR LF only in it or after it.
    ("'\\\r\n", (6, 0)), ("'\r\nx'", (6, 0)), ('"a\r\n', (6, 0)), ("/*\r\n", (6, 0)), ("/**\r\n", (6, 0)), ('r#"\r\n"', (6, 0)), ("'/\r\n'", (6, 0)),
]
# Not UTF-8 comes before all of these, with its place in the lent text: number, place, cause.
ILL_ANSWERS = [
    (b"\xff\r\r\n", (2, 0, 1)), (b"\r\r\n\xff", (2, 3, 1)), (b"\r\r\n\xc3", (2, 3, 2)), (b"\xc3\r\r\n", (2, 0, 3)), (b"\r\xc3\r\n", (2, 1, 3)),
    (b"\r\r\xff\n", (2, 2, 1)), (b"\xe2\x82\r\r\n", (2, 0, 3)), (b"\r\n\r\n\xff", (2, 4, 1)), (b'"\r\n\xc3', (2, 3, 2)), (b"'/\r\n\xff", (2, 4, 1)),
    (b"\r\n\xf0\x9f\x98\r\n", (2, 2, 3)), (b"\r\r\n\"\r\r\n\x80", (2, 7, 1)), (b"/* \r\r\n \xed\xa0\x80", (2, 7, 3)), (b"\r\n\xf0\x9f\x98", (2, 2, 2)),
]
# Text, room and answer: with exactly as much room as the replaced key needs, one less, and none where something else comes first.
ROOM_ANSWERS = [
    ('"\r\n"', 3, (0, 3)), ('"\r\n"', 2, (7, 3)), ('"\r\n"', 4, (0, 3)), ('"\r\n"', 0, (7, 3)), ("'\\\r\nx'", 5, (0, 5)), ("'\\\r\nx'", 4, (7, 5)),
    ("\r\n", 0, (7, 1)), ("\r\n", 1, (0, 1)), ("\r\n", 2, (0, 1)), ("/// a\r\n", 6, (0, 6)), ("/// a\r\n", 5, (7, 6)), ('"\r\n\r\n\r"', 5, (0, 5)),
    ('"\r\n\r\n\r"', 4, (7, 5)), ("\r\r\n", 0, (10, 0)), ('"a"\r\r\n', 0, (10, 3)), ('"a"\r\r\n', 2, (10, 3)), ("\r\n\r\n'/", 0, (6, 2)), ("\r\n\r\n'/", 1, (6, 2)),
    ("a\r\nb", 3, (0, 3)), ("a\r\nb", 2, (7, 3)), ("\r", 0, (7, 1)), ("\r", 1, (0, 1)), ('"\r"', 3, (0, 3)), ('"\r"', 2, (7, 3)),
]


def answered(calls, text):
    """The key, or a refusal's number and place, and for 2 the cause."""
    refused, key = calls.keyed(text)
    if refused is None:
        return key
    number, place, cause = numbers_in(refused)
    return (number, place, cause) if number == 2 else (number, place)


def check(calls, text, expected):
    if answered(calls, text) != expected:
        fail(f"{text!r}: {answered(calls, text)!r}, not {expected!r}")


def every_room(calls, text):
    """No room, a byte less than is needed, exactly enough, as much as the lent text has, and more."""
    _, key = calls.keyed(text)
    length = len(text) if key is None else len(key)
    for room in sorted({0, max(length - 1, 0), length, len(text), len(text) + 2}):
        calls.key(room, (0x00, 0x0A, 0x0D, 0x58, 0xFF)[(room + len(text)) % 5], text)


def by_hand(calls, answers, ill_answers, room_answers):
    """Texts whose answers were written by hand: they are what the words say, and stored with each room."""
    for text, expected in answers:
        text = text.encode("utf-8")
        check(calls, text, expected.encode("utf-8") if isinstance(expected, str) else expected)
        every_room(calls, text)
    for text, expected in ill_answers:
        check(calls, text, expected)
        every_room(calls, text)
    for text, room, expected in room_answers:
        text = text.encode("utf-8")
        said = numbers_in(calls.key_answer(room, 0xAA, text)[:12])
        if said != (*expected, 0):
            fail(f"{text!r} in {room} bytes: {said}, not {expected}")
        calls.key(room, 0xAA, text)


def rows(maker):
    def fill(calls):
        by_hand(calls, ANSWERS, ILL_ANSWERS, ROOM_ANSWERS)
        twins(calls)

    return [maker.section(NO_LISTS, fill)]


def twins(calls):
    """The hundred texts whose keys are written by hand, and the broken ones, as a machine with CR LF checks them out: the same answers."""
    for text, key in KEYS:
        text = with_cr_lf(text.encode("utf-8"))
        if b"\n" in text:
            check(calls, text, key.encode("utf-8"))
            calls.key(len(key.encode("utf-8")), 0x0D, text)
    for before in BEFORE:
        place = len(before.encode("utf-8"))
        for broken in spread(BROKEN, 12):
            text = with_cr_lf((before + broken + "\n").encode("utf-8"))
            if b"\n" in before.encode("utf-8"):
                check(calls, text, (6, place))
                calls.key(len(text), 0x0D, text)


# ---- places: each end of a line at each place ----

ENDS = [
    "\r\n", "\r", "\n", "\r\r\n", "\r\r\r\n", "\n\r", "\r\n\r\n", "\r\n\r", "\r\r", "\n\r\n", "\r\n\n", "\r\n\r\r\n", "\r\r\n\r\n", "\r \r\n", "\r\n\r\n\r\n",
]
PLACES = [
    # Between tokens that would join, at both ends, beside other trivia.
    "{}", "{}a", "a{}", "{}a{}", "a{}b", "a {} b", "={}=", "1{}2", "1.{}a", "1e{}5", "0x{}f", "r{}#a", "r#{}a", "'a{}'b", "'{}a", "#{}!", "/{}/", "/{}*", "\\{}\\",
    "\u00e9{}\U0001f600", "\x85{}\u2028", "---{}a{}---{}", "#!a{}b", "b{}'a'", "b{}\"a\"", "k#{}a", "'r#{}a", "1{}u8",
    # In characters and bytes.
    "'{}'", "'a{}'", "'{}x'", "'\\{}'", "'\\{}x'", "'\\a{}'", "'+{}'", "'{}", "'\\{}", "b'{}'", "b'\\{}x'", "b'\\{}'", "b'{}",
    # In strings of every kind.
    '"{}"', '"a{}b"', '"\\{}b"', '"\\\\{}"', '"{}{}"', '"{}', '"\\{}', 'b"{}"', 'b"\\{}"', 'c"a{}"', 'c"{}', 'r"{}"', 'r#"{}"#', 'r#"a{}"', 'r#{}"a"#', 'r"a"{}',
    'br"{}"', 'br#"\\{}"#', 'cr"{}"', 'cr##"{}"##', 'cr#"{}', '#"{}"#', '"a"{}"b"',
    # In comments of every kind.
    "//{}", "// a{}", "// a{}b", "//{}/", "// a{}// b{}c", "///{}", "/// a{}", "/// a{}b", "///{}a", "/// a{}/// b{}", "//!{}", "//! a{}b", "////{}a",
    "//! a{}//! b", "/*{}*/", "/* a{}b */c", "/*{}/", "/*{}", "/*{}*", "/**{}*/", "/** a{}b */", "/** a{}*/{}b", "/**{}", "/*!{}*/", "/*! a{}b */",
    "/*!{}", "/*/*{}*/*/", "/*/{}*/", "/***{}*/a",
    # Beside a broken token, before it and after it.
    "{}'/", "'/{}", "a{}b{}\"", "{}/*", "r##{}~", "{}b'{}'/", "\u20ac{}r#~{}",
]


def places(maker):
    def fill(calls):
        for form in PLACES:
            for end in ENDS:
                calls.key_somewhere(maker.numbers, form.format(*[end] * form.count("{}")).encode("utf-8"))

    return [maker.section(NO_LISTS, fill)]


# ---- short texts ----

# tools/compare-random --line-ends has all of them up to six characters.
ALPHABET = "\r\n'\"\\/*a "
ALL_UP_TO = 4
# Of those with five characters all that have CR LF, CR CR LF too; of those with six that many.
SIX = 1200


def short(maker):
    """In two files: one would be too long."""
    texts = [text.encode("ascii") for text in over(ALPHABET, ALL_UP_TO)]
    longer = [text.encode("ascii") for text in over(ALPHABET, ALL_UP_TO + 2) if len(text) > ALL_UP_TO and "\r\n" in text]
    texts += [text for text in longer if len(text) == ALL_UP_TO + 1]
    texts += spread([text for text in longer if len(text) == ALL_UP_TO + 2], SIX)

    def fill(chosen):
        return lambda calls: [calls.key_somewhere(maker.numbers, text) for text in chosen]

    half = len(texts) // 2
    return [[maker.section(NO_LISTS, fill(part))] for part in (texts[:half], texts[half:])]


# ---- random texts ----


def with_ends(numbers, text):
    """The text with some of its ends of lines made others: mostly CR LF, now and then something nearly like it."""
    made = []
    for character in text:
        if character == "\n" and numbers.below(4) != 0:
            character = numbers.pick(["\r\n"] * 8 + ["\r", "\n\r", "\r\n\r\n", "\r\n\r"])
        made.append(character)
    if numbers.below(12) == 0:
        made.insert(numbers.below(len(made) + 1), numbers.pick(["\r\r\n", "\r\r\n", "\r\r\r\n", "\r"]))
    return "".join(made)


MAKERS = [airy, airy, airy_lines, airy_lines, glued, damaged]


def of_ends(numbers):
    """A text of pieces with ends of lines of each kind."""
    return with_ends(numbers, numbers.pick(MAKERS)(numbers))


def distinct(numbers, make, count, wanted):
    """So many random texts, no two alike, that are wanted and not long."""
    seen = set()
    while len(seen) < count:
        text = make(numbers).encode("utf-8")
        if text not in seen and len(text) <= 120 and wanted(text):
            seen.add(text)
            yield text


def fragments(maker):
    """Each text, and the same with LF and with CR LF alone: one key, or one place of a broken token."""
    numbers = Numbers(SEED)

    def fill(calls):
        for text in distinct(numbers, of_ends, RANDOM_TEXTS, lambda text: b"\r\n" in text):
            calls.key_somewhere(numbers, text)
            if b"\r\r\n" not in text:
                one_key(calls, numbers, text)

    return [maker.section(NO_LISTS, fill)]


def one_key(calls, numbers, text):
    for same in (replaced(text), with_cr_lf(text)):
        if calls.keyed(same) != calls.keyed(text):
            fail(f"{text!r} and {same!r} have two keys")
        calls.key_somewhere(numbers, same)


# ---- whole texts, as another machine checks them out ----

RULES = [
    LINE, LINE * 3, PAPER, "fn f() {\n    g(\"a\nb\"); // c\n}\n", "//! a\n\nuse b;\n\n/// c\n/// d\nfn e() {}\n", "#!/bin/sh\nfn f() {}\n",
    "/* a\n * b\n */\npub const LIMIT: f64 = 0.5; // ppm\n\n/** c\n * d */\nstatic S: &str = \"e \\\n    f\";\n", "---\na = 1\n---\nfn f() {}\n",
    "pub fn rule(x: u32) -> bool {\n    // no more than this\n    x <= 100_000 && r#\"a\n\"b\n\"#.len() == 5\n}\n",
    "macro_rules! m {\n    ($a:tt) => { 'b: loop { break 'b } };\n}\n",
    "impl<'a> S<'a> {\n    fn t(&self) -> char {\n        '\\n'\n    }\n}\n", "const C: &[u8] = b\"a\\\n\tb\";\nconst D: u8 = b'\\n';\n",
    "// \u00e9t\u00e9\nlet \u53d8\u91cf = \"\u20ac\n\U0001f600\"; /* \u00b5g\n */\n", "\n\n\n", "// a\n// b\n// c\n", "/// a\n\n\n/// b\n",
]


def whole(maker):
    """Texts as they are, and with CR LF for LF: the same key. Those with characters outside ASCII also under other lists."""
    samples = [text.encode("utf-8") for text in RULES + ROOM_TEXTS] + [text for text in named_texts() if b"\n" in text]
    samples = [text for text in dict.fromkeys(samples) if b"\n" in text]
    listed = [text.encode("utf-8") for text in RULES + [f"{text}\n{text}\n" for text in LISTED] if not text.isascii()]

    def fill(texts):
        def one(calls):
            for text in texts:
                twin = with_cr_lf(text)
                if calls.keyed(twin) != calls.keyed(text):
                    fail(f"{text!r} has another key with CR LF")
                calls.key_somewhere(maker.numbers, text)
                calls.key_somewhere(maker.numbers, twin)

        return one

    return [maker.section(NO_LISTS, fill(samples))] + [maker.section(lists, fill(listed)) for lists in (maker.real, EVERYTHING, POINTS)]


# ---- refusals ----


def refused(maker):
    numbers = Numbers(SEED + 1)

    def ill_formed(calls):
        for _ in range(ILL_FORMED_TEXTS):
            text = of_ends(numbers).encode("utf-8") + numbers.pick([b"\r\n", b"\r\r\n", b" "])
            calls.key_somewhere(numbers, damaged_bytes(numbers, text))

    return [maker.section(NO_LISTS, ill_formed)] + refused_by_lists(maker, WITH_LISTS)


# A text and its answer where the lists are good.
WITH_LISTS = [
    (b"\r\r\n", (10, 0)), (b"a\r\n", b"a\n"), (b"\xff\r\r\n", (2, 0, 1)), (b"\r\r\n\xff", (2, 3, 1)), (b"\r\n'/", (6, 1)), (b"'/\r\r\n", (10, 2)),
    ("\u00c1\r\r\n".encode("utf-8"), (10, 2)), ("\u00c1\r\n\u4e00".encode("utf-8"), "\u00c1\n\u4e00".encode("utf-8")),
]


def refused_by_lists(maker, texts):
    """A list that breaks a rule comes before everything that is wrong with the text; with good lists each text has its own answer."""

    def fill(which, index):
        def one(calls):
            for text, expected in texts:
                check(calls, text, expected if which is None else (3, which))
                if which is not None and numbers_in(calls.keyed(text)[0]) != (3, which, index):
                    fail(f"not the pair of index {index}")
                calls.key(len(text), 0x0D, text)
                calls.key(0, 0x0D, text)

        return one

    bad = refused_lists()
    sections = []
    for at, (pairs, index) in enumerate(spread(bad, 9)):
        chosen = [*GOOD]
        chosen[at % 3] = pairs
        # A later list that is bad too changes nothing.
        if at % 2 == 0 and at % 3 < 2:
            chosen[2] = bad[(7 * at) % len(bad)][0]
        sections.append(maker.section(tuple(chosen), fill(at % 3, index)))
    return sections + [maker.section(GOOD, fill(None, None))]


# ---- room, and long texts ----


def room(maker):
    def fill(calls):
        for text in ROOM_TEXTS + ["a\n", "\n\n\n", '"\n"', "'\\\nx'", "/// a\n\n\n", "/**\n\n*/\n"]:
            text = with_cr_lf(text.encode("utf-8"))
            if b"\n" in text:
                length = len(calls.keyed(text)[1])
                for size in sorted({0, max(length - 1, 0), length, length + 1, len(replaced(text)), len(text) - 1, len(text), len(text) + 5}):
                    for byte in (0x00, 0x0A, 0x0D, 0xFF):
                        calls.key(size, byte, text)
        for text, length in LONG:
            said = answered(calls, text)
            if (len(said) if isinstance(said, bytes) else said) != length:
                fail(f"{text[:20]!r}: not as long as meant")
            sizes = {0, 60} if isinstance(length, tuple) else {min(length + more, MOST_ROOM) for more in (-1, 0, 1)}
            for size in sorted(sizes):
                calls.key(size, 0x0D, text)
        for text in LONG_TEXTS:
            text = with_cr_lf(text.encode("utf-8"))
            if b"\n" in text:
                calls.key_somewhere(maker.numbers, text)
        # The most room, and CR LF at its end: the key fills it, or is a byte too long.
        most = ((b"a" * 4095 + b"\r\n", 4096), (b"a" * 4096 + b"\r\n", 4097), (b"a" * 4093 + b'"\r\n"', 4096), (b"a" * 4094 + b'"\r\n"', 4097))
        for text, length in most:
            if len(calls.keyed(text)[1]) != length:
                fail("a key does not fill the most room as meant")
            calls.key(MOST_ROOM, 0x58, text)
        calls.key(9, 0x58, with_cr_lf(PAPER.encode("ascii")))

    return [maker.section(NO_LISTS, fill)]


# Texts of many ends of lines, and the bytes of their keys or the refusal.
LONG = [
    (b"\r\n" * 3000, 1), (b"\r" * 3000, 1), (b"\r" * 3000 + b"\r\n", (10, 2999)), (b"\r\n" * 1500 + b"\r\r\n", (10, 3000)), (b"\r\n" * 2000 + b"'/", (6, 2000)),
    (b'"' + b"\r\n" * 1500 + b'"', 1502), (b'"' + b"\r\n" * 4094 + b'"', 4096), (b'"' + b"\r\n" * 4095 + b'"', 4097), (b'"' + b"\n\r" * 700 + b'"', 703),
    (b'r"' + b"\r \n" * 300 + b'"', 903), (b"/// a\r\n" * 300, 1800), (b"// a\r\n" * 500 + b"b", 2), (b"/*" + b"\r\n" * 2500 + b"*/c\r\n", 3), (b"a\r\n" * 400, 800),
    (b"/*" + b"\r\n" * 2500, (6, 0)), (b"a" * 255 + b"\r\n" + b"b" * 255, 511), (b" " * 4095 + b"\r\r\n", (10, 4095)),
    (b'"' + b"a" * 1022 + b"\r\n" + b"b" * 1022 + b'"', 2047),
]


# ---- the files ----


def make(oracle, real):
    """Name and sections of each file."""
    maker = key_files.Maker(oracle, real)
    # Its own run of numbers.
    maker.numbers = Numbers(SEED + 2)
    first, second = short(maker)
    files = {
        "key-ends-rows.vec": rows(maker),
        "key-ends-places.vec": places(maker),
        "key-ends-short.vec": first,
        "key-ends-short-more.vec": second,
        "key-ends-fragments.vec": fragments(maker),
        "key-ends-whole.vec": whole(maker),
        "key-ends-refused.vec": refused(maker),
        "key-ends-room.vec": room(maker),
    }
    print(f"ends of lines: answers that begin {maker.begun()}", file=sys.stderr)
    return files
