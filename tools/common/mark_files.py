"""Which vectors of operation 17 are about hidden direction marks. tools/oracle/README.md describes them.

A text that has one of the nine marks, wherever it stands, is refused as 11 with the place of the first in the lent text
(document 02, W6): after 3, 2 and 10, and before 6 and 7. The texts here are those at which such a search goes wrong: at the
characters beside the nine and at those with bytes like theirs, inside tokens that are otherwise passed over, at the ends, where
eight bytes may be looked at as one, and where something else is wrong with the text too.
"""

import sys

from common import key_files
from common.chance import Numbers
from common.ending import fail
from common.key_files import airy
from common.keys import HIDDEN, with_cr_lf
from common.line_end_files import answered, by_hand, check, distinct, of_ends, refused_by_lists
from common.line_files import airy_lines
from common.lists import EVERYTHING, NO_LISTS, flat
from common.packing import MOST_ROOM
from common.texts import LINE, POINTS, damaged, damaged_bytes, glued, over
from common.token_files import spread

SEED = 60
# Random texts, and ill-formed ones.
RANDOM_TEXTS = 200
ILL_FORMED_TEXTS = 150
# Places that are tried with each lists.
LISTED_PLACES = 30

# No marks: those beside the two runs of marks, and the ends of what has a second byte of one run and a last byte of the other.
BESIDE = "\u2026\u2027\u2028\u2029\u202f\u2064\u2065\u206a\u206e\u206f"
# Other characters that nobody sees. Three are about direction too, but none is among the nine; two of them are whitespace.
UNSEEN = "\u200e\u200f\u061c\u200b\u200d\ufeff"
# Those with bytes like theirs: one byte is another, or the same ones stand in another order or after others.
ALIKE = "\u00aa\u102a\u10aa\u20aa\u20a6\u302a\u3066\u2aaa\u2a80\U0001f02a\U0001202e\U00012066\U0010202a"
OTHERS = BESIDE + UNSEEN + ALIKE


# ---- rows: answers written by hand ----

# A text, and its key or a refusal's number and place. The tool stops where the words of common/keys.py say something else.
ANSWERS = [
    # The nine.
    ("\u202a", (11, 0)), ("\u202b", (11, 0)), ("\u202c", (11, 0)), ("\u202d", (11, 0)), ("\u202e", (11, 0)),
    ("\u2066", (11, 0)), ("\u2067", (11, 0)), ("\u2068", (11, 0)), ("\u2069", (11, 0)),
    # Those beside them: some are whitespace, and the others stay.
    ("\u2029", "\n"), ("\u202f", "\u202f"), ("\u2065", "\u2065"), ("\u206a", "\u206a"), ("\u2026", "\u2026"), ("\u2027", "\u2027"), ("\u2028", "\n"),
    ("\u2064", "\u2064"), ("\u206e", "\u206e"), ("\u206f", "\u206f"), ("\u2029a\u202f", "\na\u202f"), ("\u202fa\u202f", "\u202fa\u202f"),
    # Other characters that are not seen.
    ("\u200e", "\n"), ("\u200f", "\n"), ("\u061c", "\u061c"), ("\u200b", "\u200b"), ("\u200d", "\u200d"), ("\ufeff", "\ufeff"), ("a\u200eb", "a\nb"),
    # Those with bytes like theirs.
    ("\u00aa", "\u00aa"), ("\u102a", "\u102a"), ("\u10aa", "\u10aa"), ("\u20aa", "\u20aa"), ("\u20a6", "\u20a6"), ("\u302a", "\u302a"), ("\u3066", "\u3066"),
    ("\u2aaa", "\u2aaa"), ("\u2a80", "\u2a80"), ("\U0001f02a", "\U0001f02a"), ("\U0001202e", "\U0001202e"), ("\U00012066", "\U00012066"),
    ("\U0010202a", "\U0010202a"),
    # In comments, trivia too.
    ("// \u202e\n", (11, 3)), ("//\u202e", (11, 2)), ("// a \u2066b\u2069\nc", (11, 5)), ("////\u202a", (11, 4)), ("/// \u202b\n", (11, 4)), ("//! \u202c", (11, 4)),
    ("/*\u202d*/", (11, 2)), ("/* a \u2067 */b", (11, 5)), ("/** \u2068*/", (11, 4)), ("/*!\u2069*/", (11, 3)), ("/*/*\u202e*/*/", (11, 4)),
    ("/*/**/\u2066*/", (11, 6)), ("/**/\u2069", (11, 4)), ("//\n\u202a", (11, 3)), ("/*\u202e } \u2066if x\u2069 */ y {", (11, 2)),
    ("// \u202f\na", "\na"), ("/// \u202f", "/// \u202f"), ("/*\u206a*/a", "\na"), ("/** \u2065 */", "/** \u2065 */"), ("// &#x202e;\na", "\na"),
    # In literals; an escape has no mark in it.
    ('"\u202e"', (11, 1)), ('"a\u2066"', (11, 2)), ('"\\\u202e"', (11, 2)), ('b"\u202a"', (11, 2)), ('c"\u2067"', (11, 2)), ('r"\u202e"', (11, 2)),
    ('r#"\u2068"#', (11, 3)), ('br"\u202b"', (11, 3)), ('cr##"\u2069"##', (11, 5)), ('#"\u202d"#', (11, 2)), ("'\u202e'", (11, 1)), ("'\\\u2066'", (11, 2)),
    ("b'\u202c'", (11, 2)), ('"\u2065\u206a"', '"\u2065\u206a"'), ("'\u202f'", "'\u202f'"), ('r"\u2026"', 'r"\u2026"'), ('"\\u{202e}"', '"\\u{202e}"'),
    ("'\\u{2066}'", "'\\u{2066}'"), ('"\\xe2\\x80\\xae"', '"\\xe2\\x80\\xae"'),
    # In names, lifetimes and numbers, and between tokens.
    ("a\u202eb", (11, 1)), ("\u2066a", (11, 0)), ("a\u2069", (11, 1)), ("r#\u202a", (11, 2)), ("r#a\u202b", (11, 3)), ("'a\u2067", (11, 2)), ("'\u2068a", (11, 1)),
    ("1\u202c", (11, 1)), ("1u\u202d8", (11, 2)), ("0x\u202ef", (11, 2)), ("1.\u2066", (11, 2)), ("1e\u2067", (11, 2)), ("k#\u2069", (11, 2)),
    ("a \u202e b", (11, 2)), ("=\u2066=", (11, 1)), ("fn f() {}\u202e", (11, 9)), ("\n\n\u2069\n", (11, 2)), ("=\u202f=", "=\u202f="), ("a\u2029b", "a\nb"),
    # The first of several.
    ("\u202e\u2066", (11, 0)), ("\u2066\u202e", (11, 0)), ("a\u2066b\u202ec", (11, 1)), ('"\u202f\u2065\u2069"', (11, 7)), ("\u202f\u202e\u2066", (11, 3)),
    # Its place is one in bytes, and in the lent text.
    ("\u00e9\u202e", (11, 2)), ("\u20ac\u202e", (11, 3)), ("\U0001f600\u202e", (11, 4)), ("\u00e9\u20ac\U0001f600\u2069", (11, 9)), ("\r\n\u202e", (11, 2)),
    ("a\r\nb\r\n// \u2066\r\n", (11, 9)), ('"\r\n\u202e\r\n"', (11, 3)), ("\u202e\r\n", (11, 0)), ("\r\n\r\n\u20ac\r\n\u2067", (11, 9)),
    ("\r\u202e", (11, 1)), ("\r\u202e\n", (11, 1)), ("\r\r\u202e\n", (11, 2)), ("\r\u2069\r\n", (11, 1)),
    # CR CR LF comes before it, wherever it stands.
    ("\r\r\n\u202e", (10, 0)), ("\u202e\r\r\n", (10, 3)), ('"\u2066\r\r\n"', (10, 4)), ("// \u202e\r\r\n", (10, 6)), ("\r\r\r\n\u2069", (10, 1)),
    ("\u202e\u202e a\r\r\n", (10, 8)), ("\r\n\u2066\r\n\r\r\n", (10, 7)),
    # A broken token comes after it, wherever it stands.
    ("'/\u202e", (11, 2)), ("\u202e'/", (11, 0)), ('"\u2066', (11, 1)), ("/* \u2067", (11, 3)), ("/**\u2068", (11, 3)), ("r#~\u2069", (11, 3)),
    ('"a" \u202b "', (11, 4)), ("'/ \r\n\u202c", (11, 5)), ("\r\n\u202d\"", (11, 2)), ('r#"a" \u202e', (11, 6)),
    ('"\u202f', (6, 0)), ("\u2065'/", (6, 3)), ("'/\u206a", (6, 0)), ("\u202f\r\n\"", (6, 4)),
]
# Not UTF-8 comes before all of these: number, place, cause. A part of a mark is none.
ILL_ANSWERS = [
    (b"\xe2", (2, 0, 2)), (b"\xe2\x80", (2, 0, 2)), (b"\xe2\x81", (2, 0, 2)), (b"a\xe2\x80", (2, 1, 2)), (b"\xe2\x80a", (2, 0, 3)), (b"\xe2\x81\n", (2, 0, 3)),
    (b"\xae", (2, 0, 1)), (b"\x80\xae", (2, 0, 1)), (b"\x81\xa6", (2, 0, 1)), (b"\xe2\xae", (2, 0, 2)), (b"\xe2\x80\xe2\x80\xae", (2, 0, 3)),
    (b"\xe2\xe2\x81\xa6", (2, 0, 3)), (b"\xe2\x80\xae\xff", (2, 3, 1)), (b"\xff\xe2\x80\xae", (2, 0, 1)), (b"\xe2\x80\xae\xc3", (2, 3, 2)),
    (b"\xc3\xe2\x80\xae", (2, 0, 3)), (b"\xe2\x80\xae\xae", (2, 3, 1)), (b"\xe2\x81\xa6\xe2\x81", (2, 3, 2)), (b'"\xe2\x80\xae\xc3"', (2, 4, 3)),
    # Its number in too many bytes, and surrogates beside it.
    (b"\xf0\x82\x80\xae", (2, 0, 3)), (b"\xf0\x82\x81\xa6", (2, 0, 3)), (b"\xed\xa0\x80\xe2\x80\xae", (2, 0, 3)), (b"\xe2\x80\xae\xed\xa0\x80", (2, 3, 3)),
    (b"\xe2\x80\xae\r\r\n\xff", (2, 6, 1)), (b"'/\xe2\x80\xae\xe2\x80", (2, 5, 2)), (b"\r\n\xe2\x81\xa9\r\n\x80", (2, 7, 1)),
]
# Text, room and answer: with no room too, what is wrong with the text comes first.
ROOM_ANSWERS = [
    ("\u202e", 0, (11, 0)), ("\u202e", 2, (11, 0)), ("\u202e", 3, (11, 0)), ("a\u2066", 0, (11, 1)), ("a b c d \u202a", 0, (11, 8)), ("a b c d \u202a", 4, (11, 8)),
    ('"abc"\u2069', 2, (11, 5)), ("// \u202e\n", 0, (11, 3)), ("// \u202e\n", 1, (11, 3)), ("\r\n\u202e", 0, (11, 2)), ("'/\u202e", 0, (11, 2)),
    ("\u202e\r\r\n", 0, (10, 3)), ("\u202f", 0, (7, 3)), ("\u202f", 2, (7, 3)), ("\u202f", 3, (0, 3)), ("\u2029", 0, (7, 1)), ("\u2029", 1, (0, 1)),
    ('"\u206a"', 4, (7, 5)), ('"\u206a"', 5, (0, 5)), ("\u2065 ", 3, (7, 4)), ("\u2065 ", 4, (0, 4)),
]


def rows(maker):
    return [maker.section(NO_LISTS, lambda calls: by_hand(calls, ANSWERS, ILL_ANSWERS, ROOM_ANSWERS))]


# ---- places: each mark at each place ----

PLACES = [
    # At the ends, between tokens, in and beside names, lifetimes and numbers.
    "{}", "{}a", "a{}", "{}a{}", "a{}b", "a {} b", " {}", "{} ", "={}=", ";{};{}", "1{}", "1{}u8", "1u{}8", "1.{}", "0x{}", "1e{}5", "r{}#a", "r#{}", "r#a{}",
    "'a{}", "'{}a", "'{}", "'r#{}a", "k#{}a", "#!{}\n", "---{}\na\n---\n", "\\{}", "\0{}\0", "b{}'a'", "r{}\"a\"",
    # In literals.
    "'{}'", "'a{}'", "'\\{}'", "'\\{}x'", "b'{}'", "b'\\{}'", '"{}"', '"a{}b"', '"\\{}b"', '"\\\\{}"', '"a"{}"b"', 'b"{}"', 'c"a{}"', 'r"{}"', 'r#"{}"#', 'r#"a"{}#"#',
    'br"{}"', 'br#"\\{}"#', 'cr##"{}"##', '#"{}"#',
    # In comments of every kind.
    "//{}", "// a{}", "// {}\na", "//{}/", "////{}a", "///{}", "/// a{}b\n", "///{}\n/// a", "//!{}\n", "/*{}*/", "/* a{}b */c", "/*{}/*/", "/**{}*/", "/** a{}*/b",
    "/*!{}*/", "/***{}*/", "/*/*{}*/*/", "/*/**/{}*/", "/**/{}/**/", "// a\n{}",
    # In and beside broken tokens.
    "'/{}", "{}'/", "'{}/", '"{}', '"a" "{}', 'b"\\{}', "b'{}", "r#{}~", "r##~{}", 'r#"{}"', "/*{}", "/* a{}", "/**{}", "/*!{}", "/*/*{}*/", "{}/*", "\"\"{}'/",
    # Beside ends of lines: the place is one in the lent text.
    "{}\r\n", "\r\n{}", "a\r\nb{}\r\n", '"\r\n{}\r\n"', "// a\r\n// {}\r\nb", "/// a\r\n{}", "\r{}", "{}\r", "\r{}\n", "\r{}\r\n", "\r\r{}\n", "\r\n\r\n'/{}", "\n\r{}",
    # CR CR LF comes first.
    "{}\r\r\n", "\r\r\n{}", '"{}\r\r\n"', "{}\r\n\r\r\n", "\r\r\r\n{}", "/* {} \r\r\n", "\u20ac{}\u00e9\r\r\n", "{}\r\r\n{}",
    # Beside characters outside ASCII, and several.
    "\u00e9{}", "\u20ac{}", "\U0001f600{}", "{}\u00e9", "\u00e9{}\u20ac{}\U0001f600", "\u202f{}", "\u2065{}", "\u2029{}\u2029", "\u200e{}", "{}\u206a", "{}{}", "{}a{}b{}",
]


def in_turn(at):
    return HIDDEN[at % len(HIDDEN)]


def placed(form, character):
    return form.replace("{}", character).encode("utf-8")


def expected_at(form, mark):
    """The place of CR CR LF where there is one, else the bytes before the first mark."""
    doubled = placed(form, mark).find(b"\r\r\n")
    return (10, doubled) if doubled >= 0 else (11, len(form[: form.index("{}")].encode("utf-8")))


def places(maker):
    """Each mark at each place, and at each place three of the others in turn."""

    def fill(calls):
        for at, form in enumerate(PLACES):
            for mark in HIDDEN:
                check(calls, placed(form, mark), expected_at(form, mark))
                calls.key_somewhere(maker.numbers, placed(form, mark))
            for turn in range(3):
                unmarked(calls, maker.numbers, placed(form, OTHERS[(3 * at + turn) % len(OTHERS)]))

    return [maker.section(NO_LISTS, fill)]


def unmarked(calls, numbers, text):
    """A text without a mark: whatever its answer is, it is not 11."""
    said = answered(calls, text)
    if isinstance(said, tuple) and said[0] == 11:
        fail(f"{text!r} has no mark")
    calls.key_somewhere(numbers, text)


# ---- short texts ----

# tools/compare-random --marks has all of them up to five characters. The first four are marks and one that resembles them.
ALPHABET = "\u202e\u2066\u2069\u202f\"/*\n\ra\u00e9"
ALL_UP_TO = 3


def short(maker):
    """Those that have one of the first four; the others are like those of other files."""

    def fill(calls):
        for text in over(ALPHABET, ALL_UP_TO):
            if any(character in ALPHABET[:4] for character in text):
                calls.key_somewhere(maker.numbers, text.encode("utf-8"))

    return [maker.section(NO_LISTS, fill)]


# ---- far from the start ----

# A run of ASCII may be passed over eight bytes at once: so a mark stands after every count of them, up to five times eight, and before some.
RUN = 41
TAILS = [0, 1, 40]
# What may stand between such a run and the mark: a character of two, three and four bytes, and some that resemble it.
BETWEEN = "\u00e9\u20ac\U0001f600\u202f\u2065\u2029"


def far_texts():
    """A text and the place of its first mark."""
    texts = []
    for count in range(RUN):
        mark, other = in_turn(count), in_turn(count + 4)
        texts += [("a" * count + mark + "b" * tail, count) for tail in TAILS]
        # Two, that far from each other, and the first in the second step of eight.
        texts += [(mark + "a" * count + other, 0), ("a" * 11 + other + "a" * count + mark, 11)]
        # In trivia, in a string, after CR LF.
        texts += [("//" + " " * count + mark, count + 2), ('"' + "a" * count + mark + '"', count + 1), ("\r\n" * count + mark, 2 * count)]
    texts += [("a" * (power + beside) + in_turn(power // 128 + beside), power + beside) for power in (128, 256, 1024, 2048) for beside in (-1, 0, 1)]
    for at, between in enumerate(BETWEEN):
        wide = len(between.encode("utf-8"))
        texts += [("a" * count + between + in_turn(count + at) + "b" * 9, count + wide) for count in range(17)]
        texts += [(between * count + in_turn(count + at), wide * count) for count in range(2, 10)]
    return texts


# Long texts, and the place of their first mark.
LONG = [
    ("a" * 4096 + "\u202e", 4096), (" " * 4095 + "\u2069", 4095), ("a" * 65537 + "\u2066", 65537), ("/*" + "b" * 9000 + "\u202a*/", 9002),
    ('"' + "\u20ac" * 3000 + '\u2067"', 9001), ("\r\n" * 3000 + "\u202e", 6000), ("// a\r\n" * 500 + "\u2068", 3000), ("\u202b" + "a" * 5000, 0),
    ("\u202f" * 2000 + "\u202c", 6000), ("/// \u2026\n" * 300 + "//\u202d", 2402), ("\u202e" * 2000, 0), ("'/ " * 1000 + "\u2066", 3000),
]


def far(maker):
    def fill(calls):
        for text, place in far_texts():
            check(calls, text.encode("utf-8"), (11, place))
            calls.key_somewhere(maker.numbers, text.encode("utf-8"))
        for at, (text, place) in enumerate(LONG):
            check(calls, text.encode("utf-8"), (11, place))
            calls.key((0, 60)[at % 2], 0x58, text.encode("utf-8"))
        # The same places without a mark: characters that stay, so that the text is its own key.
        for count in range(17):
            text = ("a" * count + "\u202f\u2065\u206a\u2026"[count % 4] + "b" * (16 - count)).encode("utf-8")
            check(calls, text, text)
            calls.key_somewhere(maker.numbers, text)
        for text in (LINE * 20 + "// \u202f\u2065\n", "\u2029" * 500, '"' + "\u206a\u2026" * 300 + '"'):
            unmarked(calls, maker.numbers, text.encode("utf-8"))
        # The most room: a key that fills it, and one that is a byte too long.
        for count in (MOST_ROOM - 3, MOST_ROOM - 2):
            calls.key(MOST_ROOM, 0x61, ("a" * count + "\u202f").encode("utf-8"))

    return [maker.section(NO_LISTS, fill)]


# ---- random texts ----

MAKERS = [airy, airy, airy_lines, glued, damaged, of_ends]


def of_marks(numbers):
    """A text of pieces with marks, and with characters that resemble them, put in anywhere."""
    made = list(numbers.pick(MAKERS)(numbers))
    for _ in range(1 + numbers.below(3)):
        made.insert(numbers.below(len(made) + 1), numbers.pick(numbers.pick([HIDDEN, OTHERS])))
    return "".join(made)


def fragments(maker):
    """Each text, and where it is refused for a mark the same with CR LF and with something else in place of the marks."""
    numbers = Numbers(SEED)

    def fill(calls):
        for text in distinct(numbers, of_marks, RANDOM_TEXTS, lambda text: True):
            calls.key_somewhere(numbers, text)
            said = answered(calls, text)
            if isinstance(said, tuple) and said[0] == 11:
                twins(calls, numbers, text, said[1])

    return [maker.section(NO_LISTS, fill)]


def twins(calls, numbers, text, place):
    """The same text with CR LF, where the place is later by the CRs that were put before it; and the same without a mark."""
    with_cr = with_cr_lf(text)
    check(calls, with_cr, (11, len(with_cr_lf(text[:place]))))
    calls.key_somewhere(numbers, with_cr)
    others = text.decode("utf-8").translate({ord(mark): numbers.pick(OTHERS) for mark in HIDDEN})
    unmarked(calls, numbers, others.encode("utf-8"))


# ---- lists ----

# Lists in which the marks alone start names, go on in them and are emoji.
MARKS = flat([(0x202A, 0x202E), (0x2066, 0x2069)])
CHOICES = [EVERYTHING, POINTS, (MARKS, MARKS, MARKS), ([], MARKS, []), ([], [], MARKS)]


def lists(maker):
    """No list makes a mark something else. What resembles one is what the lists say."""

    def fill(calls):
        for at, form in enumerate(spread(PLACES, LISTED_PLACES)):
            mark = in_turn(at)
            check(calls, placed(form, mark), expected_at(form, mark))
            calls.key_somewhere(maker.numbers, placed(form, mark))
            unmarked(calls, maker.numbers, placed(form, OTHERS[at % len(OTHERS)]))

    return [maker.section(chosen, fill) for chosen in (maker.real, *CHOICES)]


# ---- refusals ----


def nearly(mark):
    """The bytes of a mark with one of them one more, one less, taken out or doubled: another character, or none."""
    whole = mark.encode("utf-8")
    for at, byte in enumerate(whole):
        for instead in ([byte + 1], [byte - 1], [], [byte, byte]):
            yield whole[:at] + bytes(instead) + whole[at + 1 :]


# A text and its answer where the lists are good.
WITH_LISTS = [
    ("\u202e".encode("utf-8"), (11, 0)), ("a // \u2066\n".encode("utf-8"), (11, 5)), (b"\xe2\x80", (2, 0, 2)), (b"\xe2\x80\xae\xff", (2, 3, 1)),
    ("\u2069\r\r\n".encode("utf-8"), (10, 3)), ("'/\u202a".encode("utf-8"), (11, 2)), ("\u00c1\u202f".encode("utf-8"), "\u00c1\u202f".encode("utf-8")),
]


def refused(maker):
    numbers = Numbers(SEED + 1)

    def ill_formed(calls):
        for at, mark in enumerate(HIDDEN):
            for text in nearly(mark):
                calls.key_somewhere(numbers, text)
                calls.key_somewhere(numbers, b'a "' + text + (b'"', b"\r\n", b"")[at % 3])
        for _ in range(ILL_FORMED_TEXTS):
            calls.key_somewhere(numbers, damaged_bytes(numbers, of_marks(numbers).encode("utf-8")))

    return [maker.section(NO_LISTS, ill_formed)] + refused_by_lists(maker, WITH_LISTS)


# ---- the files ----


def make(oracle, real):
    """Name and sections of each file."""
    maker = key_files.Maker(oracle, real)
    # Its own run of numbers.
    maker.numbers = Numbers(SEED + 2)
    files = {
        "key-marks-rows.vec": rows(maker),
        "key-marks-places.vec": places(maker),
        "key-marks-short.vec": short(maker),
        "key-marks-far.vec": far(maker),
        "key-marks-fragments.vec": fragments(maker),
        "key-marks-lists.vec": lists(maker),
        "key-marks-refused.vec": refused(maker),
    }
    print(f"hidden direction marks: answers that begin {maker.begun()}", file=sys.stderr)
    return files
