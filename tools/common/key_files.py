"""Which vectors of operation 17, the key call, are stored, file by file: but those about ends of lines and about hidden direction marks.

Those are made in common/line_end_files.py and common/mark_files.py. tools/oracle/README.md describes all of them.
"""

import sys

from common.chance import Numbers
from common.ending import fail
from common.lists import EVERYTHING, GOOD, NO_LISTS, refused_lists
from common.packing import MOST_ROOM, numbers_in
from common.texts import (
    EMOJI_ONLY, FRAGMENTS, ILL_FORMED, LINE, NO_EMOJI, NO_WHITESPACE, OTHER_ROWS, POINTS, ROWS, WHITESPACE,
    damaged, damaged_bytes, glued, over, text_of,
)
from common.token_files import spread
from common.tokens import FILLS, Calls

SEED = 2
# Texts that are keyed and texts that are not in the file of random ones; texts asked with each lists.
KEYED_TEXTS = 520
BROKEN_TEXTS = 180
LISTED_TEXTS = 110


# ---- rows: what the scope paper says of a key, and where its words are easily missed ----

PAPER = "/* a */x = 1; // b\n"

# A text and its key. The tool stops where the words above and these keys differ.
KEYS = [
    (PAPER, "\nx\n=\n1;\n"),
    ("", ""),
    ("a+1", "a+1"),
    # Trivia is no less than a newline.
    ("= =", "=\n="), ("==", "=="), ("=\n=", "=\n="), ("=/**/=", "=\n="), ("=//\n=", "=\n="), ("=  =", "=\n="),
    ("- >", "-\n>"), ("->", "->"), ("a b", "a\nb"), ("ab", "ab"), ("a/**/b", "a\nb"), ("1 .a", "1\n.a"),
    ("'a 'b", "'a\n'b"), ("'a'b", "'a'b"), ("r #a", "r\n#a"), ("r#a", "r#a"), ("/ /", "/\n/"), ("/ *", "/\n*"),
    # Only trivia; trivia at the ends, a newline already or not.
    (" ", "\n"), ("\n", "\n"), ("\n\n", "\n"), (" \t\r\n\x0b\x0c", "\n"), ("/**/", "\n"), ("/***/", "\n"), ("//", "\n"),
    ("// a", "\n"), ("// a\n", "\n"), ("////", "\n"), ("//// a\n", "\n"), ("/* */ // \n /**/", "\n"), ("//\n//\n", "\n"),
    ("/*/* */*/", "\n"), ("// a\rb", "\n"), ("a", "a"), (" a", "\na"), ("a ", "a\n"), (" a ", "\na\n"),
    ("\na\n", "\na\n"), ("\na", "\na"), ("a\n", "a\n"), ("//\na//", "\na\n"), ("/**/a/**/", "\na\n"),
    # Doc comments are meaningful, newlines inside them too; four marks are no doc comment.
    ("/// a", "/// a"), ("/// a\n", "/// a\n"), ("/// a\n\n b", "/// a\nb"), ("///", "///"), ("//!", "//!"),
    ("//! a\n//! b\n", "//! a\n//! b\n"), ("/// a\r\nb", "/// a\nb"), ("//// a\n/// b\n// c\n", "\n/// b\n"),
    ("/** a */", "/** a */"), ("/*! a */", "/*! a */"), ("/** a *//*! b */", "/** a *//*! b */"),
    ("/** a */ /* b */ /*! c */", "/** a */\n/*! c */"), ("/**\n  a\n*/ b", "/**\n  a\n*/\nb"),
    ("/*** a */b", "\nb"), ("/**//**/b", "\nb"), ("/*!*/b", "/*!*/b"), ("/** /* a */ */ b", "/** /* a */ */\nb"),
    # What literals hold is theirs.
    ('"a  b" ', '"a  b"\n'), ('" // "', '" // "'), ('"/*" "*/"', '"/*"\n"*/"'), ("'\n'", "'\n'"), ("' '", "' '"),
    ("'\0'", "'\0'"), ("'''", "'''"), ('r#" /**/ "# x', 'r#" /**/ "#\nx'), ('b"\n\n"', 'b"\n\n"'), ("'\\\nx'", "'\\\nx'"),
    # Strange, but not broken.
    ("0x", "0x"), ("1e", "1e"), ("0b .", "0b\n."), ("k# a", "k#\na"), ("'1 a", "'1\na"), ("'r#a ", "'r#a\n"), ("\0 \0", "\0\n\0"),
    ('##"a" b', '##"a"\nb'), ("# #", "#\n#"), ("a\u00a0b", "a\u00a0b"), ("\\ `", "\\\n`"),
    ("r" + "#" * 255 + '""' + "#" * 255 + " x", "r" + "#" * 255 + '""' + "#" * 255 + "\nx"),
    # Dashes are no frontmatter here.
    ("---\nx\n---\n", "---\nx\n---\n"), ("---  a\n---\n", "---\na\n---\n"),
]
KEYS += [(f"a{point}b", "a\nb") for point in WHITESPACE] + [(WHITESPACE, "\n"), (f"{WHITESPACE}a{WHITESPACE}", "\na\n")]

# A text that begins with a broken token.
BROKEN = [
    "'/**/'", "'", "'/", "'+", "'\\", "'\\a\n", "b'", "b'/", "b'\\'", '"', '"a', '"\\"', 'b"', 'b"a', 'c"', 'c"a\\"',
    'r"', 'r"a', 'r#"a"', "r#", "r##", "r##~", "r#~x = 1", 'br"', 'br#"a"', "br#", "br##~", 'cr"', 'cr##"a"#', "cr#~",
    "r" + "#" * 256 + '""' + "#" * 256, "br" + "#" * 256 + '""' + "#" * 256 + "a",
    "/*", "/**", "/*!", "/* a", "/** a", "/*! a", "/*/", "/*/*/", "/*/* */", "/***",
]
# What may stand before: nothing, trivia, tokens, comments of both kinds, a character outside ASCII.
BEFORE = ["", " ", "\n\n", "/**/", "// a\n", "a ", "x = 1; ", "/// a\n", "/*! a */", "'a' \"b\" ", "\u00e9 "]
# Broken tokens after which the text goes on: a second one, or a good end.
FIRST_OF_TWO = ["'/**/'", "'/ ", "r##~", "r#~ ", "br#~", "b'//"]
# Ill-formed after a broken token, and before one.
ILL_AND_BROKEN = [b'"\xff', b"/* \xc3", b"'/\x80", b"r#~\xff", b'\xff"', b"\xc3 /*", b"a \xed\xa0\x80'"]


def rows(maker):
    def fill(calls):
        for text, key in KEYS:
            text, key = text.encode("utf-8"), key.encode("utf-8")
            if calls.keyed(text) != (None, key):
                fail(f"{text!r}: {calls.keyed(text)}, not {key!r}")
            for room in sorted({max(len(key) - 1, 0), len(key), len(key) + 2}):
                calls.key(room, FILLS[(room + len(text)) % len(FILLS)], text)
        for text in named_texts():
            calls.key_somewhere(maker.numbers, text)
        for broken in BROKEN:
            for before in BEFORE:
                place = len(before.encode("utf-8"))
                broken_at(calls, maker.numbers, place, (before + broken).encode("utf-8"))
            # Too little room for the bytes before it, and none at all.
            broken_at(calls, None, 6, ("a / b " + broken).encode("utf-8"))
        for first in FIRST_OF_TWO:
            for second in ("'/**/'", "'a'", '"', "/*", "r##", " b"):
                broken_at(calls, maker.numbers, 1, (";" + first + second).encode("utf-8"))
        for text in ILL_AND_BROKEN:
            for room in (0, 1, 8):
                calls.key(room, 0xAA, text)

    return [maker.section(NO_LISTS, fill)]


def broken_at(calls, numbers, place, text):
    refused, key = calls.keyed(text)
    if key is not None or numbers_in(refused) != (6, place, 0):
        fail(f"{text!r} is not broken at {place}")
    if numbers is None:
        calls.key(0, 0x00, text)
        calls.key(1, 0x61, text)
    else:
        calls.key_somewhere(numbers, text)


def named_texts():
    """The texts of the paper's tables, whatever they stand for there, alone and among trivia."""
    texts = [text for _, text, _ in ROWS] + [text_of(asked).decode("utf-8") for asked, _ in OTHER_ROWS]
    around = ["{}", " {} ", "// a\n{}\n", "/*{}*/a"]
    texts = [form.format(text) for text in texts for form in around]
    texts += [f"{point}a{point}" for point in NO_WHITESPACE]
    return [text.encode("utf-8") for text in texts]


# ---- short texts ----

# Alphabet, and the longest of its texts that are all taken; of those with one character more a part is.
SHORT = [
    ("/*'\"\n a=!", 3, 0),
    ("'\"\\rb#\n", 3, 150),
    ("/*!\n", 4, 250),
    ("1.e_ +", 3, 0),
]


def short(maker):
    def fill(calls):
        for alphabet, longest, more in SHORT:
            texts = list(over(alphabet, longest))
            texts += spread(list(over(alphabet, longest + 1))[len(texts) :], more)
            for text in texts:
                calls.key_somewhere(maker.numbers, text.encode("utf-8"))

    return [maker.section(NO_LISTS, fill)]


# ---- random texts ----

TRIVIA = [" ", "  ", "\n", "\t", "\r\n", "\u2028", "/**/", "/* a */", "/***/", "// a\n", "////\n", "//\r\n", " // 'a\n", "/*/**/*/"]


def airy(numbers):
    """Fragments with trivia between most of them, at the ends too."""
    text = ""
    for _ in range(2 + numbers.below(8)):
        for _ in range(numbers.below(3)):
            text += numbers.pick(TRIVIA)
        text += numbers.pick(FRAGMENTS)
    return text + numbers.pick(TRIVIA + [""] * 8)


MAKERS = [airy, airy, glued, damaged]


def fragments(maker):
    """Each text that is keyed and its key, which is keyed again; texts that are broken. As what a text is taken its tokens as it stands decide."""
    numbers = Numbers(SEED)

    def fill(calls):
        left = {True: KEYED_TEXTS, False: BROKEN_TEXTS}
        seen = set()
        while any(left.values()):
            text = numbers.pick(MAKERS)(numbers).encode("utf-8")
            _, as_it_stands = calls.keyed_replaced(text)
            if text in seen or not left[as_it_stands is not None]:
                continue
            seen.add(text)
            left[as_it_stands is not None] -= 1
            calls.key_somewhere(numbers, text)
            if as_it_stands is not None:
                _, key = calls.keyed(text)
                calls.key_somewhere(numbers, as_it_stands if key is None else key)

    return [maker.section(NO_LISTS, fill)]


# ---- lists ----

# Keyed or broken, one token or two: the lists decide.
LISTED = [
    "'\u00e9 /* a */", "'\u00e9/**/'", "'\u00e9\n'", "' \u00e9'", "a \u00e9", "a\u00e9 b", "\u00e9 a", "1.\u00e9 2", "1. \u00e9",
    "r#\u00e9 ", "r# \u00e9", "'r#\u00e9 ", "\U0001f600 \U0001f600", "a\U0001f600 #", "\u0300 a", "a\u0300 \u0300", "\u00e9'a' ",
    "\u00e9\"a\" ", "\u00e9#\"a\"# ", "\u4e00\u200d\u53d8 // \u00e9\n", "/// \u00e9\n\u00e9", "/* \u00e9 */\u00e9", "\u00a0\u2003 ",
    "\u00e9\u0085\u00e9", "\u2028\u00e9\u2029", "\u200e\u200f\u00e9", "\u200d \u200d", "\U0010ffff \U0010ffff", "br\u00e9\"a\" ",
]


def lists(maker):
    numbers = Numbers(SEED + 1)
    texts = {text.encode("utf-8"): None for text in LISTED}
    while len(texts) < LISTED_TEXTS:
        text = numbers.pick(MAKERS)(numbers).encode("utf-8")
        if len(text) <= 48 and any(byte >= 0x80 for byte in text):
            texts[text] = None

    def fill(calls):
        for text in texts:
            calls.key_somewhere(maker.numbers, text)

    choices = (NO_LISTS, maker.real, EVERYTHING, POINTS, EMOJI_ONLY, NO_EMOJI)
    return [maker.section(chosen, fill) for chosen in choices]


# ---- refusals ----


def refused(maker):
    numbers = Numbers(SEED + 2)

    def ill_formed(calls):
        texts = ILL_FORMED + ILL_AND_BROKEN + [b"fn main() { \xc3\xa9\xc3 }", b"a" * 300 + b"\xff", b"\xff" + b"a " * 150]
        for text in texts:
            for room in sorted({0, 1, len(text), len(text) + 3}):
                calls.key(room, numbers.pick(FILLS), text)
        for _ in range(220):
            text = damaged_bytes(numbers, numbers.pick(MAKERS)(numbers).encode("utf-8") + b" ")
            calls.key_somewhere(numbers, text)

    return [maker.section(NO_LISTS, ill_formed)] + refused_by_lists(maker)


def refused_by_lists(maker):
    """A list that breaks a rule in each of the three places, in two, in all: before what is wrong with the text."""

    def fill(calls):
        for text in ("\u00c1 \u4e00".encode("utf-8"), b"a\xff", b"'/**/'", b"", b'"\xff'):
            calls.key_somewhere(maker.numbers, text)
        calls.key(0, 0, b"a b")

    sections = []
    bad = [pairs for pairs, _ in refused_lists()]
    for at, pairs in enumerate(spread(bad, 36)):
        for which in range(3):
            chosen = [*GOOD]
            chosen[which] = pairs
            if at % 6 == 5:
                chosen[(which + 1) % 3] = bad[(3 * at + which) % len(bad)]
            sections.append(maker.section(tuple(chosen), fill))
    sections.append(maker.section((bad[0], bad[30], bad[60]), fill))
    return sections + [maker.section(GOOD, fill)]


# ---- room ----

ROOM_TEXTS = [
    PAPER, "", " ", "a", "ab", " a ", "= =", "==", "\n", "\n\n", "/// a\n", "a// b", "'\n' ", "a\u00e9 \U0001f600", "\0 \0",
    "/* a */", "fn f() {} // a\n", "\"\u20ac\"  /*! a */",
]
# Much shorter keys than texts, and as long ones.
LONG_TEXTS = [
    "a/*" + "b" * 5000 + "*/c", " " * 3000, "//\n" * 1500 + "a", '"' + "a" * 2000 + '"', LINE * 40, "a " * 700, "+" * 1000 + "'/",
]


def room(maker):
    def fill(calls):
        for text in ROOM_TEXTS:
            text = text.encode("utf-8")
            length = len(calls.keyed(text)[1])
            for size in sorted({0, max(length - 1, 0), length, length + 1, length + 9, len(text), len(text) + 40}):
                for byte in (0x00, 0x0A, 0x58, 0xFF):
                    calls.key(size, byte, text)
        for text in LONG_TEXTS:
            text = text.encode("utf-8")
            _, key = calls.keyed(text)
            length = 1000 if key is None else len(key)
            for size in sorted({0, length - 1, length, length + 1}):
                calls.key(size, 0xAA, text)
        # The most room: a short key, one that fills it, one that is a byte too long, none.
        calls.key(MOST_ROOM, 0xAA, PAPER.encode("ascii"))
        calls.key(MOST_ROOM, 0x61, b"a" * MOST_ROOM)
        calls.key(MOST_ROOM, 0x62, b"a" * (MOST_ROOM - 1) + b"  ")
        calls.key(MOST_ROOM, 0x63, b"a" * MOST_ROOM + b" ")
        calls.key(MOST_ROOM, 0x64, b" /*")
        # The last: the gate damages each byte of its answer in turn, so no byte of it is 255.
        calls.key(13, 0x58, PAPER.encode("ascii"))

    return [maker.section(NO_LISTS, fill)]


# ---- the files ----


class Maker:
    def __init__(self, oracle, real):
        self.oracle = oracle
        self.real = real
        self.numbers = Numbers(SEED + 3)
        self.counts = {}

    def section(self, chosen, fill):
        calls = Calls(self.oracle, chosen)
        fill(calls)
        for number, _ in calls.key_answers():
            self.counts[number] = self.counts.get(number, 0) + 1
        return calls.section()

    def begun(self):
        """How many answers begin with each number."""
        return ", ".join(f"{self.counts[number]} with {number}" for number in sorted(self.counts))


def make(oracle, real):
    """Name and sections of each file."""
    maker = Maker(oracle, real)
    files = {
        "key-rows.vec": rows(maker),
        "key-short.vec": short(maker),
        "key-fragments.vec": fragments(maker),
        "key-lists.vec": lists(maker),
        "key-refused.vec": refused(maker),
        "key-room.vec": room(maker),
    }
    print(f"keys: answers that begin {maker.begun()}", file=sys.stderr)
    return files
