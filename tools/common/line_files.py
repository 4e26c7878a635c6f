"""Which vectors about lines are stored. tools/oracle/README.md describes them.

The line of a token is the number of bytes 0x0A before its start, and of nothing else. All vectors of tokens have
it; the texts here are those at which a count goes wrong: where a token holds that byte, where something else looks
like the end of a line, and where there are many.
"""

from common.chance import Numbers
from common.ending import fail
from common.lists import EVERYTHING, NO_LISTS
from common.packing import RECORDS, TOKENS_ONCE
from common.texts import FENCES, FRAGMENTS
from common.tokens import MODES, Calls, is_boundary, line_at, lined, token_numbers

SEED = 3
# Random texts, and those that are asked for by the list call.
RANDOM_TEXTS = 80
RECORD_TEXTS = 40
# More lines than two bytes can count.
MANY = 65536


# ---- lines that were written by hand ----

# A text, and the line of each of its tokens, Eof the last. The tool stops where the count gives another one.
LINES = [
    # The ends of a text, and blank lines.
    ("", [0]), ("a", [0, 0]), ("\n", [0, 1]), ("\n\n\n", [0, 3]), ("a\n", [0, 0, 1]), ("\na", [0, 1, 1]), ("a\nb", [0, 0, 1, 1]),
    ("a\nb\n", [0, 0, 1, 1, 2]), ("a \n \n b", [0, 0, 2, 2]), ("a;\nb;\n\nc;", [0, 0, 0, 1, 1, 1, 3, 3, 3]), ("\0\n\0", [0, 0, 1, 1]),
    # CR counts for nothing, alone or beside LF.
    ("a\rb", [0, 0, 0, 0]), ("\r", [0, 0]), ("a\r\nb", [0, 0, 1, 1]), ("a\n\rb", [0, 0, 1, 1]), ("a\r\n\r\nb", [0, 0, 2, 2]),
    ("a\r\r\nb\r", [0, 0, 1, 1, 1]), ("\n\r\n\r", [0, 2]),
    # Nor does other whitespace, or what ends a line elsewhere.
    ("a\x0bb", [0, 0, 0, 0]), ("a\x0cb", [0, 0, 0, 0]), ("a\x85b", [0, 0, 0, 0]), ("a\u2028b", [0, 0, 0, 0]), ("a\u2029b", [0, 0, 0, 0]),
    ("a\x0b\x0c\x85\u2028\u2029\nb", [0, 0, 1, 1]), ("\u2028\n\u2029a", [0, 1, 1]), ("\x1c\x1d\x1e\n;", [0, 0, 0, 0, 1, 1]), ("\\n;", [0, 0, 0, 0]),
    # A line comment ends before LF.
    ("// a\nb", [0, 0, 1, 1]), ("// a", [0, 0]), ("// a\n", [0, 0, 1]), ("// a\r\n// b\n", [0, 0, 1, 1, 2]), ("//\n\n//", [0, 0, 2, 2]),
    ("/// a\n//! b\n//// c", [0, 0, 1, 1, 2, 2]), ("// a\u2028b\rc\nd", [0, 0, 1, 1]),
    # A block comment holds it, nested or not, and so does one that does not end.
    ("/*\n*/a", [0, 1, 1]), ("/*\n\n*/\n/*\n*/", [0, 2, 3, 4]), ("/*\n/*\n*/\n*/a", [0, 3, 3]), ("/*\n/*\n*/\n", [0, 3]), ("a /*\n", [0, 0, 0, 1]),
    ("/*\r\n\r*/a", [0, 1, 1]), ("/*//\n*/;\n/*", [0, 1, 1, 2, 2]), ("/**\n a\n*/ b", [0, 2, 2, 2]), ("/*!\n*/\nfn", [0, 1, 2, 2]), ("/**\n", [0, 1]),
    ("/*\u2028\x0b\x85*/a", [0, 0, 0]),
    # Strings hold it, escaped or not, closed or not.
    ('"\n";', [0, 1, 1]), ('"a\n\nb";', [0, 2, 2]), ('"a\\\n  b" c', [0, 1, 1, 1]), ('"\\\\\n";', [0, 1, 1]), ('"\\n";', [0, 0, 0]), ('"\r\n"u8\n', [0, 1, 2]),
    ('"a\n\nb', [0, 2]), ('"\\\n', [0, 1]), ('x = "a;\ny = 1;\n', [0, 0, 0, 0, 0, 2]), ('b"\n";', [0, 1, 1]), ('b"\\\n', [0, 1]), ('c"\n\n";', [0, 2, 2]),
    ('r"\n";', [0, 1, 1]), ('r#"\n"\n"#;', [0, 2, 2]), ('r#"\n"\n', [0, 2]), ('br"\\\n\n";', [0, 2, 2]), ('cr#"\n"#;', [0, 1, 1]), ('r##\n"', [0, 1, 1]),
    ('#"\n"#', [0, 0, 1, 1]),
    # Single quotes: a character holds it, a lifetime ends before it.
    ("'\n';", [0, 1, 1]), ("'\\\n';", [0, 1, 1]), ("b'\n';", [0, 1, 1]), ("'a\n'b", [0, 0, 1, 1]),
    # Numbers, a shebang's line, a piece of a rule.
    ("1\n.2\n", [0, 0, 1, 1, 1, 2]), ("1.\n2e\n3", [0, 0, 1, 1, 2, 2]), ("#!/bin/sh\na", [0, 0, 0, 0, 0, 0, 0, 1, 1]),
    ('fn f() {\n    g("a\nb"); // c\n}\n', [0, 0, 0, 0, 0, 0, 0, 0, 1, 1, 1, 2, 2, 2, 2, 2, 3, 3, 4]),
    # Code points with 0A in their number have no such byte.
    ("\u010a\u0a0a;\n\u0a0a", [0, 0, 0, 0, 1, 1]), ("/*\u0a0a\n\u010a*/\u20ac\n;", [0, 1, 1, 2, 2]), ('"\U0001f60a\n\u0a0a";', [0, 1, 1]),
    ("\u4e0a\n\u4e0a", [0, 0, 1, 1]), ("\u20ac\u00e9\n\U0001f600\n", [0, 0, 0, 1, 1, 2]),
    # Where a number of one byte ends.
    ("\n" * 255 + "a", [0, 255, 255]), ("\n" * 256 + "a", [0, 256, 256]), ("\n" * 300 + "a", [0, 300, 300]), ("/*" + "\n" * 257 + "*/\n", [0, 257, 258]),
]
# The same with frontmatter on: one that is closed, one before which blank lines stand, one whose fence is too short, too long
# or missing, or has a bad line, and what stands after it; and texts with none.
FRONT_LINES = [
    ("---\na: 1\n---\nb", [0, 2, 3, 3]), ("---\n---", [0, 1]), ("---\r\na\r\n---\r\nb", [0, 2, 3, 3]), ("---\n\n\n---\n/*\n*/c", [0, 3, 4, 5, 5]),
    ("\n\n---\na\n---\n\nb", [0, 2, 4, 6, 6]), (" ---\na\n---\nb", [0, 2, 3, 3]), ("---\na\n--- \u2028 \nb", [0, 2, 3, 3]),
    ("----\na\n---\nb", [0, 2, 3, 3]), ("---\n----x\n", [0, 1, 2]), ("---\na\nb\n", [0, 3]), ("---\na\nuse b", [0, 1, 2, 2, 2, 2]),
    ("--- a b\nc\n---\nd", [0, 2, 3, 3]), ("--\na\n", [0, 0, 0, 1, 1, 2]), (" \n\t\n", [0, 2]), ("a\n---\n", [0, 0, 1, 1, 1, 1, 2]),
]
# A fence where frontmatter is off.
FENCE_LINES = ("---\na\n---\nb", [0, 0, 0, 0, 1, 1, 2, 2, 2, 2, 3, 3])


def check(calls, flag, text, lines):
    """Stops where the lines of a text's tokens are not those."""
    words = calls.ask("steps", MODES[flag], text.hex())
    counted = [line for *_, line in lined(text, [token_numbers(word) for word in words])]
    if counted != lines:
        fail(f"{text[:80]!r}: lines {counted}, not {lines}")


def written():
    """Flag, text and lines of each of them."""
    rows = [(0, text, lines) for text, lines in LINES + [FENCE_LINES]] + [(1, text, lines) for text, lines in FRONT_LINES]
    return [(flag, text.encode("utf-8"), lines) for flag, text, lines in rows]


def everywhere(calls, flag, text):
    """All tokens, and the token at every boundary, the end too."""
    calls.tokens(flag, text)
    calls.tokens(flag, text, TOKENS_ONCE)
    for position in range(len(text) + 1):
        # Of many blank lines the first and the last are enough.
        if is_boundary(text, position) and (len(text) < 60 or position < 2 or position > len(text) - 4):
            calls.one(flag, position, text)


def by_hand(calls):
    for flag, text, lines in written():
        check(calls, flag, text, lines)
        everywhere(calls, flag, text)
    for text, _ in FRONT_LINES:
        # Other tokens, and at the same places the same lines.
        everywhere(calls, 0, text.encode("utf-8"))


def with_names(calls):
    """Where the unknown characters are names."""
    for text, _ in LINES:
        if not text.isascii():
            everywhere(calls, 0, text.encode("utf-8"))


def records(calls):
    for flag, text, _ in written():
        calls.list(flag, text)
    # As many tokens as there are records, and two more: then none is written.
    for count in (RECORDS // 2, RECORDS // 2 + 1):
        calls.list(0, b";\n" * count)
    numbers = Numbers(SEED + 1)
    for _ in range(RECORD_TEXTS):
        calls.list(numbers.below(2), airy_lines(numbers).encode("utf-8"))


# ---- random texts ----

# What has LF in it, and what has not but looks so.
ENDS = [
    "\n", "\n", "\n", "\n\n", "\r\n", "\n\r", "\r", "\u2028", "\x0b", "// a\n", "/// a\n", "/*\n*/", "/* a\n/*\n*/ b */", "/**\n\n*/",
    '"\n"', '"\\\n"', 'r"\n\n"', 'b"a\n"', "'\n'", "\u0a0a\n",
]


def airy_lines(numbers):
    """Fragments with ends of lines between most of them, in comments and strings too."""
    text = numbers.pick(FENCES) if numbers.below(6) == 0 else ""
    for _ in range(2 + numbers.below(8)):
        text += numbers.pick(ENDS) if numbers.below(4) != 0 else " "
        text += numbers.pick(FRAGMENTS)
    return text + numbers.pick(ENDS + [""] * len(ENDS))


def fragments(calls):
    numbers = Numbers(SEED)
    for _ in range(RANDOM_TEXTS):
        text = airy_lines(numbers).encode("utf-8")
        flag = numbers.below(2)
        calls.tokens(flag, text)
        calls.tokens(flag, text, TOKENS_ONCE)
        for position in [numbers.below(len(text) + 1) for _ in range(4)] + [len(text)]:
            calls.one(flag, position, text)


# ---- many lines ----

BLANKS = b"\n" * MANY + b"ab"
COMMENT = b"/*" + b"\n" * MANY + b"*/a"
NAMES = b"a\n" * MANY


def one(calls, position, text, line):
    """A token whose line was written by hand."""
    if line_at(text, position) != line:
        fail(f"line {line_at(text, position)} at {position}, not {line}")
    calls.one(0, position, text)


def blanks(calls):
    check(calls, 0, BLANKS, [0, 65536, 65536])
    one(calls, 65536, BLANKS, 65536)
    one(calls, 65538, BLANKS, 65536)
    calls.tokens(0, BLANKS, TOKENS_ONCE)


def comment(calls):
    check(calls, 0, COMMENT, [0, 65536, 65536])
    one(calls, 65540, COMMENT, 65536)
    calls.tokens(0, COMMENT, TOKENS_ONCE)
    calls.list(0, COMMENT)


def names_end(calls):
    one(calls, 131072, NAMES, 65536)
    calls.tokens(0, BLANKS)


def names_last(calls):
    one(calls, 131070, NAMES, 65535)
    calls.tokens(0, COMMENT)


# ---- the files ----


def make(oracle):
    """Name and sections of each file. A text of many lines is so long that a file has few answers on it."""

    def section(lists, fill):
        calls = Calls(oracle, lists)
        fill(calls)
        if calls.panics or calls.too_long:
            fail("a text of lines has no answer")
        return calls.section()

    return {
        "token-lines.vec": [section(NO_LISTS, by_hand), section(EVERYTHING, with_names), section(NO_LISTS, fragments)],
        "token-lines-blank.vec": [section(NO_LISTS, blanks)],
        "token-lines-comment.vec": [section(NO_LISTS, comment)],
        "token-lines-end.vec": [section(NO_LISTS, names_end)],
        "token-lines-last.vec": [section(NO_LISTS, names_last)],
        "list-lines.vec": [section(NO_LISTS, records)],
    }
