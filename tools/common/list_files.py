"""Which vectors of operations 18 and 19, the file of lists, are stored, file by file. tools/oracle/README.md describes them.

Files are written here with a blank for each tab, `|` for each LF and `_` for a blank.
"""

import itertools
import os
import sys

from common.chance import Numbers
from common.ending import fail
from common.lists import (
    ALL_ALLOWED, EVERYTHING, GOOD, LIST_NAMES, MAX_PAIRS, NO_LISTS, TOP,
    bad_index, flat, full_list, pair_is_bad, refused_lists,
)
from common.lists_file import TOOLS, lists_in, read_file, write_file
from common.packing import MOST_NUMBERS, READ_LISTS, WRITE_LISTS, numbers_of, section, vector
from common.texts import POINTS
from common.tokens import FILLS

SEED = 3


def of(text):
    """The bytes of a file that is written as above."""
    return text.translate({ord(" "): "\t", ord("|"): "\n", ord("_"): " "}).encode("latin-1")


def records(name, numbers):
    """The records of a list, whatever its numbers are."""
    return "".join(f"{name} {low:x} {high:x}|" for low, high in zip(numbers[::2], numbers[1::2]))


def written(lists, version=(15, 0, 0)):
    """A file with these lists, whether they are good or not."""
    return "unicode {} {} {}|".format(*version) + "".join(records(*named) for named in zip(LIST_NAMES, lists))


# ---- vectors ----


class Maker:
    """Vectors of both operations. Files and lists have to stand for each other in all of them, and the script stops where they do not."""

    def __init__(self):
        self.numbers = Numbers(SEED)
        self.loaded = {}
        self.counts = {}

    def count(self, operation, number):
        self.counts[operation, number] = self.counts.get((operation, number), 0) + 1

    def read(self, rooms, data):
        number, beside, second, version, lists = read_file(data, rooms)
        self.count("read", number)
        runs = [[0xFFFFFFFF - index for index in range(room)] for room in rooms]
        told = (0,) * 6
        if lists is not None:
            self.same(version, lists, data)
            told = (*version, *map(len, lists))
            for run, numbers in zip(runs, lists):
                run[: len(numbers)] = numbers
        answer = numbers_of(number, beside, second, *told, *itertools.chain(*runs))
        return vector(READ_LISTS, numbers_of(*rooms) + data, answer)

    def write(self, lists, version, room, fill):
        number, beside, second, data = write_file(version, lists, room)
        self.count("write", number)
        if data is not None:
            self.same(version, lists, data)
        after = (data or b"").ljust(room, bytes([fill]))
        return vector(WRITE_LISTS, numbers_of(*version, room, fill), numbers_of(number, beside, second) + after)

    def same(self, version, lists, data):
        """The file reads as these lists, they are written as it, and no other file that was seen has them."""
        lists = tuple(map(tuple, lists))
        number, *_, its_version, its_lists = read_file(data, [len(numbers) for numbers in lists])
        if number != 0 or its_version != tuple(version) or tuple(map(tuple, its_lists)) != lists:
            fail(f"{data[:80]!r}.. does not read back as it was")
        if write_file(version, lists, len(data)) != (0, len(data), 0, data):
            fail(f"{data[:80]!r}.. is not what is written of what it holds")
        if self.loaded.setdefault((tuple(version), lists), data) != data:
            fail(f"{data[:80]!r}.. loads as another file does")

    def written_well(self, lists, version=(15, 0, 0)):
        """Room: none, one byte less than is needed, exactly enough, one more, more."""
        needed = len(write_file(version, lists, 1 << 30)[3])
        rooms = sorted({0, needed - 1, needed, needed + 1, needed + 9})
        return [self.write(lists, version, room, self.numbers.pick(FILLS)) for room in rooms]


# ---- files and what is said of them, written by hand ----

U = "unicode 15 0 0|"
A = (15, 0, 0)
# A record of each list, two of the first two; and the rooms that it needs.
SMALL = U + "start c0 d6|start 4e00 9fff|continue c0 d6|continue 300 36f|emoji 1f600 1f64f|"
NEEDS = (4, 4, 2)
ROOMS = (6, 5, 4)

# Good files of at most as many numbers as there is room for: version and lists.
LOADED = [
    (U, A, [], [], []),
    ("unicode 0 0 0|", (0, 0, 0), [], [], []),
    ("unicode 65535 65535 65535|", (65535, 65535, 65535), [], [], []),
    ("unicode 9 10 100|", (9, 10, 100), [], [], []),
    ("unicode 1000 59999 60000|", (1000, 59999, 60000), [], [], []),
    (SMALL, A, [0xC0, 0xD6, 0x4E00, 0x9FFF], [0xC0, 0xD6, 0x300, 0x36F], [0x1F600, 0x1F64F]),
    # Groups that are skipped.
    (U + "start 80 80|", A, [0x80, 0x80], [], []),
    (U + "continue 80 84|", A, [], [0x80, 0x84], []),
    (U + "emoji 10ffff 10ffff|", A, [], [], [0x10FFFF, 0x10FFFF]),
    (U + "start aa aa|emoji a9 a9|", A, [0xAA, 0xAA], [], [0xA9, 0xA9]),
    (U + "continue b7 b7|emoji a9 a9|", A, [], [0xB7, 0xB7], [0xA9, 0xA9]),
    (U + "start aa aa|continue aa aa|", A, [0xAA, 0xAA], [0xAA, 0xAA], []),
    # Pairs that just keep the rules; pairs that touch stay two.
    (U + "start 80 84|start 86 200d|start 2010 2027|", A, [0x80, 0x84, 0x86, 0x200D, 0x2010, 0x2027], [], []),
    (U + "continue 202a d7ff|continue e000 10ffff|", A, [], [0x202A, 0xD7FF, 0xE000, 0x10FFFF], []),
    (U + "emoji 80 80|emoji 81 81|", A, [], [], [0x80, 0x80, 0x81, 0x81]),
    (U + "start ff 100|start fff 1000|start ffff 10000|", A, [0xFF, 0x100, 0xFFF, 0x1000, 0xFFFF, 0x10000], [], []),
    ("unicode 1 2 3|emoji fffff 100000|", (1, 2, 3), [], [], [0xFFFFF, 0x100000]),
    ("unicode 16 0 1|start 9abc abcd|start 1def0 10fedc|", (16, 0, 1), [0x9ABC, 0xABCD, 0x1DEF0, 0x10FEDC], [], []),
]
# Refused ones: a bad line (9, line), a list (3, list, pair), too little room (7, list, numbers).
REFUSED = [
    # The first line.
    ("", 9, 0), ("|", 9, 0), ("||", 9, 0), ("unicode 15 0 0", 9, 0), ("unicode 15 0|", 9, 0), ("unicode 15 0 0 0|", 9, 0),
    ("unicode 15 0 0 |", 9, 0), (" unicode 15 0 0|", 9, 0), ("unicode  15 0 0|", 9, 0), ("unicode_15_0_0|", 9, 0), ("unicode 15.0.0|", 9, 0),
    ("unicode 65536 0 0|", 9, 0), ("unicode 0 65536 0|", 9, 0), ("unicode 0 0 65536|", 9, 0), ("unicode 015 0 0|", 9, 0),
    ("unicode 15 00 0|", 9, 0), ("unicode 15 0 01|", 9, 0), ("unicode 15 0 |", 9, 0), ("unicode +15 0 0|", 9, 0), ("unicode 15 -0 0|", 9, 0),
    ("unicode f 0 0|", 9, 0), ("Unicode 15 0 0|", 9, 0), ("start 80 80|", 9, 0), ("unicode 15 0 0\r|", 9, 0), ("|" + SMALL, 9, 0),
    # Records.
    (U + "|", 9, 1), (U + "start 80 80", 9, 1), (U + U, 9, 1), (U + "start 80 80||", 9, 2), (U + "start 80 80|start 90", 9, 2),
    (U + "Start 80 80|", 9, 1), (U + "starts 80 80|", 9, 1), (U + "star 80 80|", 9, 1), (U + " 80 80|", 9, 1), (U + "start 80|", 9, 1),
    (U + "start 80 80 80|", 9, 1), (U + "start  80 80|", 9, 1), (U + "start 80  80|", 9, 1), (U + "start_80_80|", 9, 1), (U + "start 80 80_|", 9, 1),
    (U + "start 080 80|", 9, 1), (U + "start 80 0a0|", 9, 1), (U + "start 00 80|", 9, 1), (U + "start 80 A0|", 9, 1), (U + "start 80 1000000|", 9, 1),
    (U + "emoji 0x80 80|", 9, 1), (U + "emoji 80 8g|", 9, 1), (U + "emoji 80 80\r|", 9, 1), (U + "emoji 80 80\0|", 9, 1), (U + "emoji 80 80\x80|", 9, 1),
    (SMALL + "emoji 1f680 1f6ff", 9, 6), (SMALL + "x", 9, 6), (SMALL + "|", 9, 6), (SMALL + "\0|", 9, 6),
    # Groups out of order.
    (U + "continue 80 80|start 80 80|", 9, 2), (U + "emoji 80 80|continue 80 80|", 9, 2), (U + "emoji 80 80|start 80 80|", 9, 2),
    (U + "start 80 80|continue 80 80|start 90 90|", 9, 3), (U + "start 80 80|continue 80 80|emoji 80 80|continue 90 90|", 9, 4), (SMALL + "start e000 e000|", 9, 6),
    # Pairs: numbers that have a form, but break a rule.
    (U + "start 0 0|", 3, 0, 0), (U + "start 7f 7f|", 3, 0, 0), (U + "continue 85 85|", 3, 1, 0), (U + "emoji 2028 2029|", 3, 2, 0),
    (U + "start 90 80|", 3, 0, 0), (U + "start 80 80|start 80 80|", 3, 0, 1), (U + "continue 90 90|continue 80 80|", 3, 1, 1), (U + "emoji d7ff e000|", 3, 2, 0),
    (U + "emoji 110000 110000|", 3, 2, 0), (U + "start 80 ffffff|", 3, 0, 0), (U + "start ffffff ffffff|", 3, 0, 0), (U + "continue 10ffff 110000|", 3, 1, 0),
    # The first list wins, then the first pair, wherever the line stands.
    (U + "start aa aa|continue 0 0|emoji 0 0|", 3, 1, 0), (U + "start aa aa|start 80 80|continue 0 0|", 3, 0, 1), (U + "emoji 80 80|emoji 0 0|emoji 0 0|", 3, 2, 1),
    # A bad line before a bad pair, before it in the file or after it; whatever the room.
    (U + "start 0 0|x|", 9, 2), (U + "x|start 0 0|", 9, 1), (U + "start 0 0|start 80", 9, 2), (U + "continue 300 36f|start 85 85|", 9, 2), ("unicode 15 0|start 0 0|", 9, 0),
]
# Room: what is given, and what is said.
SHORT_ROOM = [
    (SMALL, (3, 4, 2), (7, 0, 4)), (SMALL, (4, 3, 2), (7, 1, 4)), (SMALL, (4, 4, 1), (7, 2, 2)), (SMALL, (0, 0, 0), (7, 0, 4)),
    (SMALL, (2, 2, 0), (7, 0, 4)), (SMALL, (4, 2, 0), (7, 1, 4)), (SMALL, (9, 9, 0), (7, 2, 2)), (U, (0, 0, 0), (0, 0, 0)),
    (SMALL, (4, 4, 2), (0, 0, 0)), (U + "emoji 80 80|", (0, 0, 2), (0, 0, 0)), (U + "emoji 80 80|", (0, 0, 1), (7, 2, 2)),
    # A list that breaks a rule comes first, and a bad line before it.
    (U + "start 80 80|emoji 0 0|", (0, 0, 0), (3, 2, 0)), (U + "start 80 80|emoji 80 80|emoji 80 80|", (1, 0, 3), (3, 2, 1)),
    (U + "start 80 80|x|", (0, 0, 0), (9, 2, 0)), (U + "start 80 80|emoji 0 0|x|", (0, 0, 0), (9, 3, 0)), ("", (0, 0, 0), (9, 0, 0)),
]
# What the writer puts out: version, lists, file.
WRITTEN = [
    (A, NO_LISTS, U),
    ((0, 0, 0), NO_LISTS, "unicode 0 0 0|"),
    ((65535, 9, 10), NO_LISTS, "unicode 65535 9 10|"),
    (A, GOOD, SMALL),
    (A, ([], [], [0x80, 0x80]), U + "emoji 80 80|"),
    (A, ([], [0x80, 0x80, 0x81, 0x81], []), U + "continue 80 80|continue 81 81|"),
    ((1, 2, 3), ([0xFF, 0x100, 0xFFF, 0x1000], [], [TOP, TOP]), "unicode 1 2 3|start ff 100|start fff 1000|emoji 10ffff 10ffff|"),
    ((1, 2, 3), (ALL_ALLOWED, [], []), "unicode 1 2 3|start 80 84|start 86 200d|start 2010 2027|start 202a d7ff|start e000 10ffff|"),
]
# What it refuses: lists, list and pair. A half pair is one.
NOT_WRITTEN = [
    (([0, 0], [], []), 0, 0), (([0x80], [], []), 0, 0), (([], [0x80, 0x80, 0x90], []), 1, 1), (([], [], [0x85, 0x85]), 2, 0),
    (([0xAA, 0xAA, 0x80, 0x80], [0], [0]), 0, 1), (([0xAA, 0xAA], [0x90, 0x80], [0]), 1, 0), (([], [], [0x80, 0x80, 0x110000]), 2, 1),
    (([0x80, 0xFFFFFFFF], [], []), 0, 0), (([], [0xFFFFFFFF], []), 1, 0),
]


def check_by_hand():
    """The module that reads and writes says what is written here."""
    for text, version, *lists in LOADED:
        if read_file(of(text), ROOMS) != (0, 0, 0, version, tuple(lists)):
            fail(f"{text}: {read_file(of(text), ROOMS)}")
    for text, *said in REFUSED:
        for rooms in (ROOMS, (0, 0, 0)):
            if read_file(of(text), rooms) != (*said, 0, None, None)[:3] + (None, None):
                fail(f"{text}: {read_file(of(text), rooms)}")
    for text, rooms, said in SHORT_ROOM:
        if read_file(of(text), rooms)[:3] != said:
            fail(f"{text} with {rooms}: {read_file(of(text), rooms)}")
    for version, lists, text in WRITTEN:
        data = of(text)
        if write_file(version, lists, len(data)) != (0, len(data), 0, data) or write_file(version, lists, len(data) - 1) != (7, len(data), 0, None):
            fail(f"{text}: {write_file(version, lists, len(data))}")
    for lists, *said in NOT_WRITTEN:
        for room in (0, 1000):
            if write_file(A, lists, room) != (3, *said, None):
                fail(f"{lists}: {write_file(A, lists, room)}")


# ---- bad lines, each at several places ----

BAD_FIRST = [
    # Fields: too few, too many, none, more than a tab or something else between them, something before or after.
    "", " ", "   ", "_", "unicode", "unicode ", "unicode   ", "unicode 15", "unicode 15 ", "unicode 15 0", "unicode 15 0 ", "unicode 15 0 0 ", "unicode 15 0 0 0",
    "unicode  15 0 0", "unicode 15  0 0", "unicode 15 0  0", " unicode 15 0 0", "unicode_15 0 0", "unicode 15_0 0", "unicode 15 0_0", "unicode 15 0 0_", "_unicode 15 0 0",
    "unicode _15 0 0", "unicode 15_ 0 0", "unicode 15.0.0", "unicode 15,0,0", "15 0 0", "15 0 0 unicode", "unicode\v15 0 0", "unicode\b15 0 0", "unicode\x8915 0 0",
    # The word.
    "Unicode 15 0 0", "UNICODE 15 0 0", "unicod 15 0 0", "unicodes 15 0 0", "unicodd 15 0 0", "unicodf 15 0 0", "u 15 0 0", "vnicode 15 0 0", "\xf5nicode 15 0 0",
    "start 15 0 0", "emoji 15 0 0", "start c0 d6", "continue c0 d6", "emoji 1f600 1f64f", "unicode c0 d6", "#unicode 15 0 0", "\xef\xbb\xbfunicode 15 0 0", "\0unicode 15 0 0",
    # The numbers, in each place.
    *(
        "unicode {} {} {}".format(*(number if at == place else "15" for at in range(3)))
        for number in (
            "65536", "65540", "65600", "66000", "70000", "99999", "100000", "655350", "4294967296", "4294967311", "18446744073709551616", "18446744073709551631",
            "00", "01", "015", "00000", "065535", "0000015", "", "+15", "-15", "-0", "_15", "15_", "1_5", "1e1", "f", "0xf", "1.", "1/", "1:", "/", ":", "\xb2", "1\xff", "1\0", "1\r",
        )
        for place in range(3)
    ),
    # The end.
    "unicode 15 0 0\r", "unicode 15 0 0\0", "unicode 15 0 0\x80", "unicode 15 0 0\x8a", "unicode 15 0 0\x0c", "unicode 15 0 0\x85", "\runicode 15 0 0",
]
BAD_RECORDS = [
    # Fields, as above.
    "", " ", "  ", "_", "start", "start ", "start  ", "start c0", "start c0 ", "start  c0", "start c0 d6 ", "start c0 d6  ", "start c0 d6 d7", "start c0 d6 start", "start  c0 d6", "start c0  d6",
    " start c0 d6", "start_c0 d6", "start c0_d6", "start_c0_d6", "start c0 d6_", "_start c0 d6", "start c0_ d6", "start c0..d6", "start c0-d6", "start c0,d6", "c0 d6", "c0 d6 start",
    "start\vc0 d6", "start\bc0 d6", "start\x89c0 d6", "start\xa0c0 d6", "#", "#start c0 d6", "start c0 d6 #a", "start c0 d6;",
    # The word.
    "Start c0 d6", "START c0 d6", "star c0 d6", "starts c0 d6", "sart c0 d6", "s c0 d6", " c0 d6", "stars c0 d6", "staru c0 d6", "rtart c0 d6", "\xf3tart c0 d6", "st\xe4rt c0 d6", "start\0 c0 d6",
    "Continue c0 d6", "continu c0 d6", "continues c0 d6", "contnue c0 d6", "cont c0 d6", "continuf c0 d6", "Emoji c0 d6", "emoj c0 d6", "emojis c0 d6", "emojj c0 d6", "emo c0 d6", "startemoji c0 d6",
    "unicode 15 0 0", "unicode c0 d6", "id_start c0 d6", "startcontinue c0 d6", "0 c0 d6",
    # The numbers, in both places.
    *(
        form.format(number)
        for number in (
            "0c0", "00", "000000", "0000c0", "00000c0", "C0", "cA", "F", "1000000", "fffffff", "10000c0", "1000000c0", "100000000000000c0", "ffffffffffffffffff",
            "0xc0", "+c0", "-c0", "c0h", "u+c0", "g0", "cg", "c/", "c:", "c@", "c`", "c.", "cG", "c\xb2", "c\xff", "\x80", "c\0", "\0", "c\r", "_c0",
        )
        for form in ("start {} d6", "emoji 80 {}")
    ),
    "start  d6", "emoji 80 ",
    # The end.
    "start c0 d6\r", "\rstart c0 d6", "emoji 80 80\0", "emoji 80 80\x80", "emoji 80 80\x8a", "emoji 80 80\x0c", "emoji 80 80\x85", "\0", "\xff", "\xef\xbb\xbfstart c0 d6", "\x1a",
]


def bad_lines(maker):
    """Each kind of bad line in line 0, 1 and 2, in the middle and at the end, with LF after it; and some at the very end, without it."""
    lines = SMALL.split("|")[:-1]
    vectors = []

    def refused(line, files):
        data = of("|".join(files))
        if read_file(data, ROOMS)[:3] != (9, line, 0):
            fail(f"line {line} of {data} is not bad")
        vectors.append(maker.read(ROOMS if len(vectors) % 4 else (0, 1, 2), data))

    for bad in BAD_FIRST:
        refused(0, [bad] + lines[1:] + [""])
    for bad in BAD_FIRST[::5]:
        refused(0, [bad])
        refused(0, [bad, ""])
    for bad in BAD_RECORDS:
        if bad != lines[0]:
            refused(0, [bad] + lines[1:3] + [""])
        for at in (1, 2, 4):
            refused(at, lines[:at] + [bad] + lines[at + 1 :] + [""])
        refused(len(lines), lines + [bad, ""])
    # A good line and then no LF; the first bad line of two.
    for at in range(1, len(lines) + 1):
        refused(at - 1, lines[:at])
    for bad in ("x", "start c0", ""):
        refused(1, lines[:1] + [bad, "x"] + lines[1:] + [""])
        refused(3, lines[:3] + [bad] + lines[4:5] + ["x", ""])
    return vectors


def hand_written(maker):
    vectors = [maker.read(ROOMS, of(text)) for text, *_ in LOADED]
    for text, *_ in REFUSED:
        vectors += [maker.read(rooms, of(text)) for rooms in (ROOMS, (0, 0, 0))]
    return vectors + [maker.read(rooms, of(text)) for text, rooms, _ in SHORT_ROOM]


def room(maker):
    """No room, two and one short, exactly enough, more: in each list."""
    data = of(SMALL)
    choices = [sorted({0, need - 2, need - 1, need, need + 1, need + 5}) for need in NEEDS]
    vectors = [maker.read(given, data) for given in itertools.product(*choices)]
    for which in range(3):
        given = [0, 0, 0]
        given[which] = 1000 if which else MOST_NUMBERS
        vectors.append(maker.read(given, of(U + f"{LIST_NAMES[which]} 80 84|{LIST_NAMES[which]} a9 a9|")))
    # The last: every number of its runs is one of the file, so that no byte of its answer is 255.
    return vectors + [maker.read(NEEDS, data)]


# ---- lists that break a rule ----


def in_each_place(numbers):
    for which in range(3):
        yield GOOD[:which] + (numbers,) + GOOD[which + 1 :]


def rules(maker):
    """The lists that break a rule and can be written at all: even ones, of numbers of at most six digits."""
    bad = [numbers for numbers, _ in refused_lists() if len(numbers) % 2 == 0 and max(numbers) <= 0xFFFFFF]
    vectors = []
    for at, numbers in enumerate(bad):
        for which, lists in enumerate(in_each_place(numbers)):
            data = of(written(lists))
            if read_file(data, (0, 0, 0))[:3] != (3, which, bad_index(numbers)):
                fail(f"{data} is not refused as meant")
            vectors.append(maker.read([(0, 4, 7)[(at + place + which) % 3] for place in range(3)], data))
        if at % 4 == 0:
            # Two and three bad lists: the first one is named.
            other = bad[(at + 17) % len(bad)]
            for lists in ((GOOD[0], numbers, other), (numbers, GOOD[1], other), (numbers, other, other)):
                vectors.append(maker.read((8, 8, 8), of(written(lists))))
    return vectors


# ---- damage ----

DAMAGED = U + "start c0 d6|start 4e00 9fff|continue 300 36f|emoji 1f600 1f64f|"
OTHER_BYTES = b"\t\n\r \x0001afgA\x80\xff"


def damage(maker):
    """A small file with each byte replaced, deleted, doubled, and cut there."""
    data = of(DAMAGED)
    files = {data: None}
    for at in range(len(data)):
        before, after = data[:at], data[at + 1 :]
        files.update((before + bytes([byte]) + after, None) for byte in OTHER_BYTES)
        files.update((made, None) for made in (before + after, before + data[at : at + 1] * 2 + after, before))
    return [maker.read((5, 3, 3), made) for made in files]


# ---- counts ----


def close_pairs(count):
    """As many pairs as asked for, each of one point, with as few digits as there can be."""
    points = (point for point in range(0x80, TOP) if not pair_is_bad(point, point, None))
    return flat((point, point) for point in itertools.islice(points, count))


def alone(which, numbers):
    return NO_LISTS[:which] + (numbers,) + NO_LISTS[which + 1 :]


def needed(lists):
    return [len(numbers) for numbers in lists]


def counted(maker):
    """0, 1, 8,191, 8,192 and 8,193 pairs. One list is large, and a file has few such vectors: it has room for no more."""

    def read(lists, *rooms):
        return maker.read(rooms or [len(numbers) for numbers in lists], of(written(lists)))

    few = [read(alone(which, close_pairs(count))) for count in (0, 1) for which in range(3)]
    files = {
        "file-counts-start.vec": few + [read(alone(0, full_list(31)))],
        "file-counts-continue.vec": [read(alone(1, close_pairs(MAX_PAIRS - 1)))],
        # Room for a number less than it needs.
        "file-counts-emoji.vec": [read(alone(2, close_pairs(MAX_PAIRS)), 0, 0, 2 * MAX_PAIRS - 1)],
    }
    # The shortest records: no pair is good, so that the count is seen to come first.
    most = [U + f"{name} 0 0|" * MAX_PAIRS for name in LIST_NAMES]
    more = [text + f"{name} 0 0|" for text, name in zip(most, LIST_NAMES)]
    said = {
        "file-counts-over.vec": [(more[0], (3, 0, MAX_PAIRS)), (more[2], (3, 2, MAX_PAIRS)), (most[2], (3, 2, 0))],
        "file-counts-order.vec": [(more[1], (3, 1, MAX_PAIRS)), (more[1] + "continue 0|", (9, MAX_PAIRS + 2, 0))],
    }
    for name, asked in said.items():
        for text, answer in asked:
            if read_file(of(text), (0, 0, 0))[:3] != answer:
                fail(f"{answer} is not said of a file of many records")
        files[name] = [maker.read((0, 1, 2), of(text)) for text, _ in asked]
    sections = {name: [section(NO_LISTS, vectors)] for name, vectors in files.items()}
    return sections | {"file-counts-write.vec": write_counted(maker)}


def write_counted(maker):
    """A pair more than the most, and the most, with room and without."""
    over, most = alone(2, close_pairs(MAX_PAIRS + 1)), alone(0, close_pairs(MAX_PAIRS))
    size = len(of(written(most)))
    if write_file(A, over, size) != (3, 2, MAX_PAIRS, None) or write_file(A, most, size - 1) != (7, size, 0, None):
        fail("lists of many pairs are not written as meant")
    refused = [maker.write(over, A, room, 0xAA) for room in (0, 50)]
    return [section(over, refused), section(most, [maker.write(most, A, room, 0xAA) for room in (0, 50, size)])]


# ---- Unicode's lists ----


def real(maker, files):
    """Unicode's lists with few pairs and with a pair for each line of its files: each read and written."""
    sections = []
    for data in files:
        lists = lists_in(data)
        rooms = [len(numbers) for numbers in lists]
        version = read_file(data, rooms)[3]
        reads = [maker.read(rooms, data)]
        if data is files[0]:
            check_stored(version, data)
            reads.append(maker.read((*rooms[:2], 0), data))
        sections.append(section(NO_LISTS, reads))
        sections.append(section(lists, [maker.write(lists, version, room, 0x20) for room in (0, len(data))]))
    return sections


def check_stored(version, data):
    """The folder data has this very file, if it has one of this version."""
    path = os.path.join(os.path.dirname(TOOLS), "data", "unicode-{}.{}.{}.lists".format(*version))
    if os.path.exists(path):
        with open(path, "rb") as file:
            if file.read() != data:
                fail(f"{path} is not what tools/unicode-lists prints")


# ---- writing ----

VERSIONS = [
    (0, 0, 0), (1, 2, 3), (9, 10, 11), (99, 100, 101), (999, 1000, 1001), (9999, 10000, 10001), (65535, 0, 0), (0, 65535, 0), (0, 0, 65535), (65535, 65535, 65535),
    (10, 100, 1000), (12345, 6789, 60504), (255, 256, 257), (15, 1, 0),
]
# Every digit at every place, and the ends at which a number has a digit more.
DIGITS = flat([
    (0x80, 0x80), (0x9A, 0xBC), (0xDE, 0xFF), (0x100, 0x123), (0x456, 0x789), (0xABC, 0xDEF), (0xFED, 0xFFF), (0x1000, 0x1234), (0x3210, 0x5678), (0x7654, 0x9ABC), (0xBA98, 0xCDEF),
    (0xFEDC, 0xFFFF), (0x10000, 0x12345), (0x23456, 0x34567), (0x45678, 0x56789), (0x6789A, 0x789AB), (0x89ABC, 0x9ABCD), (0xABCDE, 0xBCDEF), (0xCDEF0, 0xDEF01), (0xEF012, 0xFFFFF),
    (0x100000, 0x101234), (0x105678, 0x109ABC), (0x10CDEF, 0x10FEDC), (TOP, TOP),
])


def write(maker):
    sections = [section(lists, maker.written_well(lists, version)) for version, lists, _ in WRITTEN]
    sections.append(section(NO_LISTS, [made for version in VERSIONS for made in maker.written_well(NO_LISTS, version)]))
    for lists in (EVERYTHING, POINTS, *(alone(which, DIGITS) for which in range(3)), (DIGITS, DIGITS, DIGITS), (DIGITS, [], GOOD[2])):
        sections.append(section(lists, maker.written_well(lists, maker.numbers.pick(VERSIONS))))
    for at in range(24):
        lists = tuple(full_list(40 + 3 * at + which, 1 + maker.numbers.below(9)) for which in range(3))
        lists = tuple(numbers if maker.numbers.below(4) else [] for numbers in lists)
        version = tuple(maker.numbers.below(65536) >> maker.numbers.below(16) for _ in range(3))
        sections.append(section(lists, maker.written_well(lists, version)))
    sections += [section(lists, [maker.write(lists, A, room, 0x58) for room in (0, 1, 90)]) for lists, *_ in NOT_WRITTEN]
    bad = [numbers for numbers, _ in refused_lists()]
    for at, numbers in enumerate(bad):
        other = bad[(at + 17) % len(bad)]
        chosen = [*in_each_place(numbers)] + [(GOOD[0], numbers, other), (numbers, other, other)] * (at % 4 == 0)
        for lists in chosen:
            sections.append(section(lists, [maker.write(lists, maker.numbers.pick(VERSIONS), room, maker.numbers.pick(FILLS)) for room in (0, 40 + at % 20)]))
    # The last: no byte of its answer is 255.
    return sections + [section(GOOD, [maker.write(GOOD, A, len(of(SMALL)) + 5, 0x58)])]


# ---- the files ----


def begun(counts):
    """How many answers of the reader and of the writer begin with each number, 0 or a refusal's."""
    said = ", ".join(f"{count} {operation} {number}" for (operation, number), count in sorted(counts.items()))
    return f"files of lists: answers that begin {said}"


def make(real_files):
    """Name and sections of each file; what is given are the files of Unicode's lists."""
    check_by_hand()
    maker = Maker()
    files = {
        "file-read.vec": [section(NO_LISTS, hand_written(maker) + room(maker))],
        "file-lines.vec": [section(NO_LISTS, bad_lines(maker))],
        "file-rules.vec": [section(NO_LISTS, rules(maker))],
        "file-damage.vec": [section(NO_LISTS, damage(maker))],
        "file-real.vec": real(maker, real_files),
        "file-write.vec": write(maker),
    }
    files.update(counted(maker))
    print(f"{begun(maker.counts)}; {len(maker.loaded)} files stand for as many lists", file=sys.stderr)
    return files
