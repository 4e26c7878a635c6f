"""Random vectors of operations 18 and 19, the file of lists: each round of tools/compare-random has some.

The Rust has no such file: every expected answer is what lists_file.py says.
"""

import itertools

from common.list_files import alone, needed, of, written
from common.lists import LIST_NAMES, MAX_PAIRS, NO_LISTS, TOP, bad_pairs, flat, full_list, pair_is_bad
from common.lists_file import write_file
from common.packing import FILE_LIMIT, section
from common.tokens import FILLS

# ---- lists ----

# Code points to each of these: with two digits, with three, ..
WIDTHS = [0xFF, 0xFFF, 0xFFFF, 0xFFFFF, TOP]
# Where a number has a digit more, and where a pair just keeps the rules.
EDGES = [
    0x80, 0x81, 0x84, 0x86, 0x8F, 0x90, 0xFF, 0x100, 0xFFF, 0x1000, 0x200D, 0x2010, 0x2027, 0x202A,
    0xD7FF, 0xE000, 0xFFFF, 0x10000, 0xFFFFF, 0x100000, TOP - 1, TOP,
]
# Numbers of no code point, or of none that a list may have. The last three have more than six digits.
WRONG = [0, 0x41, 0x7F, 0x85, 0x200E, 0x200F, 0x2028, 0x2029, 0xD800, 0xDFFF, TOP + 1, 0xFFFFFF, 0x1000000, 0x80000000, 0xFFFFFFFF]
BAD_PAIRS = bad_pairs()


def point(numbers):
    """A code point of two to six digits, often one at which something turns."""
    if numbers.below(4) == 0:
        return numbers.pick(EDGES)
    return 0x80 + numbers.below(numbers.pick(WIDTHS) - 0x7F)


def good_list(numbers, count):
    """At most that many pairs that keep the rules. Some touch, some are of one point."""
    pairs = []
    before = None
    points = sorted(point(numbers) for _ in range(2 * count))
    for low, high in zip(points[::2], points[1::2]):
        if before is not None and numbers.below(5) == 0:
            low = before + 1
        if numbers.below(3) == 0:
            high = low
        if not pair_is_bad(low, high, before):
            pairs.append((low, high))
            before = high
    return flat(pairs)


def with_bad_pair(numbers, kept):
    """A pair that breaks a rule, at its place among good ones."""
    bad = numbers.pick(BAD_PAIRS)
    pairs = list(zip(kept[::2], kept[1::2]))
    return flat([pair for pair in pairs if pair[1] < min(bad)] + [bad] + [pair for pair in pairs if pair[0] > max(bad)])


def changed_numbers(numbers, kept):
    """One or two changes, after which a list mostly breaks a rule."""
    made = list(kept)
    for _ in range(1 + numbers.below(2)):
        if len(made) < 2:
            made[:0] = [point(numbers)] * 2
        # Where a pair stands, and another one or the same.
        at, other = (2 * numbers.below(len(made) // 2) for _ in range(2))
        pair = made[at : at + 2]
        end = at + numbers.below(2)
        way = numbers.below(9)
        if way == 0:
            made[at : at + 2] = reversed(pair)
        elif way == 1:
            made[end] = numbers.pick(WRONG)
        elif way == 2:
            made[end] = (made[end] + numbers.pick([1, -1])) % 2**32
        elif way == 3:
            made[at:at] = pair
        elif way == 4:
            made[at : at + 2], made[other : other + 2] = made[other : other + 2], pair
        elif way == 5:
            # From the low end of a pair to the high one of the next. The last pair loses its high end.
            del made[at + 1 : at + 3]
        elif way == 6:
            made[at] = made[at - 1]
        elif way == 7:
            made += [point(numbers)] * (1 + numbers.below(2))
        else:
            made.pop()
    return made


def changed_lists(numbers, lists):
    """One list, or two, or one twice, made such that it mostly breaks a rule."""
    made = list(lists)
    for _ in range(numbers.pick([1, 1, 2])):
        which = numbers.below(3)
        made[which] = numbers.pick([with_bad_pair, changed_numbers])(numbers, made[which])
    return tuple(made)


def good_lists(numbers):
    """Mostly at most three pairs a list, now and then 60; in all three groups or in some."""
    most = numbers.pick([0, 1, 1, 2, 2, 3, 3, 8]) if numbers.below(16) else 60
    return tuple(good_list(numbers, numbers.below(1 + most)) for _ in range(3))


def many_lists(numbers, real):
    """Some thousand pairs in one list, the most and one more among them, or Unicode's lists."""
    count = numbers.pick([0, MAX_PAIRS + 1, MAX_PAIRS + 1, MAX_PAIRS, MAX_PAIRS, MAX_PAIRS - 1, 1000 + numbers.below(7000)])
    lists = alone(numbers.below(3), full_list(numbers.below(2**31), count)) if count else real
    return lists if numbers.below(3) else changed_lists(numbers, lists)


# ---- versions ----

# The last of each count of digits and the first of the next, and the ends of 8, 15 and 16 bits.
VERSION_EDGES = [0, 1, 9, 10, 99, 100, 255, 256, 999, 1000, 9999, 10000, 32767, 32768, 65534, 65535]
PAST_VERSIONS = [65536, 65536, 65537, 65540, 65600, 66000, 70000, 99999, 100000, 655350, 2**32, 2**32 + 15, 2**64 + 15]


def some_version(numbers):
    """Three numbers: at an edge, or of any count of bits."""
    return tuple(numbers.pick(VERSION_EDGES) if numbers.below(2) else numbers.below(65536) >> numbers.below(16) for _ in range(3))


# ---- damage ----

# Bytes at which a line turns: its parts, digits and what stands beside them, letters of the words, others.
TELLING = b"\t\t\t\n\n\n\r\x0b \x000019afgAFG/:@`uscei\x8a\xff"
TABS = [b" ", b" ", b"\t\t", b"\t\t", b"", b" \t", b"\t ", b"\n", b"\x0b", b"\x89", b",", b".."]
ENDS = [b"\r\n", b"\r\n", b"\r", b"\n\n", b"\n\r", b" \n", b"\t\n", b"\0\n"]
ORDERS = list(itertools.permutations(name.encode("ascii") for name in LIST_NAMES))


def bytes_changed(numbers, data):
    """One to three bytes, each replaced, taken out, doubled or put in."""
    for _ in range(1 + numbers.below(3)):
        at = numbers.below(len(data) + 1)
        here = data[at : at + 1]
        put = bytes([numbers.pick(TELLING)])
        data = data[:at] + numbers.pick([put, b"", here + here, put + here]) + data[at + 1 :]
    return data


def replaced(numbers, data, byte, others):
    """One such byte, or now and then every one, made something else."""
    other = numbers.pick(others)
    if numbers.below(4) == 0:
        return data.replace(byte, other)
    parts = data.split(byte)
    at = numbers.below(len(parts))
    return other.join([byte.join(parts[: at + 1]), byte.join(parts[at + 1 :])])


def tabs_changed(numbers, data):
    return replaced(numbers, data, b"\t", TABS)


def ends_changed(numbers, data):
    """CR LF and others."""
    return replaced(numbers, data, b"\n", ENDS)


def cut(numbers, data):
    """The file to some place, mostly in its last bytes, or from some place on."""
    at = numbers.below(len(data) + 1)
    way = numbers.below(5)
    if way == 0:
        return data[at:]
    return data[:at] if way == 1 else data[: -1 - numbers.below(4)]


def lines_changed(numbers, data):
    """Two lines swapped, one taken out, doubled or moved; what stands after the last LF is one of them."""
    lines = data.split(b"\n")
    at, other = numbers.below(len(lines)), numbers.below(len(lines))
    way = numbers.below(4)
    if way == 0:
        lines[at], lines[other] = lines[other], lines[at]
    elif way == 1:
        del lines[at]
    elif way == 2:
        lines.insert(at, lines[at])
    else:
        lines.insert(other, lines.pop(at))
    return b"\n".join(lines)


def groups_changed(numbers, data):
    """The groups in an order by chance."""
    first, *lines = data.split(b"\n")
    order = {name: at for at, name in enumerate(numbers.pick(ORDERS))}
    # What is no record comes last.
    lines.sort(key=lambda line: order.get(line.split(b"\t")[0], len(order)))
    return b"\n".join([first, *lines])


def forms(field):
    """A number or a word with zeros before it, in upper case, with more digits, with something beside it; none."""
    return [
        b"0" + field, b"00" + field, field.rjust(6, b"0"), field.rjust(7, b"0"), field.upper(), field.upper(), field.upper(), field.capitalize(),
        b"1" + field.rjust(6, b"0"), field.ljust(6, b"0"), field.ljust(7, b"0"), field.ljust(9, b"f"), field + b"0", field[:-1],
        b"", b"0", b"0x" + field, b"+" + field, b"-" + field, b" " + field, field + b" ",
    ]


def field_changed(numbers, data):
    """A field in another form. Of the first line also another number, of which most are too large."""
    lines = data.split(b"\n")
    at = numbers.below(len(lines)) if numbers.below(3) else 0
    fields = lines[at].split(b"\t")
    place = numbers.below(len(fields))
    if at == 0 and numbers.below(2):
        fields[place] = b"%d" % numbers.pick(PAST_VERSIONS + VERSION_EDGES[-2:])
    else:
        fields[place] = numbers.pick(forms(fields[place]))
    lines[at] = b"\t".join(fields)
    return b"\n".join(lines)


DAMAGES = [bytes_changed] * 3 + [field_changed] * 4 + [tabs_changed, ends_changed, cut, lines_changed, lines_changed, groups_changed]
PIECES = [
    b"unicode", b"start", b"continue", b"emoji", b"\t", b"\t", b"\t", b"\n", b"\n", b"0", b"80", b"d7ff", b"10ffff", b"\r", b" ",
    b"start\t80\t80\n", b"continue\t80\t84\n", b"emoji\ta9\tae\n", b"emoji\t1f600\t1f64f\n",
]


def chance_bytes(numbers):
    """Bytes or pieces of files, one after the other, alone and after a first line."""
    if numbers.below(2) == 0:
        made = bytes(numbers.below(256) for _ in range(numbers.below(60)))
    else:
        made = b"".join(numbers.pick(PIECES) for _ in range(numbers.below(12)))
    return made if numbers.below(2) else of(written(NO_LISTS)) + made


# ---- vectors ----


def near(numbers, need):
    """Room: exactly enough, one or two less, more, none."""
    return max(need + numbers.pick([0, 0, 0, 0, -1, -2, 1, 2, 3 + numbers.below(30), -need]), 0)


def some_rooms(numbers, lists):
    """Room for each list; every other time exactly enough for all."""
    needs = needed(lists)
    return needs if numbers.below(2) else [near(numbers, need) for need in needs]


def read_lists(maker, numbers, lists, damages):
    """A file with these lists, and as much damage as is said."""
    data = of(written(lists, some_version(numbers)))
    for _ in range(damages):
        data = numbers.pick(DAMAGES)(numbers, data)
    return maker.read(some_rooms(numbers, lists), data)


def read_whole(maker, numbers):
    """A file of which every line is good; of every other one the lists are changed."""
    lists = good_lists(numbers)
    return read_lists(maker, numbers, lists if numbers.below(2) else changed_lists(numbers, lists), 0)


def read_damaged(maker, numbers):
    """A damaged file, or now and then bytes by chance; of some the lists break a rule as well, which is said only where every line is good."""
    lists = good_lists(numbers)
    if numbers.below(16) == 0:
        return maker.read(some_rooms(numbers, lists), chance_bytes(numbers))
    return read_lists(maker, numbers, lists if numbers.below(5) else changed_lists(numbers, lists), numbers.pick([1, 1, 2]))


def reads(maker, numbers, full, read):
    """Answers of operation 18, up to a size. The section's lists, which break a rule or not, are not used."""
    vectors = []
    size = 0
    while size < full:
        vectors.append(read(maker, numbers))
        size += len(vectors[-1])
    return [section(changed_lists(numbers, good_lists(numbers)), vectors)]


def write_lists(maker, numbers, lists, count):
    """A section with answers of operation 19 on these lists."""
    vectors = []
    for _ in range(count):
        version = some_version(numbers)
        data = write_file(version, lists, FILE_LIMIT)[3]
        # Lists that break a rule need no room.
        need = numbers.below(60) if data is None else len(data)
        vectors.append(maker.write(lists, version, near(numbers, need), numbers.pick(FILLS)))
    return section(lists, vectors)


def writes(maker, numbers, full):
    """Answers of operation 19, up to a size."""
    sections = []
    size = 0
    while size < full:
        lists = good_lists(numbers)
        if numbers.below(5) < 2:
            lists = changed_lists(numbers, lists)
        sections.append(write_lists(maker, numbers, lists, 1 + numbers.below(3)))
        size += len(sections[-1])
    return sections


def make(maker, numbers, real, full):
    """Name and sections of each file. Where there are some thousand pairs, a file has one answer of them: it has room for no more."""
    many = read_lists(maker, numbers, many_lists(numbers, real), numbers.pick([0, 0, 0, 1]))
    return {
        "lists-read.vec": reads(maker, numbers, full, read_whole),
        "lists-damage.vec": reads(maker, numbers, full, read_damaged),
        "lists-write.vec": writes(maker, numbers, full),
        "lists-many-read.vec": [section(NO_LISTS, [many])],
        "lists-many-write.vec": [write_lists(maker, numbers, many_lists(numbers, real), 1)],
    }
