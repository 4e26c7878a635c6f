"""The rules of the scope paper for the three lent lists, and lists that keep or break them.

Rust has no word for a list that breaks a rule: here the rules are applied in the plainest way.
"""

from common.chance import Numbers
from common.ending import fail

LIST_NAMES = ["start", "continue", "emoji"]
TOP = 0x10FFFF
# The most pairs of a list: the scope paper, as request W7 amends it. Of the tools this one alone has the number.
MAX_PAIRS = 8192
# What it was before.
FORMER_MOST = 2048


def is_scalar(number):
    return number <= TOP and not 0xD800 <= number <= 0xDFFF


def pair_is_bad(low, high, before):
    if not low <= high <= TOP:
        return True
    if low < 0x80:
        return True
    if before is not None and low <= before:
        return True
    if low <= 0xDFFF and high >= 0xD800:
        return True
    return any(low <= point <= high for point in (0x85, 0x200E, 0x200F, 0x2028, 0x2029))


def bad_index(numbers):
    """None for a good list, else the pair index beside refusal 3."""
    whole = len(numbers) // 2
    if whole > MAX_PAIRS:
        return MAX_PAIRS
    before = None
    for index in range(whole):
        low, high = numbers[2 * index], numbers[2 * index + 1]
        if pair_is_bad(low, high, before):
            return index
        before = high
    if len(numbers) % 2 == 1:
        return whole
    return None


def flat(pairs):
    return [number for pair in pairs for number in pair]


# ---- lists that keep the rules ----

NO_LISTS = ([], [], [])
ALL_ALLOWED = [0x80, 0x84, 0x86, 0x200D, 0x2010, 0x2027, 0x202A, 0xD7FF, 0xE000, TOP]
EVERYTHING = (ALL_ALLOWED, ALL_ALLOWED, ALL_ALLOWED)
GOOD = (
    flat([(0xC0, 0xD6), (0x4E00, 0x9FFF)]),
    flat([(0xC0, 0xD6), (0x300, 0x36F)]),
    flat([(0x1F600, 0x1F64F)]),
)
POOL = [
    (0x80, 0x80), (0x81, 0x81), (0xA0, 0xA9), (0xAA, 0xAA), (0xB5, 0xB7), (0xC0, 0xD6),
    (0x100, 0x17F), (0x370, 0x3FF), (0x2000, 0x2007), (0x2012, 0x2022), (0x2030, 0x203F),
    (0x3041, 0x3096), (0xAC00, 0xD6FF), (0xE010, 0xE0FF), (0x10000, 0x1000B),
    (0x1F600, 0x1F64F), (0xE0100, 0xE01EF), (0x10FFF0, 0x10FFFD),
]


def full_list(seed, count=MAX_PAIRS):
    """As many good pairs as asked for, close together first and then spread out."""
    numbers = Numbers(seed)
    pairs = []
    before = 0x7F
    # Wider gaps would lead past the last code point where there are many pairs.
    widest = 800 if count <= FORMER_MOST else 200
    while len(pairs) < count - 1:
        gap = numbers.below(4 if len(pairs) < count // 2 else widest)
        low = before + 1 + gap
        high = low + numbers.below(3)
        before = high
        if not pair_is_bad(low, high, None):
            pairs.append((low, high))
    return flat(pairs + [(TOP, TOP)])


def cut_up(seed, numbers, count):
    """The same points in as many pairs as asked for, or each alone where there are not enough: round by round a pair becomes two."""
    chance = Numbers(seed)
    pairs = list(zip(numbers[::2], numbers[1::2]))
    while len(pairs) < count and any(low < high for low, high in pairs):
        left = count - len(pairs)
        cut = []
        for low, high in pairs:
            if low < high and left > 0:
                middle = low + chance.below(high - low)
                cut += [(low, middle), (middle + 1, high)]
                left -= 1
            else:
                cut.append((low, high))
        pairs = cut
    return flat(pairs)


# ---- lists that break a rule ----


def bad_pairs():
    pairs = [(0x301, 0x300), (TOP, 0x80), (0xFFFFFFFF, 0x100)]
    pairs += [(TOP, 0x110000), (0x10FFFE, 0xFFFFFFFF), (0x110000, 0x110000), (0xFFFFFFFF, 0xFFFFFFFF)]
    pairs += [(0, 0), (0x41, 0x5A), (0x7F, 0x7F), (0x7F, 0x80)]
    pairs += [(0xD7F0, 0xD800), (0xD7F0, 0xDABC), (0xDFFF, 0xE000), (0xDABC, 0xE000)]
    pairs += [(0xD800, 0xD800), (0xDFFF, 0xDFFF), (0xD800, 0xDFFF), (0xDABC, 0xDABC), (0xD7FF, 0xE000)]
    for point in (0x85, 0x200E, 0x200F, 0x2028, 0x2029):
        pairs += [(point, point), (point, point + 3), (point - 3, point), (point - 3, point + 3)]
    return pairs


def placed(pair):
    """The bad pair first, in the middle and last among good ones, with its index."""
    low, high = min(pair), max(pair)
    before = [good for good in POOL if good[1] < low][-2:] or POOL[:2]
    after = [good for good in POOL if good[0] > high][:2]
    yield [pair] + after, 0
    # Where nothing good can follow, the middle is made by a pair that is bad later.
    yield before + [pair] + (after or POOL[-1:]), len(before)
    yield before + [pair], len(before)


def refused_lists():
    """Lists that break a rule, and the index that is meant."""
    lists = [(flat(pairs), index) for pair in bad_pairs() for pairs, index in placed(pair)]
    # Not above the pair before: equal, inside it, below it, the same again.
    for pair in ((0x110, 0x120), (0x108, 0x120), (0x105, 0x106), (0xF0, 0xF1), (0xF0, 0x120), (0x100, 0x110)):
        base = [(0xA0, 0xA9), (0xAA, 0xAA), (0x100, 0x110)]
        lists.append((flat([base[2], pair]), 1))
        lists.append((flat([base[2], pair, (0x200, 0x2FF)]), 1))
        lists.append((flat(base + [pair]), 3))
        lists.append((flat(base + [pair, (0x200, 0x2FF), (0x300, 0x300)]), 3))
    # Half pairs: alone, after good pairs, whatever the lone number is.
    for lone in (0x100, 0x41, 0x85, 0xD800, 0, 0xFFFFFFFF):
        lists.append(([lone], 0))
        lists.append(([0xAA, 0xAA, lone], 1))
        lists.append((flat(POOL) + [lone], len(POOL)))
    # Several faults: the first pair wins, and the half pair comes last.
    lists.append(([0xAA, 0xAA, 0x301, 0x300, 0x85, 0x85], 1))
    lists.append(([0xAA, 0xAA, 0x85, 0x85, 0x301, 0x300], 1))
    lists.append(([0x41, 0x41, 0x301, 0x300, 0xD800, 0xD800, 0x110000, 0x110000], 0))
    lists.append(([0xAA, 0xAA, 0xC0, 0xD6, 0xD800, 0xD800, 0xD800, 0xD800], 2))
    lists.append(([0x301, 0x300, 0x400], 0))
    lists.append(([0xAA, 0xAA, 0xC0, 0xD6, 0x2028, 0x2029, 0x3000], 2))
    lists.append(([0xAA, 0xAA, 0xAA, 0xAA, 0x41], 1))
    lists.append(([0xAA, 0xAA, 0x2000, 0x2030, 0xE000, 0xE000, 0xFFFFFFFF], 1))
    for numbers, index in lists:
        if bad_index(numbers) != index:
            fail(f"refused list {numbers} is not refused as meant")
    return lists


def counted_lists():
    """Lists of more than the most pairs, and of the most with a fault; the index that is meant."""
    over = full_list(21, MAX_PAIRS + 1)
    most = full_list(22)

    def with_pair(index, low, high):
        return most[: 2 * index] + [low, high] + most[2 * index + 2 :]

    def turned(index):
        return with_pair(index, most[2 * index + 1] + 1, most[2 * index])

    last, former = MAX_PAIRS - 1, FORMER_MOST
    lists = {
        "one more": (over, MAX_PAIRS),
        "a half more": (most + [TOP], MAX_PAIRS),
        "one and a half more, pair 0 bad": ([0x41, 0x41] + over[2:] + [TOP], MAX_PAIRS),
        "a half more, pair 5 bad": (turned(5) + [TOP], 5),
        "the first bad": (with_pair(0, 0x7F, most[1]), 0),
        "the last of the former most bad": (turned(former - 1), former - 1),
        "the one past the former most bad": (with_pair(former, most[2 * former - 1], most[2 * former + 1]), former),
        "the last bad": (with_pair(last, TOP, 0x110000), last),
    }
    for name, (numbers, index) in lists.items():
        if bad_index(numbers) != index:
            fail(f"{name}: {bad_index(numbers)}")
    return {name: numbers for name, (numbers, _) in lists.items()}
