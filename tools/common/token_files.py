"""Which vectors of operations 9 to 16 are stored, file by file. tools/oracle/README.md describes them."""

import sys

from common.ending import fail
from common.lists import EVERYTHING, GOOD, NO_LISTS, refused_lists
from common.packing import ANSWER_LIMIT, RECORDS, TOKENS, TOKENS_ONCE, TOKEN_SIZE, numbers_of, section, vector
from common.texts import (
    EDGES, EMOJI_ONLY, ILL_FORMED, LINE, NO_EMOJI, OTHER_ROWS, POINTS, RAW_STARTS, ROWS, SHORT,
    damaged, glued, has_others, listed_requests, long_section, over, random_section, rows, tokens,
)
from common.tokens import MODES, Calls, lined, token_numbers

# The sections of common/texts.py that a file holds.
EDGE_FILES = {
    "token-blanks.vec": ["edges empty", "edges whitespace", "edges comments"],
    "token-words.vec": ["edges identifiers", "edges lifetimes"],
    "token-quotes.vec": ["edges quotes", "edges strings", "edges raw"],
    "token-numbers.vec": ["edges numbers", "edges ascii"],
    "token-unknown.vec": ["edges unknown", "edges nul"],
    "token-frontmatter.vec": ["edges frontmatter"],
    "token-calls.vec": ["edges raw check", "edges guarded", "edges shebang"],
}
SHORT_FILES = {
    "token-short-marks.vec": ["short comments", "short quotes", "short hashes"],
    "token-short-words.vec": ["short prefixes", "short raw names"],
    "token-short-numbers.vec": ["short numbers", "short exponents"],
    "token-short-dashes.vec": ["short dashes"],
}
# The most texts of a section of short ones, for each mode; texts of each random file; texts asked with each lists.
A_SHORT_SECTION = 640
RANDOM_TEXTS = 560
LISTED_TEXTS = 110
SEED = 1
# The most bytes of a long text and of the answer on it; one text has the longest answer there is.
LONGEST = 20100
A_LONG_ANSWER = 30000


def spread(items, most):
    """At most that many of the items, evenly over all of them."""
    if len(items) <= most:
        return items
    return [items[at * len(items) // most] for at in range(most)]


class Files:
    def __init__(self, oracle, real):
        self.oracle = oracle
        self.real = real
        self.panics = 0
        self.too_long = 0
        self.work = 0

    def section(self, lists, fill, answer_limit=ANSWER_LIMIT):
        calls = Calls(self.oracle, lists, answer_limit)
        fill(calls)
        self.panics += calls.panics
        self.too_long += calls.too_long
        self.work += calls.work
        return calls.section()

    # ---- rows and edges ----

    def rows(self):
        # Stops where the Rust disagrees with a row. No row is about the lists.
        rows(self.oracle)

        def fill(calls):
            for mode, text, _ in ROWS:
                text = text.encode("utf-8")
                flag = MODES.index(mode)
                for given in (flag, 1 - flag):
                    calls.one(given, 0, text)
                    calls.tokens(given, text)
                calls.tokens(flag, text, TOKENS_ONCE)
                # The same text after other tokens.
                for given in (0, 1):
                    calls.one(given, 2, b"a " + text)
                calls.tokens(0, b"a " + text)
            calls.requests(asked for asked, _ in OTHER_ROWS)

        return [self.section(NO_LISTS, fill)]

    def edges(self, names):
        """Everything with empty lists; what has characters outside ASCII with the real ones too."""
        requests = [asked for name in names for asked in EDGES[name]()]
        others = [asked for asked in requests if has_others(asked) and not asked.startswith(("raw", "shebang"))]
        sections = [self.section(NO_LISTS, lambda calls: calls.requests(requests))]
        if others:
            sections.append(self.section(self.real, lambda calls: calls.requests(others)))
        return sections

    # ---- short and random texts ----

    def short(self, names):
        def fill(calls):
            for name, alphabet, longest, modes in SHORT:
                if name in names:
                    for mode in modes:
                        whole = [tokens(mode, text) for text in over(alphabet, 3)]
                        longer = [tokens(mode, text) for text in over(alphabet, longest)][len(whole) :]
                        calls.requests(whole + spread(longer, max(A_SHORT_SECTION - len(whole), 0)))

        return [self.section(NO_LISTS, fill)]

    def random(self, seed, make):
        requests = random_section(seed, make, RANDOM_TEXTS)

        def fill(calls):
            calls.requests(requests)
            # A part of them by the step that checks the text once, too.
            calls.requests((asked for asked in requests[::8] if asked.startswith("tokens")), TOKENS_ONCE)

        return [self.section(NO_LISTS, fill)]

    def lists(self):
        requests = listed_requests(3 * SEED + 2, LISTED_TEXTS)
        choices = (NO_LISTS, self.real, EVERYTHING, POINTS, EMOJI_ONLY, NO_EMOJI)
        return [self.section(lists, lambda calls: calls.requests(requests)) for lists in choices]

    # ---- positions and refusals ----

    def places(self):
        """Every place of some texts, and places past the end: boundaries or not, on and off."""

        def fill(calls):
            for text in PLACED:
                text = text.encode("utf-8")
                past = [len(text) + 1, len(text) + 4, 0x7FFFFFFF, 0x80000000, 0xFFFFFFFF]
                for position in list(range(len(text) + 1)) + past:
                    calls.one(0, position, text)
                    calls.one(1, position, text)
                    calls.guarded(position, text)

        return [self.section(lists, fill) for lists in (NO_LISTS, self.real)]

    def refused(self):
        return [self.section(NO_LISTS, self.ill_formed)] + self.refused_lists()

    def ill_formed(self, calls):
        """Ill-formed texts, with positions before, at and past the place, and past the end."""
        for text in ILL_FORMED + [b"fn main() { \xc3\xa9\xc3 }", b"a" * 300 + b"\xff", b"\xff" + b"a" * 300]:
            places = sorted({0, 1, len(text) - 1, len(text), len(text) + 1, 0xFFFFFFFF})
            for position in places:
                calls.one(position % 2, position, text)
                calls.guarded(position, text)
            for flag in (0, 1):
                calls.one(flag, 0, text)
                calls.tokens(flag, text)
                calls.tokens(flag, text, TOKENS_ONCE)
            calls.shebang(text)
            for prefix in (0, 1, 2, 3):
                calls.raw(prefix, text)
        # The raw check's own refusal.
        for text in RAW_STARTS + ['br"a"', 'cr"a"', 'c"a"']:
            for prefix in (0, 1, 2, 3, 4, 255, 256, 257, 0x10001, 0x80000000, 0xFFFFFFFF):
                calls.raw(prefix, text.encode("utf-8"))

    def refused_lists(self):
        """A list that breaks a rule in each of the three places; in two; in all."""
        sections = []
        bad = [numbers for numbers, _ in refused_lists()]
        for at, numbers in enumerate(spread(bad, 40)):
            for which in range(3):
                lists = [*GOOD]
                lists[which] = numbers
                if at % 8 == 7:
                    lists[(which + 1) % 3] = bad[(3 * at + which) % len(bad)]
                sections.append(self.section(tuple(lists), every_call))
        return sections + [self.section((bad[0], bad[30], bad[60]), every_call)]

    # ---- long texts ----

    def long(self):
        """By the step that checks the text once; tokens with frontmatter off, the rest, and the longest answer: a file each."""
        requests = [asked for asked in long_section() if len(asked) < 2 * LONGEST]
        off = [asked for asked in requests if asked.startswith("tokens off")]
        rest = [asked for asked in requests if asked not in off] + [tokens("on", "-" * 65535 + "\n")]
        others = [asked for asked in off if has_others(asked)]

        def once(asked):
            return lambda calls: calls.requests(asked, TOKENS_ONCE)

        first = [self.section(NO_LISTS, once(off), A_LONG_ANSWER), self.section(self.real, once(others), A_LONG_ANSWER)]

        def fill(calls):
            calls.requests(rest, TOKENS_ONCE)
            calls.requests([tokens("on", "\n" + LINE * 20)])

        return first, [self.section(NO_LISTS, fill)], [self.section(NO_LISTS, once([self.longest_answer()]))]

    def longest_answer(self):
        """As many tokens as an answer holds."""
        most = ANSWER_LIMIT // TOKEN_SIZE
        lines, rest = divmod(most - 1, len(self.steps(LINE.encode("ascii"))) - 1)
        text = LINE * lines + ";" * rest
        if len(self.steps(text.encode("ascii"))) != most:
            fail("the longest answer is not as meant")
        return tokens("on", text)

    # ---- the list call ----

    def listed_named(self):
        """Mode and text: the rows, and an even part of the edges."""
        texts = [(MODES.index(mode), text.encode("utf-8")) for mode, text, _ in ROWS]
        return texts + asked_texts(spread([line for name in EDGES for line in EDGES[name]() if line.startswith("tokens")], 70))

    def listed_random(self):
        """Mode and text: random ones, texts of as many tokens as there are records, one less and one more, and others."""
        texts = asked_texts(line for line in random_section(3 * SEED + 9, glued, 60) if line.startswith("tokens"))
        for count in (RECORDS - 1, RECORDS, RECORDS + 1):
            texts += [(0, b";" * count), (1, b" ;" * (count // 2) + b" " * (count % 2)), (1, b"---\n---\n" + b"a " * ((count - 2) // 2) + b"b" * (count % 2))]
        return texts + [(1, b""), (0, b"+" * 3000), (0, b"a\xff"), (1, b"\xc3"), (0, b"\xe2(")]

    def list_records(self):
        """The rows and edges, and what the lists decide, in one file, random texts in another: one would be too long."""
        named, random = self.listed_named(), self.listed_random()

        def fill(texts):
            return lambda calls: [calls.list(flag, text) for flag, text in texts]

        def refused(calls):
            calls.list(0, b"a")
            calls.list(1, b"\xff")

        bad = [numbers for numbers, _ in refused_lists()]
        lists = [(bad[0], GOOD[1], GOOD[2]), (GOOD[0], bad[1], GOOD[2]), (GOOD[0], GOOD[1], bad[2])]
        others = [(flag, text) for flag, text in named + random if any(byte >= 0x80 for byte in text)]
        first = [self.section(NO_LISTS, fill(named)), self.section(self.real, fill(others[:24]))]
        return first + [self.section(lists_, refused) for lists_ in lists], [self.section(NO_LISTS, fill(random))]

    def list_slots(self):
        """No slot, one too few, exactly enough, one more, many."""
        texts = self.listed_named() + self.listed_random()

        def fill(calls):
            for flag, text in texts:
                refused, records = calls.records(flag, text)
                for slots in sorted({0, max(len(records) - 1, 0), len(records), len(records) + 1, 0xFFFFFFFF}):
                    calls.slots(flag, slots, text)

        return [self.section(NO_LISTS, fill)]

    def fence(self):
        """A fence of 65,536 dashes, on which the Rust panics: the paper's rule, a count without a limit, decides.

        The Rust itself says what the rule says for each smaller count that is tried here.
        """
        for count in (3, 4, 255, 256, 257, 4096, 65534, 65535):
            text = fenced(count)
            if self.steps(text) != fence_tokens(len(text)):
                fail(f"a fence of {count} dashes is not read as the rule says")
        text = fenced(65536)
        if self.steps(text) is not None:
            fail("the Rust has an answer for 65,536 dashes")
        read = [token_numbers(word) for word in fence_tokens(len(text))]
        answer = b"".join(numbers_of(*token) for token in lined(text, read))
        return [section(NO_LISTS, [vector(TOKENS_ONCE, numbers_of(1) + text, answer)])]

    def steps(self, text):
        return Calls(self.oracle, NO_LISTS).ask("steps", "on", text.hex())


def asked_texts(requests):
    """Mode and text of requests for tokens."""
    texts = []
    for line in requests:
        _, mode, *words = line.split()
        texts.append((MODES.index(mode), bytes.fromhex("".join(words))))
    return texts


def fenced(count):
    """A line that is a dash short, then the fence's end with one dash more, a line's rest and a name."""
    return b"-" * count + b"\n" + b"-" * (count - 1) + b"\n" + b"-" * count + b"-x\ny"


def fence_tokens(length):
    return [f"Frontmatter,false,false,{length - 2:x},off", "Whitespace,1,off", "Ident,1,off", "Eof,0,off"]


PLACED = [
    "a\u00e9\u20ac\U0001f600z",
    "fn \u00e9t\u00e9<'a>(x: &'a str) { r#\"\u20ac\"# + 0x1e3 }",
    "/* \u20ac /*\U0001f600*/ */ //! \u00e9\r\n#\"a\"# '\\u{e9}'\u00e9",
    " \n---\u00e9\na\n---\u20ac\nb'\u00e9' 1.\u00e9",
    "----\n---\n----x\n-- -\n",
    "'\U0001f600'\U0001f600\u200d\U0001f600 a\u0300\u0300#\"\\\"\"\0",
    "##\"\u00e9\"##\u00e9 ###\"a",
    "",
]

def every_call(calls):
    """Each call once: the list comes before the text and the text before the position."""
    good, ill = "\u00c1a'\u4e00 #".encode("utf-8"), b"a\xff"
    for text, position in ((good, 0), (good, 1), (ill, 9)):
        calls.one(1, position, text)
        calls.guarded(position, text)
    for operation in (TOKENS, TOKENS_ONCE):
        calls.tokens(0, good, operation)
    calls.shebang(b"#!a\n")
    calls.raw(1, b'r"a"')


def make(oracle, real):
    """Name and sections of each file."""
    maker = Files(oracle, real)
    files = {"token-rows.vec": maker.rows()}
    files.update((name, maker.edges(sections)) for name, sections in EDGE_FILES.items())
    files.update((name, maker.short(sections)) for name, sections in SHORT_FILES.items())
    files["token-fragments.vec"] = maker.random(3 * SEED, glued)
    files["token-damaged.vec"] = maker.random(3 * SEED + 1, damaged)
    files["token-lists.vec"] = maker.lists()
    files["token-places.vec"] = maker.places()
    files["token-refused.vec"] = maker.refused()
    files["token-long.vec"], files["token-long-other.vec"], files["token-longest.vec"] = maker.long()
    files["token-fence.vec"] = maker.fence()
    files["list-records.vec"], files["list-records-random.vec"] = maker.list_records()
    files["list-slots.vec"] = maker.list_slots()
    print(
        f"tokens: {maker.panics} panics and {maker.too_long} answers that are too long left out,"
        f" {maker.work} bytes read by calls that check the whole text",
        file=sys.stderr,
    )
    return files
