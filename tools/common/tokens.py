"""Vectors of the calls that read tokens: operations 9 to 17 of tools/oracle/README.md.

What the Rust can say comes from the oracle. The Rust has no word for a refusal: there the
rules of the scope paper are applied here, in the plainest way and in the paper's order. The
Rust has no lines either: request W5 says what they are, and line_at counts them. The key is
taken of the text with each CR LF replaced by LF (request W3), and refused where a hidden direction mark
stands in the text (request W6); all other calls read the lent text.
"""

import itertools

from common.ending import fail
from common.keys import first_broken, first_doubled, first_hidden, key_of, pieces, replaced, with_cr_lf
from common.lists import bad_index
from common.packing import (
    ANSWER_LIMIT, GUARDED, KEY, LIST, MOST_ROOM, ONE, RAW, RECORDS, SHEBANG, SLOTS, TOKENS, TOKEN_SIZE, VERDICT,
    numbers_in, numbers_of, section, vector, vector_at,
)
from common.texts import request

KINDS = """
    LineComment BlockComment Whitespace Frontmatter Ident InvalidIdent RawIdent ForcedKeywordIdent
    UnknownPrefix UnknownPrefixLifetime RawLifetime GuardedStrPrefix Literal Lifetime Semi Comma Dot
    OpenParen CloseParen OpenBrace CloseBrace OpenBracket CloseBracket At Pound Tilde Question Colon
    Dollar Eq Bang Lt Gt Minus And Or Plus Star Slash Caret Percent Unknown Eof
""".split()
LITERALS = ["Int", "Float", "Char", "Byte", "Str", "ByteStr", "CStr", "RawStr", "RawByteStr", "RawCStr"]
BASES = ["Binary", "Octal", "Decimal", "Hexadecimal"]
DOC_STYLES = ["none", "outer", "inner"]
MODES = ["off", "on"]
# What a record of operation 15 holds before the call: a Bang of 5 bytes at 3 in line 7.
BLANK = (KINDS.index("Bang"), 0, 5, 3, 7)
# What the bytes of operation 17 may hold before the call: bytes of texts and of keys, and others.
FILLS = [0x00, 0x0A, 0x20, 0x2F, 0x61, 0x7F, 0x80, 0xAA, 0xC3, 0xFF]


# ---- tokens as numbers ----


def truth(word):
    return ["false", "true"].index(word)


def literal_detail(name, *holds):
    if name in ("Int", "Float"):
        detail = BASES.index(holds[0]) + 4 * truth(holds[1])
    elif name.startswith("Raw"):
        detail = 0 if holds[0] == "none" else 1 + int(holds[0], 16)
    else:
        detail = truth(holds[0])
    return LITERALS.index(name) + 16 * detail


def detail_of(kind, holds):
    if kind == "LineComment":
        return DOC_STYLES.index(holds[0])
    if kind == "BlockComment":
        return DOC_STYLES.index(holds[0]) + 4 * truth(holds[1])
    if kind == "Frontmatter":
        return truth(holds[0]) + 2 * truth(holds[1])
    if kind == "Lifetime":
        return truth(holds[0])
    if kind == "Literal":
        return literal_detail(*holds)
    if holds:
        fail(f"{kind} holds nothing")
    return 0


def token_numbers(word):
    """Kind code, suffix start, length and the flag after the token."""
    kind, *holds, length, flag = word.split(",")
    suffix = int(holds.pop(), 16) if kind == "Literal" else 0
    return KINDS.index(kind) + 64 * detail_of(kind, holds), suffix, int(length, 16), MODES.index(flag)


def line_at(text, start):
    """The line of a token that starts there: the bytes 0x0A before it. All lines of expected answers are counted here."""
    return text[:start].count(b"\n")


def lined(text, tokens):
    """The numbers of tokens that follow each other from the start of the text, each with its line after them."""
    starts = itertools.accumulate((length for _, _, length, _ in tokens), initial=0)
    return [(*token, line_at(text, start)) for token, start in zip(tokens, starts)]


def check_flags(flag, tokens):
    """The paper's rule: off stays off; on stays on through whitespace and at Eof only."""
    for code, _, _, after in tokens:
        if after != (flag and KINDS[code % 64] in ("Whitespace", "Eof")):
            fail(f"a flag is not the paper's: {tokens}")
        flag = after


# ---- vectors ----


def is_boundary(text, position):
    if position >= len(text):
        return position == len(text)
    return text[position] & 0xC0 != 0x80


def raw_prefix_is_good(prefix, text):
    return (prefix, text[:prefix]) in ((1, b"r"), (2, b"br"), (2, b"cr"))


class Calls:
    """The calls under one choice of lists. A call that panics in the Rust gives no vector."""

    def __init__(self, oracle, lists, answer_limit=ANSWER_LIMIT):
        self.oracle = oracle
        self.answer_limit = answer_limit
        self.lists = lists
        self.bad = [bad_index(numbers) for numbers in lists]
        self.vectors = {}
        # What is known of lent texts, and of replaced ones.
        self.keys = {}
        self.replaced = {}
        self.size = 0
        self.panics = 0
        self.too_long = 0
        # Bytes read by calls that check the whole text for each token.
        self.work = 0

    def section(self):
        return section(self.lists, list(self.vectors))

    def refusal(self, lists_used, text, position=None):
        for which in range(lists_used):
            if self.bad[which] is not None:
                return numbers_of(3, which, self.bad[which])
        ill = self.oracle.verdict(text)
        if ill is not None:
            return numbers_of(2, *ill)
        if position is not None and not is_boundary(text, position):
            return numbers_of(4, position, 0)
        return None

    def ask(self, *words):
        """None where the Rust panics. A call that is not refused uses good lists only."""
        for which, numbers in enumerate(self.lists):
            self.oracle.lend(which, numbers if self.bad[which] is None else [])
        answer = self.oracle.ask(request(*words))
        self.panics += answer == "panic"
        return None if answer == "panic" else answer.split()

    def add(self, operation, handed_in, answer):
        """Each vector once; none where there is no answer."""
        if answer is not None:
            made = vector(operation, handed_in, answer)
            if made not in self.vectors:
                self.vectors[made] = None
                self.size += len(made)

    def verdict(self, text):
        refused = self.refusal(0, text)
        self.add(VERDICT, text, numbers_of(0, 0, 0) if refused is None else refused)

    def one(self, flag, position, text):
        answer = self.refusal(3, text, position)
        if answer is None:
            words = self.ask("one", MODES[flag], f"{position:x}", text.hex())
            if words is not None:
                code, suffix, length, after = token_numbers(words[0])
                check_flags(flag, [(code, suffix, length, after)])
                answer = numbers_of(0, code, suffix, length, position, line_at(text, position), position + length, after)
        self.work += len(text)
        self.add(ONE, numbers_of(position, flag) + text, answer)

    def tokens(self, flag, text, operation=TOKENS):
        answer = self.refusal(3, text)
        if answer is None:
            words = self.ask("steps", MODES[flag], text.hex())
            if words is not None:
                answer = self.token_list(flag, text, words)
        if answer is not None and operation == TOKENS:
            self.work += len(text) * max(len(answer) // TOKEN_SIZE, 1)
        self.add(operation, numbers_of(flag) + text, answer)

    def listed(self, flag, text, words):
        """The tokens without Eof by a second witness, the iterator of 000, which gives the same ones."""
        listed = [word for word in self.ask("tokens", MODES[flag], text.hex()) if word != "-"]
        if listed != [word.rsplit(",", 1)[0] for word in words[:-1]]:
            fail(f"two ways of reading tokens differ on {text.hex()}")
        return listed

    def token_list(self, flag, text, words):
        self.listed(flag, text, words)
        tokens = [token_numbers(word) for word in words]
        check_flags(flag, tokens)
        lengths = [length for _, _, length, _ in tokens]
        if not all(lengths[:-1]) or lengths[-1] != 0 or sum(lengths) != len(text):
            fail(f"the lengths do not add up on {text.hex()}")
        answer = b"".join(numbers_of(*token) for token in lined(text, tokens))
        self.too_long += len(answer) > self.answer_limit
        return answer if len(answer) <= self.answer_limit else None

    def records(self, flag, text):
        """A refusal's numbers, or None and the records of the tokens without Eof: kind code, suffix start, length, start, line."""
        refused = self.refusal(3, text)
        if refused is not None:
            return refused, []
        words = self.ask("steps", MODES[flag], text.hex())
        numbers = numbers_in(self.token_list(flag, text, words))
        records = []
        start = 0
        for at in range(0, len(numbers) - 5, 5):
            code, suffix, length, _, line = numbers[at : at + 5]
            records.append((code, suffix, length, start, line))
            start += length
        return None, records

    def list(self, flag, text):
        """With that many records lent: the answer, and what each of them holds then."""
        refused, records = self.records(flag, text)
        if refused is None and len(records) > RECORDS:
            refused = numbers_of(5, len(records), 0)
        answer = numbers_of(0, len(records), 0) if refused is None else refused
        held = records if refused is None else []
        for record in held + [BLANK] * (RECORDS - len(held)):
            answer += numbers_of(*record)
        self.add(LIST, numbers_of(flag) + text, answer)

    def slots(self, flag, slots, text):
        refused, records = self.records(flag, text)
        if refused is None:
            refused = numbers_of(0 if len(records) <= slots else 5, len(records), 0)
        self.add(SLOTS, numbers_of(flag, slots) + text, refused)

    def keyed(self, text):
        """A refusal's numbers and no key, or None and the key: what every room has in common."""
        if text not in self.keys:
            refused = self.refusal(3, text)
            if refused is None and first_doubled(text) is not None:
                refused = numbers_of(10, first_doubled(text), 0)
            if refused is None and first_hidden(text) is not None:
                refused = numbers_of(11, first_hidden(text), 0)
            self.keys[text] = self.keyed_replaced(replaced(text)) if refused is None else (refused, None)
            self.check_keyed(text)
        return self.keys[text]

    def keyed_replaced(self, text):
        """The same of a replaced text, by its tokens. Lent texts that differ in ends of lines alone have one."""
        if text not in self.replaced:
            found = pieces(text, self.listed(0, text, self.ask("steps", "off", text.hex())))
            place = first_broken(found)
            self.replaced[text] = (None, key_of(found)) if place is None else (numbers_of(6, place, 0), None)
        return self.replaced[text]

    def check_keyed(self, text):
        """True of every key: it is no longer than its replaced text, its own key, and that of the text with CR LF."""
        refused, key = self.keys[text]
        if key is not None and (len(key) > len(replaced(text)) or self.keyed(key) != (None, key)):
            fail(f"not a key: {key.hex()}, of {text.hex()}")
        # The place of a broken token is the same one too.
        broken = refused is not None and numbers_in(refused)[0] == 6
        if (key is not None or broken) and self.keyed(with_cr_lf(text)) != (refused, key):
            fail(f"not the same with CR LF: {text.hex()}")

    def key_answer(self, room, fill, text):
        """With that many bytes lent, each of which is `fill`: the answer, and what they hold then."""
        refused, key = self.keyed(text)
        buffer = bytes([fill]) * room
        if refused is None and len(key) > room:
            refused = numbers_of(7, len(key), 0)
        if refused is None:
            return numbers_of(0, len(key), 0) + key + buffer[len(key) :]
        return refused + buffer

    def key(self, room, fill, text):
        self.add(KEY, numbers_of(room, fill) + text, self.key_answer(room, fill, text))

    def key_answers(self):
        """The first number of each answer of operation 17, and the text."""
        made = (vector_at(data, 0) for data in self.vectors)
        return [(numbers_in(answer[:4])[0], given[8:]) for operation, given, answer in made if operation == KEY]

    def key_somewhere(self, numbers, text):
        """In a room by chance: mostly exactly enough or a little more, now and then a byte less."""
        _, key = self.keyed(text)
        length = len(text) if key is None else len(key)
        room = length + numbers.pick([0, 0, 0, 0, 0, 1, 2, 5, -1, -1])
        self.key(min(max(room, 0), MOST_ROOM), numbers.pick(FILLS), text)

    def shebang(self, text):
        answer = self.refusal(0, text)
        if answer is None:
            words = self.ask("shebang", text.hex())
            answer = numbers_of(0, 0 if words == ["none"] else int(words[0], 16), 0)
        self.add(SHEBANG, text, answer)

    def raw(self, prefix, text):
        answer = self.refusal(0, text)
        if answer is None and not raw_prefix_is_good(prefix, text):
            answer = numbers_of(8, 0, 0)
        if answer is None:
            answer = raw_answer(*self.ask("raw", f"{prefix:x}", text.hex()))
        self.add(RAW, numbers_of(prefix) + text, answer)

    def guarded(self, position, text):
        answer = self.refusal(2, text, position)
        if answer is None:
            answer = guarded_answer(position, text, *self.ask("guarded", f"{position:x}", text.hex()))
        self.add(GUARDED, numbers_of(position) + text, answer)

    def requests(self, asked, operation=TOKENS):
        """The same from requests as common/texts.py makes them."""
        for line in asked:
            name, *words = line.split()
            if name == "shebang":
                self.shebang(bytes.fromhex("".join(words)))
                continue
            text = bytes.fromhex("".join(words[1:]))
            if name == "tokens":
                self.tokens(MODES.index(words[0]), text, operation)
            elif name == "raw":
                self.raw(int(words[0], 16), text)
            elif name == "guarded":
                self.guarded(int(words[0], 16), text)
            else:
                fail(f"no such request: {line[:80]}")


def raw_answer(name, *words):
    if name == "ok":
        return numbers_of(0, 0, 0, 0, 0, 0)
    if name == "InvalidStarter":
        return numbers_of(0, 1, int(words[0], 16), 0, 0, 0)
    if name == "NoTerminator":
        expected, found = int(words[0], 16), int(words[1], 16)
        offset = (0, 0) if words[2] == "none" else (1, int(words[2], 16))
        return numbers_of(0, 2, expected, found, *offset)
    if name == "TooManyDelimiters":
        return numbers_of(0, 3, int(words[0], 16), 0, 0, 0)
    fail(f"no such raw error: {name}")


def guarded_answer(position, text, name, *words):
    stands = int(words[-1], 16)
    if name == "none":
        rest = text[position:]
        if stands != position + len(rest) - len(rest.lstrip(b"#")):
            fail("the cursor does not stand after the hashes")
        return numbers_of(0, 0, 0, 0, 0, stands)
    hashes, terminated, length = int(words[0], 16), truth(words[1]), int(words[2], 16)
    if stands != position + length:
        fail("a guarded string ends elsewhere than its length says")
    return numbers_of(0, 1, hashes, terminated, length, stands)
