"""The key of a text by the words of the scope paper, from the tokens that the oracle reads in it.

Trivia are whitespace and the comments whose doc style is none. Broken are the literals that
are not terminated or have no hash count, and every block comment that is not terminated. A key
is the text with each longest run of trivia, at the ends too, as one newline byte.

The text is here the lent one with each CR LF replaced by LF (document 02, W3): the oracle reads the
replaced text, and the place of a broken token is one in it. A text that has CR CR LF has no key: what
is left of it, CR LF, would be replaced by a second keying.

Nor has a text with one of the nine marks that change the direction of what a reader sees (document 02, W6),
wherever it stands, in a comment or a string too. Their places are those in the lent text.
"""

import itertools
import re

from common.ending import fail

# The hidden direction marks: the embeddings, their end and the overrides, then the isolates and their end.
HIDDEN = "\u202a\u202b\u202c\u202d\u202e\u2066\u2067\u2068\u2069"
HIDDEN_BYTES = re.compile(rb"\xe2(\x80[\xaa-\xae]|\x81[\xa6-\xa9])")


def replaced(text):
    """The text with each CR LF as LF, from the left, each byte used once."""
    found = text.replace(b"\r\n", b"\n")
    # A second witness: a CR is left out where LF follows directly, and every other byte stays.
    kept = bytearray()
    for at, byte in enumerate(text):
        if byte != 0x0D or text[at + 1 : at + 2] != b"\n":
            kept.append(byte)
    if found != kept:
        fail(f"two ways of replacing CR LF differ: {text.hex()}")
    return found


def with_cr_lf(text):
    """The same text as another machine checks it out: CR before each LF that has none."""
    return re.sub(rb"(?<!\r)\n", b"\r\n", text)


def first_doubled(text):
    """The place of the first CR CR LF in a lent text, or None."""
    place = text.find(b"\r\r\n")
    return None if place < 0 else place


def first_hidden(text):
    """The place of the first hidden direction mark in a lent text that is UTF-8, or None."""
    found, place = None, 0
    for character in text.decode("utf-8"):
        if character in HIDDEN:
            found = place
            break
        place += len(character.encode("utf-8"))
    # A second witness: the bytes of the marks, wherever they stand.
    seen = HIDDEN_BYTES.search(text)
    if found != (None if seen is None else seen.start()):
        fail(f"two ways of finding a hidden direction mark differ: {text.hex()}")
    return found


class Piece:
    """A token as the oracle writes it: its kind, what the kind holds, where it stands and its bytes."""

    def __init__(self, text, start, word):
        self.kind, *self.holds, length = word.split(",")
        self.start = start
        self.bytes = text[start : start + int(length, 16)]


def pieces(text, words):
    """The tokens of a text, Eof not among them: together they are the text."""
    found = []
    start = 0
    for word in words:
        piece = Piece(text, start, word)
        start += len(piece.bytes)
        found.append(piece)
    if b"".join(piece.bytes for piece in found) != text:
        fail(f"the tokens are not the text: {text.hex()}")
    return found


def is_trivia(piece):
    if piece.kind in ("LineComment", "BlockComment"):
        return piece.holds[0] == "none"
    return piece.kind == "Whitespace"


def is_broken(piece):
    if piece.kind == "BlockComment":
        return piece.holds[1] == "false"
    if piece.kind != "Literal" or piece.holds[0] in ("Int", "Float"):
        return False
    return piece.holds[1] == ("none" if piece.holds[0].startswith("Raw") else "false")


def first_broken(found):
    """The place of the first broken token, or None."""
    return next((piece.start for piece in found if is_broken(piece)), None)


def key_of(found):
    key = b""
    for trivia, run in itertools.groupby(found, is_trivia):
        key += b"\n" if trivia else b"".join(piece.bytes for piece in run)
    return key
