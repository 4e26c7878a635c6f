"""The files of vectors: tools/oracle/README.md has their format."""

import os
import struct
import sys

from common.ending import fail
from common.lists_file import MAX_VERSION

FILE_LIMIT = 262144
# The bytes of a token in an answer of operations 10 and 14, and of a record in one of operation 15: five numbers.
TOKEN_SIZE = 20
ANSWER_LIMIT = 4096 * TOKEN_SIZE

VERDICT, VERDICT_AFTER, WHITESPACE, HORIZONTAL, START, CONTINUE, EMOJI, IDENT = range(1, 9)
ONE, TOKENS, SHEBANG, RAW, GUARDED, TOKENS_ONCE, LIST, SLOTS, KEY = range(9, 18)
READ_LISTS, WRITE_LISTS = 18, 19
# The records that operation 15 lends, and the most bytes that operation 17 does.
RECORDS = 64
MOST_ROOM = 4096
# The most numbers that operation 18 lends for a list, and the most bytes that operation 19 does.
MOST_NUMBERS = 20000
MOST_BYTES = 262000
CLASS_NAMES = {
    WHITESPACE: "whitespace",
    HORIZONTAL: "horizontal",
    START: "start",
    CONTINUE: "continue",
    EMOJI: "emoji",
}


def numbers_of(*numbers):
    return struct.pack(f"<{len(numbers)}I", *numbers)


def numbers_in(data):
    return struct.unpack(f"<{len(data) // 4}I", data)


def vector(operation, handed_in, answer):
    return numbers_of(operation, len(handed_in)) + handed_in + numbers_of(len(answer)) + answer


def section(lists, vectors):
    head = b"".join(numbers_of(len(numbers), *numbers) for numbers in lists)
    return head + numbers_of(len(vectors)) + b"".join(vectors)


# Operations from ONE on: the least bytes handed in, and the bytes of an answer that is no refusal.
SIZES = {ONE: (8, 32), SHEBANG: (0, 12), RAW: (4, 24), GUARDED: (4, 24), SLOTS: (8, 12)}


def of_the_format(operation, given, answer):
    """Whether an operation takes the bytes that are given, and answers with that many."""
    handed_in = len(given)
    if operation == KEY:
        if handed_in < 8:
            return False
        room, fill = numbers_in(given[:8])
        return room <= MOST_ROOM and fill <= 255 and answer == 12 + room
    if operation == READ_LISTS:
        if handed_in < 12:
            return False
        rooms = numbers_in(given[:12])
        return max(rooms) <= MOST_NUMBERS and answer == 36 + 4 * sum(rooms)
    if operation == WRITE_LISTS:
        if handed_in != 20:
            return False
        *version, room, fill = numbers_in(given)
        return max(version) <= MAX_VERSION and room <= MOST_BYTES and fill <= 255 and answer == 12 + room
    if operation == VERDICT_AFTER:
        return handed_in <= 8 and answer == 256
    if operation in CLASS_NAMES:
        return handed_in == 8 and answer == 12
    if operation in (VERDICT, IDENT):
        return answer == 12
    if operation in (TOKENS, TOKENS_ONCE):
        whole = answer % TOKEN_SIZE == 0 and 0 < answer <= ANSWER_LIMIT
        return handed_in >= 4 and (whole or answer == 12)
    if operation == LIST:
        return handed_in >= 4 and answer == 12 + TOKEN_SIZE * RECORDS
    if operation in SIZES:
        least, size = SIZES[operation]
        return handed_in >= least and answer in (12, size)
    return False


def read_back(data):
    """Reads a file by the written format alone; gives the count of its vectors."""
    at = 0
    total = 0

    def number():
        nonlocal at
        if at + 4 > len(data):
            fail("a file ends too early")
        at += 4
        return data[at - 4] + 256 * data[at - 3] + 65536 * data[at - 2] + 16777216 * data[at - 1]

    while at < len(data):
        for _ in range(3):
            length = number()
            at += 4 * length
        count = number()
        for _ in range(count):
            operation = number()
            length = number()
            given = data[at : at + length]
            at += length
            answer = number()
            at += answer
            if not of_the_format(operation, given, answer):
                fail("a vector is not of the format")
        total += count
    if at != len(data):
        fail("a file does not end where its last section ends")
    return total


def vector_at(data, at):
    """Operation, what is handed in and the answer of the vector at a place of a file."""
    operation, length = struct.unpack_from("<2I", data, at)
    start = at + 8
    (size,) = struct.unpack_from("<I", data, start + length)
    return operation, data[start : start + length], data[start + length + 4 : start + length + 4 + size]


def write_files(folder, files, quiet=False):
    """Writes each file and reads it back; gives the lines that the replay has to print."""
    os.makedirs(folder, exist_ok=True)
    lines = []
    total = 0
    size = 0
    for name, sections in files.items():
        data = b"".join(sections)
        if len(data) > FILE_LIMIT:
            fail(f"{name} is too long: {len(data)} bytes")
        with open(os.path.join(folder, name), "wb") as file:
            file.write(data)
        with open(os.path.join(folder, name), "rb") as file:
            count = read_back(file.read())
        if count == 0:
            fail(f"{name} has no vector")
        if not quiet:
            print(f"{name}: {len(data)} bytes, {count} vectors", file=sys.stderr)
        lines.append(f"{name}: {count} agree, 0 differ\n")
        total += count
        size += len(data)
    if not quiet:
        print(f"in all: {size} bytes, {total} vectors", file=sys.stderr)
    return lines + [f"in all: {total} agree, 0 differ\n"]
