"""The file of lists by the words of request W1: a reader and a writer.

The first line is `unicode` and three decimal numbers, 0 to 65,535. Then a record a line: `start`,
`continue` or `emoji`, grouped in this order, low and high, hexadecimal in lower case, at most six digits.
Fields are parted by one tab, no number has leading zeros, every line ends with LF. The first bad line
is refusal 9; then come the rules of a list (3), then too little room (7).
"""

import os
import re
import subprocess
import sys

from common.ending import fail
from common.lists import LIST_NAMES, MAX_PAIRS, bad_index

TOOLS = os.path.dirname(os.path.dirname(os.path.abspath(__file__)))
LINE = re.compile(rb"[^\n]*\n|[^\n]+")
FIRST = re.compile(rb"unicode\t(0|[1-9][0-9]{0,4})\t(0|[1-9][0-9]{0,4})\t(0|[1-9][0-9]{0,4})\n")
RECORD = re.compile(rb"(start|continue|emoji)\t(0|[1-9a-f][0-9a-f]{0,5})\t(0|[1-9a-f][0-9a-f]{0,5})\n")
# The greatest number of a version. Of the tools this one alone has it.
MAX_VERSION = 65535
# Room for any good lists.
ENOUGH = (2 * MAX_PAIRS,) * 3


def version_in(line):
    """The version that a first line names, or None for a bad line."""
    found = FIRST.fullmatch(line)
    version = found and tuple(int(number) for number in found.groups())
    return version if version and max(version) <= MAX_VERSION else None


def first_flaw(lists):
    """List and pair index beside refusal 3, or None for good lists."""
    flaws = ((which, bad_index(numbers)) for which, numbers in enumerate(lists))
    return next((flaw for flaw in flaws if flaw[1] is not None), None)


def read_file(data, rooms):
    """Refusal or 0, the numbers beside it, version and lists; rooms is how many numbers each list may have."""
    lines = LINE.findall(data) or [b""]
    version = version_in(lines[0])
    if version is None:
        return 9, 0, 0, None, None
    lists = ([], [], [])
    group = 0
    for at, line in enumerate(lines[1:], 1):
        found = RECORD.fullmatch(line)
        which = LIST_NAMES.index(found[1].decode("ascii")) if found else -1
        if which < group:
            return 9, at, 0, None, None
        group = which
        lists[which].extend((int(found[2], 16), int(found[3], 16)))
    flaw = first_flaw(lists)
    if flaw is not None:
        return 3, *flaw, None, None
    for which, numbers in enumerate(lists):
        if len(numbers) > rooms[which]:
            return 7, which, len(numbers), None, None
    return 0, 0, 0, version, lists


def write_file(version, lists, room):
    """Refusal or 0, the numbers beside it, and the file; room is how many bytes it may have."""
    flaw = first_flaw(lists)
    if flaw is not None:
        return 3, *flaw, None
    lines = ["\t".join(["unicode", *map(str, version)])]
    for name, numbers in zip(LIST_NAMES, lists):
        lines += [f"{name}\t{low:x}\t{high:x}" for low, high in zip(numbers[::2], numbers[1::2])]
    data = "".join(line + "\n" for line in lines).encode("ascii")
    return (7, len(data), 0, None) if len(data) > room else (0, len(data), 0, data)


def real_file(arguments):
    """The file of Unicode's lists, as tools/unicode-lists prints it; it says itself what is missing."""
    command = [sys.executable, os.path.join(TOOLS, "unicode-lists")] + arguments
    done = subprocess.run(command, stdout=subprocess.PIPE)
    if done.returncode != 0:
        fail("there are no Unicode lists to work with")
    return done.stdout


def lists_in(data):
    """The lists of a file that has to be good."""
    *refusal, _, lists = read_file(data, ENOUGH)
    if lists is None:
        fail(f"a file of lists is refused: {refusal}")
    return lists


def read_real(arguments):
    """Unicode's lists."""
    return lists_in(real_file(arguments))
