"""The oracle of tools/oracle, asked from Python."""

import subprocess

from common.ending import fail
from common.lists import LIST_NAMES, bad_index
from common.packing import CLASS_NAMES, START

# Why bytes are no character, as Python's decoder says it.
REASONS = {"invalid start byte": 1, "unexpected end of data": 2, "invalid continuation byte": 3}


class Oracle:
    def __init__(self, program):
        try:
            self.process = subprocess.Popen(
                [program], stdin=subprocess.PIPE, stdout=subprocess.PIPE, text=True, encoding="ascii"
            )
        except OSError as error:
            fail(f"the oracle {program} cannot be run: {error.strerror}. tools/oracle/build LIB_RS OUT_DIR makes it, as OUT_DIR/oracle")
        self.program = program
        self.lent = {}
        self.known_runs = {}

    def ask(self, request):
        try:
            self.process.stdin.write(request + "\n")
            self.process.stdin.flush()
            answer = self.process.stdout.readline().rstrip("\n")
        except BrokenPipeError:
            answer = ""
        if not answer:
            fail(f"the oracle {self.program} gives no answer to {request[:80]}")
        if answer.startswith("error"):
            fail(f"the oracle {self.program} says to {request[:80]}: {answer}")
        return answer

    def lend(self, which, numbers):
        numbers = tuple(numbers)
        if self.lent.get(which) != numbers:
            if bad_index(numbers) is not None:
                fail("the oracle is lent good lists only")
            words = " ".join(f"{number:x}" for number in numbers)
            self.ask(f"list {LIST_NAMES[which]} {words}")
            self.lent[which] = numbers

    def verdict(self, text):
        """None for well-formed, else the place and the cause."""
        words = self.ask(f"utf8 {text.hex()}").split()
        ill = None if words[0] == "good" else (int(words[1], 16), int(words[2]))
        # A second witness: Python's decoder gives the same place and cause.
        try:
            text.decode("utf-8")
            seen = None
        except UnicodeDecodeError as error:
            seen = (error.start, REASONS[error.reason])
        if seen != ill:
            fail(f"two decoders differ on {text.hex()}: {ill} and {seen}")
        return ill

    def verdict_after(self, prefix):
        return bytes(int(word, 16) for word in self.ask(f"utf8-after {prefix.hex()}").split())

    def in_class(self, operation, point):
        return self.ask(f"class {CLASS_NAMES[operation]} {point:x}") == "yes"

    def runs(self, operation, numbers):
        """(low, high, yes) over all scalar values; the list must be good."""
        key = (operation, tuple(numbers))
        if key not in self.known_runs:
            if operation >= START:
                self.lend(operation - START, numbers)
            runs = []
            for word in self.ask(f"runs {CLASS_NAMES[operation]}").split():
                ends, answer = word.split("=")
                low, high = (int(end, 16) for end in ends.split("-"))
                runs.append((low, high, answer == "yes"))
            self.known_runs[key] = runs
        return self.known_runs[key]

    def ident(self, text):
        return self.ask(f"ident {text.hex()}") == "yes"
