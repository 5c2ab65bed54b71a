"""What the tests that drive the programs share: an orbit record by plain numbers, a program that is fed and read, and the count that a test ends with.

No wait is without a limit: a program that stands still for so long is a failure, and ends the test.
"""
import queue
import select
import subprocess
import sys
import threading
from pathlib import Path
from struct import pack

ROOT = Path(__file__).resolve().parent.parent
LIMIT = 60  # seconds, for what should never happen
MOST = 2**24  # bytes, more than any test expects


def record(job, fields, t0, t1, step, question, word=0):
    return pack("<II13dQQII", job, word, *fields, t0, t1, step, question)


class Program(subprocess.Popen):
    """A program with pipes, but for the streams that are given. It is fed while the test goes on."""

    def __init__(self, name, **streams):
        pipes = dict.fromkeys(("stdin", "stdout", "stderr"), subprocess.PIPE)
        super().__init__([str(ROOT / "tools" / "run"), name], bufsize=0, **{**pipes, **streams})
        self.pieces = queue.SimpleQueue()
        if self.stdin:
            threading.Thread(target=self.write, daemon=True).start()

    def write(self):
        """Writes the pieces as they come, up to an empty one or to the program's end."""
        try:
            for piece in iter(self.pieces.get, b""):
                while piece:
                    piece = piece[self.stdin.write(piece) :]
            self.stdin.close()
        except BrokenPipeError:
            pass

    def feed(self, *pieces):
        """Pieces for the input; an empty one is its end."""
        for piece in pieces:
            self.pieces.put(piece)

    def taken(self, stream, length):
        """The next bytes of a stream: so many, or fewer where the program ends it."""
        output = bytearray()
        while len(output) < length:
            if not select.select([stream], [], [], LIMIT)[0]:
                self.standstill()
            more = stream.read(length - len(output))
            if not more:
                break
            output += more
        return bytes(output)

    def answers(self, length):
        """The next bytes that the program writes."""
        return self.taken(self.stdout, length) if self.stdout else b""

    def said(self):
        """What the program says until it ends."""
        said = self.taken(self.stderr, MOST)
        try:
            self.wait(LIMIT)
        except subprocess.TimeoutExpired:
            self.standstill()
        return said

    def rest(self):
        """What the program still writes, and what it says, once its input has ended."""
        self.feed(b"")
        return self.answers(MOST), self.said()

    def standstill(self):
        self.kill()
        count.check(f"the program stands still, or does not end, in the test after: {count.last}", False)
        count.end()


def run(name, given):
    """What a program writes for its whole input. It says nothing on standard error."""
    program = Program(name)
    program.feed(given)
    output, said = program.rest()
    return output if program.returncode == 0 and not said else None


def lists(records):
    return run("lists", records)


def totals(records):
    return run("totals", records)


class Count:
    def __init__(self):
        self.passed = self.failed = 0
        self.last = "none"

    def check(self, name, holds):
        self.last = name
        if holds:
            self.passed += 1
        else:
            self.failed += 1
            print(f"failed: {name}")

    def end(self):
        print(f"{self.passed} passed, {self.failed} failed")
        sys.exit(self.failed > 0)


count = Count()
