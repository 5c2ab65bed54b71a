"""The proved program `lists`: fed with records, its answers read, by several processes side by side if wanted, and in the jobs' order."""
import subprocess
import threading
from collections import deque, namedtuple
from concurrent.futures import ThreadPoolExecutor
from itertools import islice
from pathlib import Path
from struct import unpack

LISTS = Path(__file__).resolve().parent.parent / "bin" / "lists"
# 30 records have 4,080 bytes, which any pipe takes at once: so they can be written before their answers are read, and neither side waits for the other.
BATCH = 30
DONE, REFUSED = 512, 256
# A record of ours is whole, has its zeros and a question, and the program has room for any list; so the other refusals cannot come.
REFUSALS = range(3, 8)

Interval = namedtuple("Interval", "flags first last")
Listed = namedtuple("Listed", "intervals asked")
Refused = namedtuple("Refused", "number field")


class Failed(Exception):
    """The program did not answer, or not as it should."""


class Program:
    """One process of the program. What it says, as while it is built, goes to standard error."""

    def __init__(self):
        try:
            self.process = subprocess.Popen([LISTS], stdin=subprocess.PIPE, stdout=subprocess.PIPE)
        except OSError as error:
            raise Failed(f"bin/lists cannot be run: {error.strerror}") from None

    def answers(self, jobs):
        """The answers to a batch."""
        try:
            self.process.stdin.write(b"".join(job.record() for job in jobs))
            self.process.stdin.flush()
        except BrokenPipeError:
            pass  # it ended, and so do its answers
        return [answer(self.process.stdout, job.number) for job in jobs]

    def end(self):
        try:
            self.process.stdin.close()
        except BrokenPipeError:
            pass
        self.process.stdout.close()
        self.process.wait()


def answer(stream, job):
    """The next answer of a stream: intervals, and the closing record."""
    intervals = []
    while True:
        record = stream.read(24)
        if len(record) < 24:
            raise Failed("bin/lists ended before it had answered every job")
        number, flags, first, last = unpack("<IIQQ", record)
        if number != job:
            raise Failed(f"bin/lists answered job {number} where job {job} was asked")
        if flags < REFUSED:
            intervals.append(Interval(flags, first, last))
        elif flags == DONE and first == len(intervals):
            return Listed(intervals, last)
        elif flags - REFUSED in REFUSALS and not intervals:
            return Refused(flags - REFUSED, first)
        else:
            raise Failed(f"bin/lists answered job {job} with flags {flags}, which have no meaning here")


def answered(jobs, processes):
    """Each job with its answer, in order. A process is started when there is a batch for it, and at most two batches are under way for each."""
    own, started, jobs = threading.local(), [], iter(jobs)

    def ask(batch):
        if not hasattr(own, "program"):
            own.program = Program()
            started.append(own.program)
        return own.program.answers(batch)

    under_way = deque()
    with ThreadPoolExecutor(processes) as pool:
        try:
            for batch in iter(lambda: list(islice(jobs, BATCH)), []):
                under_way.append((batch, pool.submit(ask, batch)))
                if len(under_way) == 2 * processes:
                    yield from next_of(under_way)
            while under_way:
                yield from next_of(under_way)
        finally:
            pool.shutdown(cancel_futures=True)
            for program in started:
                program.end()


def next_of(under_way):
    batch, answers = under_way.popleft()
    return zip(batch, answers.result())
