"""One job: read off the cells of its row, and written as the 136 bytes of an orbit record."""
import re
from struct import pack
from typing import NamedTuple, Optional
from unicodedata import category

from desk import columns, utc

NUMBER = re.compile(r"[+-]?(?:(?:\d+\.?\d*|\.\d+)(?:[eE][+-]?\d+)?|nan|inf|infinity)", re.ASCII | re.IGNORECASE)
WHOLE = re.compile(r"\d{1,30}", re.ASCII)
U32, U64 = 2**32 - 1, 2**64 - 1


class Job(NamedTuple):
    line: int
    number: int
    name: str
    epoch: Optional[int]  # as utc counts
    fields: tuple
    start: int
    end: int
    step: int
    question: str

    def record(self):
        question = columns.QUESTIONS[self.question]
        return pack("<II13dQQII", self.number, 0, *self.fields, self.start, self.end, self.step, question)


def number(text):
    """The binary64 number nearest to a decimal text. A NaN or an infinity is a number too, which the program refuses by its field."""
    if not NUMBER.fullmatch(text):
        raise ValueError("a number such as 0.5 or 1.5e3")
    return float(text)


def whole(text, most, least=0):
    """A whole number, no more than its place in the record can hold."""
    if not WHOLE.fullmatch(text) or not least <= int(text) <= most:
        raise ValueError(f"a whole number from {least} to {most:,}")
    return int(text)


def time(text, epoch):
    """Milliseconds from the epoch, given as such or as an instant."""
    if WHOLE.fullmatch(text):
        return whole(text, U64)
    if epoch is None:
        raise ValueError("whole milliseconds from the epoch (or a UTC instant, where the column epoch has one)")
    try:
        ms = utc.read(text) - epoch
    except ValueError as error:
        raise ValueError(f"whole milliseconds from the epoch, or {error}") from None
    if ms < 0:
        raise ValueError(f"an instant not before the epoch, {utc.shown(epoch)}")
    return ms


def question(text):
    if text not in columns.QUESTIONS:
        raise ValueError(columns.QUESTION.accepted)
    return text


def name(text):
    """A text that can be shown in a line; blanks of any width may be in it."""
    if not all(sign.isprintable() or category(sign) == "Zs" for sign in text):
        raise ValueError("a line of printable UTF-8 text")
    return text


class Row:
    """The cells of a row by their columns' names, each with its line; what is not as expected is told, all of it."""

    def __init__(self, line, cells, complain):
        self.line, self.cells, self.complain, self.good = line, cells, complain, True

    def get(self, column, read, *more):
        line, text = self.cells.get(column.name, (self.line, ""))
        try:
            return read(text, *more)
        except ValueError as error:
            self.good = False
            self.complain(line, column.name, str(error), text)
            return None

    def optional(self, column, read):
        return self.get(column, read) if self.cells.get(column.name, (0, ""))[1] else None

    def job(self):
        """The job, or none."""
        epoch = self.optional(columns.EPOCH, utc.read)
        since = epoch if self.good else 0  # an epoch that cannot be read is told once
        job = Job(
            line=self.line,
            number=self.get(columns.JOB, whole, U32),
            name=self.optional(columns.NAME, name) or "",
            epoch=epoch,
            fields=tuple([self.get(column, number) for column in columns.FIELDS]),
            start=self.get(columns.START, time, since),
            end=self.get(columns.END, time, since),
            step=self.get(columns.STEP, whole, U32),
            question=self.get(columns.QUESTION, question),
        )
        return job if self.good else None
