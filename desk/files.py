"""Job files, as CSV or as JSON, read as they come: a few rows are held at a time, however long the file is.

A row that cannot be read is told, by its line and column, and left out; the others are read. Where it is not clear any more what belongs to which row, reading ends there.
"""
import os

from desk.jobs import Row
from desk.rows_csv import csv_rows
from desk.rows_json import json_rows

FORMS = {"csv": csv_rows, "json": json_rows}


class JobFile:
    """A file of jobs, or standard input for "-". What cannot be read is said by say."""

    def __init__(self, path, form, say):
        self.path, self.say, self.unreadable = path, say, 0
        self.form = form or os.path.splitext(path)[1].lstrip(".").lower()
        if self.form not in FORMS:
            raise OSError(0, f"--input {' or --input '.join(FORMS)} is expected, since the name does not tell what it is", path)
        # A byte that is no UTF-8 becomes a character that no cell may have, and is told with its line.
        source, own = (0, False) if path == "-" else (path, True)
        self.text = open(source, encoding="utf-8-sig", errors="surrogateescape", newline="", closefd=own)
        self.size = os.fstat(self.text.fileno()).st_size

    def complain(self, line, column, expected, found=None):
        """Tells what is expected, and counts it."""
        self.unreadable += 1
        named = column if column is None or column.isprintable() else repr(column)
        place = f"{self.path}, line {line}" + (f", {named[:60]}" if named else "")
        instead = "" if found is None else f"; found {found[:60]!r}" if found else "; found nothing"
        self.say(f"{place}: expected {expected}{instead}")

    def jobs(self):
        try:
            with self.text:
                for line, cells in FORMS[self.form](self.text, self.complain):
                    job = Row(line, cells, self.complain).job()
                    if job:
                        yield job
        except OSError as error:
            raise OSError(error.errno, error.strerror, self.path) from None

    def part_read(self):
        """How much of the file has been read, 0 to 1; none where its size is not known."""
        if not self.size:
            return None
        return 1 if self.text.closed else min(1, os.lseek(self.text.fileno(), 0, os.SEEK_CUR) / self.size)
