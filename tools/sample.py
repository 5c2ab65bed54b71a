#!/usr/bin/env python3
"""Makes the orbit record of a sample from its column in the table of samples/README.md.

Usage: sample.py NAME > samples/NAME.record
The rows are the job number, fields 1 to 13, the window's start and end, the step and the question, as they follow each other in the record.
"""
import sys

import driven


def table():
    """The table's columns: a name and the eighteen numbers as they are written."""
    page = (driven.ROOT / "samples" / "README.md").read_text(encoding="utf-8")
    rows = [line.strip("|").split("|")[1:] for line in page.splitlines() if line.startswith("|") and not line.startswith("|---")]
    return {name.strip(): [cell.strip() for cell in column] for name, *column in zip(*rows)}


def plain(number):
    """A number without the page's commas, and with a minus that programs know."""
    return number.replace(",", "").replace("−", "-")


def record(column):
    job, *fields, t0, t1, step, question = map(plain, column)
    return driven.record(int(job), map(float, fields), int(t0), int(t1), int(step), int(question))


if __name__ == "__main__":
    columns = table()
    if len(sys.argv) != 2 or sys.argv[1] not in columns:
        sys.exit(f"{__doc__}NAME is one of: {', '.join(columns)}")
    sys.stdout.buffer.write(record(columns[sys.argv[1]]))
