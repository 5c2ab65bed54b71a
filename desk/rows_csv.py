"""The rows of a CSV file. The first line has the columns' names, in any order."""
import csv

from desk.columns import KNOWN, NAMES, NEEDED, ONCE

LONGEST = 65_536  # characters of a line


def lines(text):
    """The lines of a text; one that never ends is not waited for."""
    for line in iter(lambda: text.readline(LONGEST), ""):
        if len(line) == LONGEST:
            raise csv.Error("the line is too long")
        yield line


def csv_rows(text, complain):
    """The rows below the header: their line, and their cells by column. Empty rows are passed over."""
    reader, line = csv.reader(lines(text), strict=True), 1
    try:
        names = [name.strip() for name in next(reader, [])]
        if not is_header(names, complain):
            return
        line = reader.line_num + 1
        for cells in reader:
            if any(map(str.strip, cells)) and as_long(line, cells, names, complain):
                yield line, {name: (line, cell.strip()) for name, cell in zip(names, cells)}
            line = reader.line_num + 1
    except csv.Error as error:
        complain(line, None, f"a row of CSV, with commas and perhaps double quotes ({error})")


def is_header(names, complain):
    """Whether each column is there once, and no other. All that is wrong is told."""
    wrong = [(name, ONCE if name in NAMES else KNOWN) for name in dict.fromkeys(names) if name not in NAMES or names.count(name) > 1]
    wrong += [(name, "this column in the header") for name in NEEDED if name not in names]
    if len(wrong) >= len(NEEDED):
        wrong = [(None, f"a header with the columns {', '.join(NEEDED)}")]
    for name, expected in wrong:
        complain(1, name, expected, "" if name == "" else None)
    return not wrong


def as_long(line, cells, names, complain):
    """Whether a row is as long as the header. The first column without a cell is told."""
    if len(cells) != len(names):
        column = names[len(cells)] if len(cells) < len(names) else None
        complain(line, column, f"a row of {len(names)} cells, as in the header", f"{len(cells)} cells")
    return len(cells) == len(names)
