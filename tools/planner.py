"""What the tests of bin/desk share: job 7 as a row, job files of rows, and a use of bin/desk."""
import csv
import io
import json
import subprocess

import driven
import sample

# In the order of the orbit record.
COLUMNS = (
    "job semimajor_axis_km eccentricity inclination_deg node_deg periapsis_argument_deg period_s planet_radius_km far_body_right_ascension_deg far_body_declination_deg station_latitude_deg"
    " station_east_longitude_deg greenwich_right_ascension_deg least_elevation_deg window_start window_end step_ms question"
).split()
TEXTS = {"question", "epoch", "name"}
# Document 01's worked job: hidden from 3,000,000 to 4,199,999, 53 instants asked.
JOB_7 = {**dict.fromkeys(COLUMNS, "0"), "job": "7", "semimajor_axis_km": "10000", "period_s": "7200", "planet_radius_km": "5000", "window_end": "7200000", "step_ms": "600000", "question": "hidden"}


def row(record_numbers):
    """A row of the numbers of a record, as driven.record takes them: job, fields, t0, t1, step, question."""
    job, fields, *window, question = record_numbers
    return dict(zip(COLUMNS, [str(job), *map(repr, fields), *map(str, window), {1: "hidden", 2: "visible"}[question]]))


def goldstone(**cells):
    """The sample's job for the dish at Goldstone, with other cells."""
    job, *fields, t0, t1, step, question = map(sample.plain, sample.table()["goldstone"])
    return {**row((int(job), map(float, fields), int(t0), int(t1), int(step), int(question))), "epoch": "2026-01-01T00:00:00Z", **cells}


def csv_of(*rows):
    """A CSV file with every column that a row has."""
    page = io.StringIO()
    writer = csv.DictWriter(page, dict.fromkeys(name for each in rows for name in each), "")
    writer.writeheader()
    writer.writerows(rows)
    return page.getvalue().encode()


def json_of(*rows):
    """A JSON file. Numbers are written as they are in the row, a number for a time too; NaN and the infinities as JavaScript names them."""
    words = {"nan": "NaN", "inf": "Infinity", "-inf": "-Infinity"}
    objects = []
    for each in rows:
        members = {name: json.dumps(text) if name in TEXTS or (name.startswith("window") and not text.isdigit()) else words.get(text, text) for name, text in each.items()}
        objects.append("{\n" + ",\n".join(f'  "{name}": {value}' for name, value in members.items()) + "\n}")
    return f"[{', '.join(objects)}]\n".encode()


def first_use():
    """Whether bin/lists answers. Where the sources have changed since it last did, it proves and builds first, with no limit of time, and says so; later uses say nothing."""
    return subprocess.run([driven.ROOT / "bin" / "lists"], stdin=subprocess.DEVNULL, capture_output=True).returncode == 0


def desk(*arguments, given=b"", root=driven.ROOT, **more):
    """A use of bin/desk, to its end: status, what it writes, and the lines that it says."""
    ended = subprocess.run([root / "bin" / "desk", *arguments], input=given, capture_output=True, timeout=driven.LIMIT, **more)
    return ended.returncode, ended.stdout, ended.stderr.decode().splitlines()


def desk_csv(command, *rows, more=()):
    """A use on rows as CSV, from standard input."""
    return desk(command, "-", "--input", "csv", *more, given=csv_of(*rows))
