#!/usr/bin/env python3
"""The orbits that the source reports work out, at twelve instants each: as orbit records, and what the rules give there.

Usage: instants.py records > FILE    the three orbit records, 136 bytes each
       instants.py lines             one line an instant: job t X Y d hidden|seen up|down

Jobs 1 and 2 are report 000's Venus orbits (appendix C, β = 50 and β = 60) with the Earth as the far body; their station fields are zero.
Job 3 is report 002's example, an orbit of Mars seen from Goldstone; Greenwich's right ascension at the epoch, 335, is ours.

A record's window has the twelve instants: t = t0 + k·step, k = 0 .. 11, and t1 is the last. They are counted from a periapsis passage,
a whole number of periods (in ms) after the epoch, and chosen so that each job has instants hidden and not, up and not, and d of both signs:

- Job 1: the report prints that the Earth is hidden from −10.97 to 11.99 minutes. k = 3 and 6 are 0.4 and 0.5 s inside of that.
- Job 2: printed −13.42 to 11.96 minutes; k = 3 and 6 are 0.7 and 0.5 s outside. The planet rises while the craft is hidden.
- Job 3: no times are printed. The planet sets while the craft is hidden.

A line is derived by tools/model.py: the record's bytes are read, its floats become whole numbers, and at t come M, E, X and Y (metres in
the plane of the orbit), d (metres toward the far body, so that below 0 the craft is behind the planet), hidden, and up.
"""
import sys
from struct import pack

import model

INSTANTS = 12

VENUS = 23545.578967, 6085.0, 245.574420, -0.326443962, 0.0, 0.0, 0.0, 0.0
MARS = 66983.119263, 3393.4, 180.0, 0.0, 35.24, 243.11, 335.0, 5.0

# job, question, fields 1 to 13, the passages since the epoch, the first instant from there and the step, in ms
JOBS = [
    (1, 1, (16585.0, 0.572806753, 50.0, 27.6239274, 24.4588570, *VENUS), 7, -2_034_500, 458_900),
    (2, 1, (16585.0, 0.572806753, 60.0, 50.7500715, 11.0217390, *VENUS), 40, -2_329_900, 508_000),
    (3, 2, (16967.0, 0.5, 5.0, 5.0, 45.0, *MARS), 33, -7_200_000, 1_000_000),
]


def record(job, question, fields, passages, first, step):
    def window(t0, t1):
        return pack("<II13dQQII", job, 0, *fields, t0, t1, step, question)

    t0 = passages * model.orbit(window(0, 1)).p + first
    return window(t0, t0 + (INSTANTS - 1) * step)


def lines(orbit_record):
    r, o = model.read(orbit_record), model.orbit(orbit_record)
    for t in range(r.t0, r.t1 + 1, r.step):
        i = model.at(o, t)
        yield f"{r.job} {t} {i.X} {i.Y} {i.d} {'hidden' if i.hidden else 'seen'} {'up' if i.up else 'down'}"


def main(what):
    for job in JOBS:
        if what == "records":
            sys.stdout.buffer.write(record(*job))
        elif what == "lines":
            print("\n".join(lines(record(*job))))
        else:
            sys.exit(__doc__)


if __name__ == "__main__":
    main(sys.argv[1] if len(sys.argv) == 2 else "")
