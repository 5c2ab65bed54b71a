"""Document 01's rules in exact arithmetic: from an orbit record to what one instant answers, and from a program's input to its output.

One function for each rule, in document 01's order and letters, with what document 02's wish 1 adds to the flags, the station's turn of its wish 2, the totals of its wish 3 and the finer table of its wish 5.
It uses nothing of the crates, so that their numbers can be held against it; but it is no independent reading of document 01 (docs/DECISIONS.md,
"The stored output"). Whole numbers and fractions only, but for the closest distance, which document 01 wants in floats. // is Python's floor, toward
minus infinity.
`at(orbit(record), t)` is one instant of a record that document 01 accepts, `output(records)` what the program `lists` writes, and `totals(records)` what `totals` does.
"""
from collections import namedtuple
from fractions import Fraction
from functools import cache
from math import factorial, floor, isqrt
from struct import iter_unpack, pack, pack_into, unpack, unpack_from

ONE = 2**30
QUARTER = 2**30
TURN = 2**32
TEN_TURNS = 861_640_905  # of the station, in ms


def scaled(a, b):
    """a∘b; products of three are taken from the left."""
    return a * b // ONE


# ---- What the desk feeds

Record = namedtuple("Record", "job word fields t0 t1 step question")


def read(record):
    """The 136 bytes: the thirteen fields as the bits of binary64."""
    job, word, *fields, t0, t1, step, question = unpack("<II13QQQII", record)
    return Record(job, word, fields, t0, t1, step, question)


# ---- From floats to whole numbers

def exact(bits):
    """The exact value of a finite binary64: (−1)^sign · 1.digits · 2^(exponent − 1023), or without the 1 where the exponent is 0."""
    sign, exponent, digits = bits >> 63, bits >> 52 & 0x7FF, bits & (1 << 52) - 1
    if exponent == 0x7FF:
        raise ValueError("NaN or infinite")
    size = Fraction(digits, 2**52) + (exponent > 0)
    return (-1) ** sign * size * Fraction(2) ** (max(exponent, 1) - 1023)


def nearest(x):
    return floor(x + Fraction(1, 2))


def thousandths(x):
    """Lengths in km: nearest metre. Period in s: nearest ms."""
    return nearest(x * 1000)


def angle(x):
    """Degrees: a negative angle is its magnitude's units, negated modulo 2^32."""
    units = nearest(abs(x) * TURN / 360) % TURN
    return -units % TURN if x < 0 else units


Orbit = namedtuple("Orbit", "a e i Ω ω p R α δ latitude longitude greenwich elevation")


def orbit(record):
    """The whole numbers of the thirteen fields."""
    a, e, i, Ω, ω, p, R, *rest = map(exact, read(record).fields)
    return Orbit(thousandths(a), nearest(e * ONE), angle(i), angle(Ω), angle(ω), thousandths(p), thousandths(R), *map(angle, rest))


# ---- Sine

PI = Fraction(314159265358979323846, 10**20)
SEGMENTS = 4096


@cache
def entry(k, segments):
    """Entry k of the table with so many segments, and one entry more: 2^30 times the first twelve terms of the sine series at k·π/(2·segments)."""
    x = k * PI / (2 * segments)
    return nearest(ONE * sum((-1) ** n * x ** (2 * n + 1) / factorial(2 * n + 1) for n in range(12)))


def reading(g):
    if g == QUARTER:
        return entry(SEGMENTS, SEGMENTS)
    segment = QUARTER // SEGMENTS  # 2^18 units
    k, r = divmod(g, segment)
    low, high = entry(k, SEGMENTS), entry(k + 1, SEGMENTS)
    return low + (high - low) * r // segment


def sin(θ):
    j, f = divmod(θ, QUARTER)
    value = reading(f if j % 2 == 0 else QUARTER - f)
    return value if j < 2 else -value


def cos(θ):
    return sin((θ + QUARTER) % TURN)


# ---- Place in the orbit

def phase(p, t):
    """M; and the station's term, with TEN_TURNS for p and 10·t for t."""
    return t % p * TURN // p


def K(e, E):
    return E - scaled(e, sin(E % TURN)) * 683_565_276 // ONE


def eccentric(e, M):
    """E, by the search from 0 and 2^32."""
    low, high = 0, TURN
    while high - low > 1:
        middle = (low + high) // 2
        if K(e, middle) <= M:
            low = middle
        else:
            high = middle
    return low


def place(o, t):
    """X and Y."""
    E = eccentric(o.e, phase(o.p, t))
    q = isqrt(2**60 - o.e**2)
    return scaled(o.a, cos(E) - o.e), scaled(scaled(o.a, q), sin(E))


def direction(α, δ):
    return scaled(cos(δ), cos(α)), scaled(cos(δ), sin(α)), sin(δ)


def row_P(i, Ω, ω):
    return (
        scaled(cos(ω), cos(Ω)) - scaled(scaled(sin(ω), sin(Ω)), cos(i)),
        scaled(cos(ω), sin(Ω)) + scaled(scaled(sin(ω), cos(Ω)), cos(i)),
        scaled(sin(ω), sin(i)),
    )


def row_Q(i, Ω, ω):
    return (
        -scaled(sin(ω), cos(Ω)) - scaled(scaled(cos(ω), sin(Ω)), cos(i)),
        -scaled(sin(ω), sin(Ω)) + scaled(scaled(cos(ω), cos(Ω)), cos(i)),
        scaled(cos(ω), sin(i)),
    )


def dot(v, w):
    return sum(map(scaled, v, w))


# ---- Hidden and visible

def depth(o, X, Y):
    """d = X∘Ep + Y∘Eq."""
    E = direction(o.α, o.δ)
    Ep, Eq = dot(row_P(o.i, o.Ω, o.ω), E), dot(row_Q(o.i, o.Ω, o.ω), E)
    return scaled(X, Ep) + scaled(Y, Eq)


def hidden(R, X, Y, d):
    return d < 0 and X**2 + Y**2 - d**2 < R**2


def up(o, t):
    τ = (o.longitude + o.greenwich + phase(TEN_TURNS, 10 * t)) % TURN
    u = direction(τ, o.latitude)
    return -dot(u, direction(o.α, o.δ)) >= sin(o.elevation)


Instant = namedtuple("Instant", "X Y d hidden up")


def at(o, t):
    X, Y = place(o, t)
    d = depth(o, X, Y)
    return Instant(X, Y, d, hidden(o.R, X, Y, d), up(o, t))


def answer(o, question, t):
    """Question 1: hidden. Question 2: visible, which is up and not hidden."""
    i = at(o, t)
    return i.hidden if question == 1 else i.up and not i.hidden


# ---- Turned away

def within(low, high):
    return lambda x: low <= x <= high


def turn(x):
    return 0 <= x < 360


ACCEPTED = [
    within(100, 250_000),
    within(0, Fraction(95, 100)),
    within(0, 180),
    turn,
    turn,
    within(60, 2_000_000),
    within(1, 100_000),
    turn,
    within(-90, 90),
    within(-90, 90),
    turn,
    turn,
    within(0, 90),
]


def field_refusal(fields):
    """3 before 4 for each field, the fields in number order."""
    for k, (bits, accepted) in enumerate(zip(fields, ACCEPTED), 1):
        if bits >> 52 & 0x7FF == 0x7FF:
            return 3, k
        if not accepted(exact(bits)):
            return 4, k
    return None


def too_close(fields):
    """The closest distance is a × (1 − e), each operation rounded once: Python's floats are binary64. It must be greater than R."""
    a, e, R = (unpack("<d", pack("<Q", fields[k - 1]))[0] for k in (1, 2, 7))
    return not a * (1 - e) > R


def steps(t0, t1, step):
    return -((t0 - t1) // step)


def refusal(piece, room):
    """The first that applies: its number and field. None for a job that is taken."""
    if len(piece) != 136:
        return 1, 0
    r = read(piece)
    if r.word != 0:
        return 2, 0
    if refused := field_refusal(r.fields):
        return refused
    if too_close(r.fields):
        return 5, 0
    if r.t0 >= r.t1 or r.t1 > 2_678_400_000:
        return 6, 0
    if r.step == 0 or r.step > 1_048_576 or steps(r.t0, r.t1, r.step) > 4096:
        return 7, 0
    if r.question not in (1, 2):
        return 8, 0
    if room < 24 * -(-(steps(r.t0, r.t1, r.step) + 1) // 2):
        return 9, 0
    return None


# ---- The list

def samples(t0, t1, step):
    """t0, t0 + step, .., and t1 last."""
    return [*range(t0, t1, step), t1]


def change(yes, low, high):
    """The neighbours in a step whose ends differ, and the halvings that found them."""
    at_low, halvings = yes(low), 0
    while high - low > 1:
        middle = (low + high) // 2
        if yes(middle) == at_low:
            low = middle
        else:
            high = middle
        halvings += 1
    return low, high, halvings


def intervals(yes, t0, t1, step):
    """The list, and the instants asked: n + 1 samples and one per halving."""
    found, times = [], samples(t0, t1, step)
    answers = [yes(t) for t in times]
    asked = len(times)
    first = t0 if answers[0] else None
    for k in range(len(times) - 1):
        if answers[k] == answers[k + 1]:
            continue
        low, high, halvings = change(yes, times[k], times[k + 1])
        asked += halvings
        if answers[k]:
            found.append((first, low))
        else:
            first = high
    if answers[-1]:
        found.append((first, t1))
    return found, asked


# ---- What the desk gets

ROOM = 24 * 2049


def interval_record(job, flags, first, last):
    return pack("<IIQQ", job, flags, first, last)


def flags(o, question, t0, t1, first, last):
    """1: first = t0. 2: last = t1. Else, at first: 4 if the hidden answer differs between first − 1 and first, 8 if the up answer differs; at last: 16
    and 32, between last and last + 1. Question 1 uses only 4 and 16."""
    bits = 0
    if first == t0:
        bits += 1
    else:
        before, here = at(o, first - 1), at(o, first)
        bits += 4 * (before.hidden != here.hidden)
        bits += 8 * (question == 2 and before.up != here.up)
    if last == t1:
        bits += 2
    else:
        here, after = at(o, last), at(o, last + 1)
        bits += 16 * (here.hidden != after.hidden)
        bits += 32 * (question == 2 and here.up != after.up)
    return bits


def reply(piece):
    """A piece's intervals and its closing record; in the program there is room for any list. A short piece has job 0."""
    if refused := refusal(piece, ROOM):
        number, field = refused
        return interval_record(read(piece).job if number > 1 else 0, 256 + number, field, 0)
    r, o = read(piece), orbit(piece)
    found, asked = intervals(lambda t: answer(o, r.question, t), r.t0, r.t1, r.step)
    records = [interval_record(r.job, flags(o, r.question, r.t0, r.t1, first, last), first, last) for first, last in found]
    return b"".join(records) + interval_record(r.job, 512, len(found), asked)


def pieces(records):
    return [records[at : at + 136] for at in range(0, len(records), 136)]


def output(records):
    """What the program `lists` writes for its whole input."""
    return b"".join(map(reply, pieces(records)))


# ---- Totals by day (document 02, wish 3)

DAY = 86_400_000


def days(t0, t1):
    """The days that the window touches: t is in day floor(t/DAY)."""
    return range(t0 // DAY, t1 // DAY + 1)


def instants_in(day, first, last):
    """How many instants are in an interval and in a day. Neither has a gap, so they are those of the interval clipped to the day."""
    return max(0, min(last, DAY * day + DAY - 1) - max(first, DAY * day) + 1)


def day_record(day, found):
    """Day u32, intervals touching it u32, instants u64. Intervals as 12 wants them share no instant, so what is in some of them is what is in each, added up."""
    shares = [instants_in(day, first, last) for first, last in found]
    return pack("<IIQ", day, sum(share > 0 for share in shares), sum(shares))


def day_records(r, found):
    return b"".join(day_record(day, found) for day in days(r.t0, r.t1))


def found_in(records):
    """The first and the last of each interval record. Job and flags are not looked at."""
    return [(first, last) for _, _, first, last in iter_unpack("<IIQQ", records)]


def good(r, found):
    """No interval has last before first, is outside the window or is under two instants after the one before."""
    inside = all(r.t0 <= first <= last <= r.t1 for first, last in found)
    return inside and all(first - before >= 2 for (_, before), (first, _) in zip(found, found[1:]))


def summary_refusal(piece, records, room):
    """The job's own first; 9 is not among them, since no list is written."""
    if refused := refusal(piece, ROOM):
        return refused
    r = read(piece)
    if room < 16 * len(days(r.t0, r.t1)):
        return 11, 0
    if len(records) % 24 != 0 or not good(r, found_in(records)):
        return 12, 0
    return None


def summary(piece, records, lent):
    """Why it is refused, or None; and the lent bytes afterwards: the summary from byte 0, or each as it was."""
    if refused := summary_refusal(piece, records, len(lent)):
        return refused, lent
    written = day_records(read(piece), found_in(records))
    return None, written + lent[len(written) :]


def append_refusal(piece, records, more, lent):
    """The summary's, and 12 for what is appended and for a summary that is not the list's."""
    if refused := summary_refusal(piece, records, len(lent)):
        return refused
    r = read(piece)
    if len(more) != 24 or not good(r, found_in(records + more)):
        return 12, 0
    if not lent.startswith(day_records(r, found_in(records))):
        return 12, 0
    return None


def append(piece, records, more, lent):
    """Why it is refused, or None; and the lent bytes afterwards: each day that the interval touches has one interval more, and its instants there."""
    if refused := append_refusal(piece, records, more, lent):
        return refused, lent
    r, [(first, last)], after = read(piece), found_in(more), bytearray(lent)
    for at, day in enumerate(days(r.t0, r.t1)):
        if share := instants_in(day, first, last):
            _, touching, instants = unpack_from("<IIQ", after, 16 * at)
            pack_into("<IIQ", after, 16 * at, day, touching + 1, instants + share)
    return None, bytes(after)


def totals_of(piece, listed):
    """What `totals` writes for a piece, by what `lists` does: the one record of a refused job; else a head with the number of days, and the summary."""
    job, flags, _, asked = unpack("<IIQQ", listed[-24:])
    if flags != 512:
        return listed
    r = read(piece)
    return interval_record(job, 512, len(days(r.t0, r.t1)), asked) + day_records(r, found_in(listed[:-24]))


def totals(records):
    """What the program `totals` writes for its whole input."""
    return b"".join(totals_of(piece, reply(piece)) for piece in pieces(records))
