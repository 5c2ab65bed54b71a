"""UTC instants, to and from whole milliseconds since 1972-01-01T00:00:00Z, with every leap second counted.

UTC has had leap seconds since 1972, so that earlier instants are not read. A leap second that is announced later has to be added to LEAPS; until then a time behind it is off by a second.
"""
import re
from bisect import bisect_right
from datetime import date, datetime, timedelta, timezone

# The days that ended with 23:59:60, as the IERS announced them; none since 2016.
LEAPS = (
    "1972-06-30 1972-12-31 1973-12-31 1974-12-31 1975-12-31 1976-12-31 1977-12-31 1978-12-31 1979-12-31 1981-06-30 1982-06-30 1983-06-30 1985-06-30 1987-12-31 "
    "1989-12-31 1990-12-31 1992-06-30 1993-06-30 1994-06-30 1995-12-31 1997-06-30 1998-12-31 2005-12-31 2008-12-31 2012-06-30 2015-06-30 2016-12-31"
).split()
BEGIN = datetime(1972, 1, 1, tzinfo=timezone.utc)
MS = timedelta(milliseconds=1)
SECOND, DAY = 1_000, 86_400_000
EXPECTED = "a UTC instant such as 2026-11-16T06:30:00.000Z"

# The midnights behind the leap seconds, in milliseconds as a clock without leap seconds counts them, and as they are.
PLAIN = [(date.fromisoformat(day) - BEGIN.date()).days * DAY + DAY for day in LEAPS]
COUNTED = [midnight + SECOND * (before + 1) for before, midnight in enumerate(PLAIN)]
# The year 9999 is not read, so that a window of 31 days has a date everywhere.
END = COUNTED[-1] - PLAIN[-1] + (date(9999, 1, 1) - BEGIN.date()).days * DAY

WRITTEN = re.compile(r"(\d{4}-\d\d-\d\d)[T ](\d\d:\d\d)(?::(\d\d)(?:\.(\d+))?)?(Z|[+-]\d\d:\d\d)", re.ASCII)


def counted(plain):
    return plain + SECOND * bisect_right(PLAIN, plain)


def in_leap_second(ms):
    """Whether this is in a leap second; and how many are over."""
    over = bisect_right(COUNTED, ms)
    return over < len(COUNTED) and COUNTED[over] - SECOND <= ms, over


def read(text):
    """Milliseconds of an instant as ISO 8601 writes it, with Z or an offset. Raises ValueError with what is expected."""
    match = WRITTEN.fullmatch(text)
    if not match:
        raise ValueError(EXPECTED)
    day, minute, second, fraction, offset = match.groups(default="")
    leap = second == "60"
    try:
        at = datetime.fromisoformat(f"{day}T{minute}:{'59' if leap else second or '00'}{offset.replace('Z', '+00:00')}")
    except ValueError:
        raise ValueError("a UTC instant that there is") from None
    if fraction[3:].strip("0"):
        raise ValueError("a UTC instant of whole milliseconds")
    plain = (at - BEGIN) // MS + int(fraction[:3].ljust(3, "0"))
    ms = counted(plain) + SECOND * leap
    if leap and not in_leap_second(ms)[0]:
        raise ValueError("a UTC instant that there is (it had no leap second then)")
    if not 0 <= ms < END:
        raise ValueError("a UTC instant of the years 1972 to 9998")
    return ms


def civil(ms, zone):
    """An instant as date and time in a zone, None for the machine's own; and whether it is in a leap second, which date and time have as the second before it."""
    leap, over = in_leap_second(ms)
    return (BEGIN + (ms - SECOND * (over + leap)) * MS).astimezone(zone), leap


def shown(ms, zone=timezone.utc):
    """An instant as ISO 8601 writes it, to the millisecond."""
    at, leap = civil(ms, zone)
    text = at.isoformat(timespec="milliseconds")
    if leap:
        text = text[:17] + "60" + text[19:]
    return text.replace("+00:00", "Z") if zone is timezone.utc else text


def of_civil(at, zone):
    """Milliseconds of a date and time in a zone, without a zone of its own."""
    at = at.astimezone(timezone.utc) if zone is None else at.replace(tzinfo=zone)
    return counted((at - BEGIN) // MS)
