"""What the program answers, in words: how an interval begins and ends, why a job is refused; and times and numbers as text."""
from datetime import timezone

from desk import columns, utc

# By flag: what is said of an interval's first, and of its last. A craft that is hidden goes behind the planet first, one that is visible comes from there.
GOES, COMES = "behind the planet", "from behind the planet"
BEGINS = {
    "hidden": {1: "at the window's start", 4: GOES},
    "visible": {1: "at the window's start", 4: COMES, 8: "from under the horizon"},
}
ENDS = {
    "hidden": {2: "at the window's end", 16: COMES},
    "visible": {2: "at the window's end", 16: GOES, 32: "under the horizon"},
}


def reasons(words, flags):
    return " and ".join(said for flag, said in words.items() if flags & flag)


def begins(job, interval):
    return reasons(BEGINS[job.question], interval.flags)


def ends(job, interval):
    return reasons(ENDS[job.question], interval.flags)


def number(x):
    """A float with the fewest digits that are read as this very float."""
    return repr(x).removesuffix(".0")


def counted(n, what):
    return f"{n:,} {what}{'s' * (n != 1)}"


def length(interval):
    """How many milliseconds are in an interval, both its ends included."""
    return interval.last - interval.first + 1


def clock(ms):
    """Milliseconds as hours, minutes and seconds."""
    seconds, ms = divmod(ms, 1_000)
    return f"{seconds // 3600}:{seconds // 60 % 60:02}:{seconds % 60:02}.{ms:03}"


def moment(job, ms, zone=timezone.utc):
    """A time of a job: as date and time where the job has an epoch, else as days, hours, minutes and seconds from it."""
    if job.epoch is None:
        days, rest = divmod(ms, 86_400_000)
        return f"{days}d {clock(rest):0>12}"
    return utc.shown(job.epoch + ms, zone).replace("T", " ")


def described(job, interval, zone):
    """An interval in a line: its ends, its length, and why it begins and ends."""
    first, last = (moment(job, ms, zone) for ms in (interval.first, interval.last))
    return f"{first} to {last}, {clock(length(interval))}; begins {begins(job, interval)}, ends {ends(job, interval)}"


def bound(job, ms):
    """A bound of a window that is refused, perhaps since it is no time at all: in milliseconds, and as a date and time where there is one."""
    try:
        return f"{ms} ms" if job.epoch is None else f"{moment(job, ms)} ({ms} ms from the epoch)"
    except OverflowError:
        return f"{ms} ms"


def verdict(job, refused):
    return f"refused ({refused.number}): {refusal(job, refused)}"


def refusal(job, refused):
    """Why a job is refused: the columns at fault, what they hold, and what is accepted."""
    if refused.number in (3, 4):
        column, value = columns.FIELDS[refused.field - 1], number(job.fields[refused.field - 1])
        what = "is no finite number" if refused.number == 3 else "is out of range"
        return f"{column.name} {value} {what}; accepted: {column.accepted}"
    axis, eccentricity, radius = (number(job.fields[k]) for k in (0, 1, 6))
    return {
        5: f"closest distance semimajor_axis_km * (1 - eccentricity) = {axis} * (1 - {eccentricity}) is not above planet_radius_km {radius}; accepted: above it",
        6: f"window_start {bound(job, job.start)} and window_end {bound(job, job.end)} are no window; accepted: window_start {columns.START.accepted}, window_end {columns.END.accepted}",
        7: f"step_ms {job.step} does not suit a window of {job.end - job.start} ms; accepted: {columns.STEP.accepted}",
    }[refused.number]
