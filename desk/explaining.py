"""What a list promises, and the insurer's three questions answered for that very list. The names in brackets are the theorems of docs/PROMISES.md."""
from desk import words
from desk.program import Refused

BEGIN_FLAG, END_FLAG = 1, 2
HALVINGS = 20  # at most, for each step whose ends differ


def explained(job, answer, zone):
    """The paragraphs for one job."""
    title = f"Job {job.number}" + f" ({job.name})" * bool(job.name)
    if isinstance(answer, Refused):
        yield f"{title} is refused, by refusal {answer.number}: {words.refusal(job, answer)}. So there is no list, and no instant was asked [refused-exactly, refused-counts]."
        return
    yield title + promises(job, answer, zone)
    yield "Can an entry have no exit? No. " + both_ends(job, answer, zone)
    yield "If the planet covers the craft between the last sample and the window's end, where is that written? " + window_end(job, answer, zone)
    yield "Which instants did the program ask before it signed the list? " + instants(job, answer)


def promises(job, answer, zone):
    start, end = (words.moment(job, ms, zone) for ms in (job.start, job.end))
    asked = "the planet hides the craft from the far body" if job.question == "hidden" else "the dish can see the craft: the planet is up, and does not hide it"
    return (
        f" asks when {asked}, from {start} to {end}. The list has {words.counted(len(answer.intervals), 'interval')}. It is proved that intervals are in order, inside the window and with at least one"
        f" instant between neighbours [in-order]; that a sample, one each {job.step:,} ms, lies in an interval exactly if its answer is yes [at-samples]; and that each step whose ends differ holds exactly"
        " one change, between two neighbouring milliseconds that differ in that direction, and no other step holds one [one-change, no-change]. What begins and ends inside one step is not promised."
    )


def both_ends(job, answer, zone):
    """That each interval has both its ends, and which of them are the window's."""
    if not answer.intervals:
        return "This list has no interval at all: the answer was no at every sample [at-samples]."
    first, last = answer.intervals[0], answer.intervals[-1]
    cut = ["the first begins at the window's start"] * bool(first.flags & BEGIN_FLAG) + ["the last ends at the window's end"] * bool(last.flags & END_FLAG)
    by_window = f"; {' and '.join(cut)}, as the flags say [flags-are]" if cut else "; none is cut off by the window"
    return f"Each interval is one record with its first and its last instant [record-bytes, in-order], down to the last one, {words.moment(job, last.first, zone)} to {words.moment(job, last.last, zone)}{by_window}."


def window_end(job, answer, zone):
    end = words.moment(job, job.end, zone)
    sampled = f"There is no such place: the window's end, {end}, is itself the last sample [last-sample]. "
    if answer.intervals and answer.intervals[-1].flags & END_FLAG:
        return sampled + f"Its answer was yes, so the last interval, from {words.moment(job, answer.intervals[-1].first, zone)} on, ends there and is marked with it [yes-at-end]."
    return sampled + "Its answer was no, so no interval reaches it [at-samples]."


def instants(job, answer):
    """How many were asked, and the bound: the samples, and 20 for each step whose ends differ, which are the ends of intervals that are no bound of the window."""
    samples = -((job.start - job.end) // job.step) + 1
    changes = sum((not interval.flags & BEGIN_FLAG) + (not interval.flags & END_FLAG) for interval in answer.intervals)
    most = samples + HALVINGS * changes
    return (
        f"{answer.asked:,}: the {words.counted(samples, 'sample')}, which are the window's start, one each step and the window's end, and the middles of the halving in the {words.counted(changes, 'step')} whose ends differ"
        f" [count-is]. The bound is {samples:,} + {HALVINGS} * {changes:,} = {most:,} [count-most]. No other instant has a part in the list [only-asked]."
    )
