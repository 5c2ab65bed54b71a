"""Answers as a picture: a line for each job, a bar for each interval, marks at the bounds of its window, and days as the scale."""
from datetime import datetime
from datetime import time as time_of_day
from html import escape

from desk import utc, words
from desk.program import Refused

# Pixels: a line's three columns and its height, what is above the first line and below the last, a bar's height and a bound's, and the least that can be seen.
LABELS, PLOT, COUNTS, ROW, TOP, FOOT = 260, 840, 110, 22, 70, 28
BAR, BOUND, THINNEST = 12, 18, 0.7
LONGEST_NAME, LONGEST_REASON = 24, 135  # characters that have room
SECOND, MINUTE, HOUR, DAY = 1_000, 60_000, 3_600_000, 86_400_000
# Between two labels of the scale: the least of these, or so many days, that gives no more labels than have room.
STEPS = [
    *(1, 2, 5, 10, 20, 50, 100, 200, 500),
    *(SECOND * n for n in (1, 2, 5, 10, 15, 30)),
    *(MINUTE * n for n in (1, 2, 5, 10, 15, 30)),
    *(HOUR * n for n in (1, 2, 3, 6, 12)),
    *(DAY * n for n in (1, 2, 5, 7, 14)),
]
MOST_LABELS, MOST_DAYS, DAYS_WITHOUT_YEAR = 12, 62, 300  # the most labels, the most days with a line each, and those that need no year in their labels
ORIGIN, MIDNIGHT = datetime(1, 1, 1), time_of_day()
STYLE = """text { font: 12px sans-serif; fill: #222 }
.small { font-size: 11px; fill: #555 } .end { text-anchor: end } .middle { text-anchor: middle } .refused { fill: #b00020 }
.even { fill: #f5f6f8 } .day { stroke: #9aa3ad } .mark { stroke: #d5d9de } .window { stroke: #777 } .bound { stroke: #333; stroke-width: 1.6 }
.hidden { fill: #27496d } .visible { fill: #e08a00 }"""


class Scale:
    """Where an instant is, from left to right. Where the jobs have epochs it is one of utc's, else milliseconds from each job's own epoch."""

    def __init__(self, jobs, zone):
        self.dated, self.zone = jobs[0].epoch is not None, zone
        self.first = min(self.instant(job, job.start) for job in jobs)
        self.last = max(self.instant(job, job.end) for job in jobs)
        self.span = self.last - self.first
        self.step = next((step for step in STEPS if self.span <= step * MOST_LABELS), -(-self.span // (DAY * MOST_LABELS)) * DAY)

    def instant(self, job, ms):
        return ms + (job.epoch or 0)

    def x(self, instant):
        return round(LABELS + PLOT * (instant - self.first) / self.span, 2)

    def wall(self, instant):
        """What a clock on the wall shows: days are counted from ORIGIN where there is no date."""
        return utc.civil(instant, self.zone)[0].replace(tzinfo=None) if self.dated else ORIGIN + instant * utc.MS

    def of_wall(self, wall):
        return utc.of_civil(wall, self.zone) if self.dated else (wall - ORIGIN) // utc.MS

    def every(self, step):
        """The instants on the scale at which such a clock shows a multiple of the step from midnight, and what it shows. What it leaves out, as when summer time begins, is left out, but for a midnight."""
        step *= utc.MS
        first, last = self.wall(self.first), self.wall(self.last)
        begin = first - (first - first.replace(hour=0, minute=0, second=0, microsecond=0)) % step
        before = None
        for k in range((last - begin) // step + 1):
            wall = begin + k * step
            at = self.of_wall(wall)
            if self.first <= at != before and (self.wall(at) == wall or wall.time() == MIDNIGHT):
                yield at, wall
                before = at

    def label(self, wall):
        if wall.time() == MIDNIGHT and not self.dated:
            return f"day {(wall - ORIGIN).days}"
        if wall.time() == MIDNIGHT:
            return f"{wall.day} {wall:%b}" if self.span <= DAYS_WITHOUT_YEAR * DAY else wall.date().isoformat()
        text = wall.isoformat(timespec="milliseconds")[11:]
        return text[:5] if self.step >= MINUTE else text[:8] if self.step >= SECOND else text[6:]


def picture(answers, zone):
    """The picture's text."""
    answers = list(answers)
    height = TOP + ROW * len(answers) + FOOT
    width = LABELS + PLOT + COUNTS
    listed = [job for job, answer in answers if not isinstance(answer, Refused)]
    scale = Scale(listed, zone) if listed else None
    yield f'<svg xmlns="http://www.w3.org/2000/svg" width="{width}" height="{height}" viewBox="0 0 {width} {height}">\n<style>\n{STYLE}\n</style>\n'
    yield f'<rect width="{width}" height="{height}" fill="white"/>\n'
    yield from stripes(len(answers), width)
    yield from heading(answers, listed, scale)
    if scale:
        yield from ruler(scale, TOP + ROW * len(answers))
    for k, (job, answer) in enumerate(answers):
        yield from row(job, answer, scale, TOP + ROW * k + ROW / 2, zone)
    yield "</svg>\n"


def text(x, y, content, style="", title=""):
    tip = f"<title>{escape(title)}</title>" if title else ""
    return f'<text x="{x}" y="{y}" class="{style}">{escape(content)}{tip}</text>\n'


def upright(x, top, bottom, style):
    return f'<line x1="{x}" y1="{top}" x2="{x}" y2="{bottom}" class="{style}"/>\n'


def stripes(rows, width):
    """Every second line on a ground of its own, so that the eye stays in it."""
    for k in range(0, rows, 2):
        yield f'<rect y="{TOP + ROW * k}" width="{width}" height="{ROW}" class="even"/>\n'


def heading(answers, listed, scale):
    window = f", {span(listed, scale)}" if scale else ""
    yield text(12, 24, f"{words.counted(len(answers), 'job')}{window}")
    x = LABELS + PLOT - 290
    for question in ("hidden", "visible"):
        yield f'<rect x="{x}" y="14" width="22" height="{BAR}" class="{question}"/>\n{text(x + 28, 24, question)}'
        x += 92
    yield upright(x, 11, 29, "bound") + text(x + 8, 24, "bound of the window")


def span(listed, scale):
    """From when to when the scale is."""
    early = min(listed, key=lambda job: scale.instant(job, job.start))
    late = max(listed, key=lambda job: scale.instant(job, job.end))
    return f"{words.moment(early, early.start, scale.zone)} to {words.moment(late, late.end, scale.zone)}" + " from the epoch" * (not scale.dated)


def ruler(scale, bottom):
    """Days, and what is labelled between them or of them; the labels above and below."""
    marks = list(scale.every(scale.step))
    days = list(scale.every(DAY)) if scale.span <= MOST_DAYS * DAY else []
    for at, _ in marks:
        yield upright(scale.x(at), TOP, bottom, "mark")
    for at, _ in days:
        yield upright(scale.x(at), TOP - 6, bottom + 6, "day")
    for at, wall in marks:
        yield text(scale.x(at), TOP - 12, scale.label(wall), "small middle") + text(scale.x(at), bottom + 20, scale.label(wall), "small middle")


def row(job, answer, scale, middle, zone):
    """A job's line: its number and name, its window with the bars, and how many there are."""
    base = middle + 4
    yield text(82, base, str(job.number), "end")
    if job.name:
        yield text(92, base, cut(job.name, LONGEST_NAME), "", job.name)
    if isinstance(answer, Refused):
        why = words.verdict(job, answer)
        yield text(LABELS + 8, base, cut(why, LONGEST_REASON), "refused", why)
        return
    left, right = (scale.x(scale.instant(job, ms)) for ms in (job.start, job.end))
    yield f'<line x1="{left}" y1="{middle}" x2="{right}" y2="{middle}" class="window"/>\n'
    for interval in answer.intervals:
        yield bar(job, interval, scale, middle, zone)
    for x in (left, right):
        yield upright(x, middle - BOUND / 2, middle + BOUND / 2, "bound")
    yield text(LABELS + PLOT + 12, base, words.counted(len(answer.intervals), "interval"), "small")


def bar(job, interval, scale, middle, zone):
    left, right = (scale.x(scale.instant(job, ms)) for ms in (interval.first, min(interval.last + 1, job.end)))
    wide = round(max(right - left, THINNEST), 2)
    tip = escape(words.described(job, interval, zone))
    return f'<rect x="{left}" y="{middle - BAR / 2}" width="{wide}" height="{BAR}" class="{job.question}"><title>{tip}</title></rect>\n'


def cut(content, most):
    return content if len(content) <= most else content[: most - 1] + "\u2026"
