"""Answers as an iCalendar file (RFC 5545), an event for each interval.

A calendar has whole seconds. Of a visible interval the event has the whole seconds inside it, so that no hour is sold that cannot be seen; of a hidden one those that it touches. The exact times are in
the event's description. Where that is no second at all, the event is the instant at which the second of the interval's first begins.
"""
from datetime import datetime, timezone
from hashlib import sha256

from desk import utc, words
from desk.listing import counts


def calendar(answers, zone):
    """The calendar's lines, of jobs that are listed. Times are in UTC, which calendars show as local ones; the description has them in the zone."""
    made = f"{datetime.now(timezone.utc):%Y%m%dT%H%M%SZ}"
    yield lines("BEGIN:VCALENDAR", "VERSION:2.0", "PRODID:-//Quechotzal//desk//EN")
    for job, answer in answers:
        for interval in answer.intervals:
            yield lines(*event(job, answer, interval, zone, made))
    yield lines("END:VCALENDAR")


def event(job, answer, interval, zone, made):
    """The same interval of the same record and epoch has the same identifier, so that a calendar that is read in again has no event twice."""
    exact = f"{words.described(job, interval, zone)}; the list has {counts(answer)}"
    inside = job.question == "visible"
    begin = second(job.epoch + interval.first, up=inside)
    end = second(job.epoch + interval.last + 1, up=not inside)
    span = [f"DTSTART:{begin}", f"DTEND:{end}"] if begin < end else [f"DTSTART:{second(job.epoch + interval.first, up=False)}"]
    identity = sha256(job.record() + f"{job.epoch} {interval.first}".encode()).hexdigest()[:32]
    summary = f"job {job.number} {job.question}" + f": {job.name}" * bool(job.name)
    return "BEGIN:VEVENT", f"UID:{identity}@quechotzal", f"DTSTAMP:{made}", *span, f"SUMMARY:{text(summary)}", f"DESCRIPTION:{text(exact)}", "END:VEVENT"


def second(ms, up):
    """A whole second, at an instant or next to it."""
    if up:
        ms += -ms % utc.SECOND
    at, leap = utc.civil(ms, timezone.utc)
    return f"{at:%Y%m%dT%H%M}{60 if leap else at.second:02}Z"


def text(words):
    for sign in "\\;,":
        words = words.replace(sign, "\\" + sign)
    return words


def lines(*contents):
    """Lines as the standard wants them: at most 75 bytes, a longer one goes on behind a space."""
    return "".join(folded(content) + "\r\n" for content in contents)


def folded(content):
    pieces, size = [""], 0
    for sign in content:
        size += len(sign.encode())
        if size > 75:
            pieces.append("")
            size = 1 + len(sign.encode())
        pieces[-1] += sign
    return "\r\n ".join(pieces)
