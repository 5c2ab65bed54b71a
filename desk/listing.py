"""Answers as a table for a person, as CSV for a spreadsheet, as JSON for a program. Each takes jobs with their answers as they come and gives text as it goes."""
import csv
import io
import json

from desk import utc, words
from desk.program import Refused

# ---- a table

HEAD = ("job", "from", "to", "length", "begins", "ends")
LONGEST_WITHOUT_DATE = len("31d 00:00:00.000")


def table(answers, zone):
    """A line for each interval, one with the counts behind them, or one that says why the job is refused. The head comes again where times are written in another way."""
    wide = None
    for job, answer in answers:
        before, wide = wide, max(LONGEST_WITHOUT_DATE, len(words.moment(job, 0, zone)))
        if wide != before:
            yield line(wide, *HEAD)
        if isinstance(answer, Refused):
            yield f"{job.number:<10}  {words.verdict(job, answer)}{called(job)}\n\n"
            continue
        for interval in answer.intervals:
            yield line(wide, job.number, *cells(job, interval, zone))
        yield f"{job.number:<10}  {job.question}: {counts(answer)}{called(job)}\n\n"


def line(wide, job, first, last, length, begins, ends):
    return f"{job:<10}  {first:<{wide}}  {last:<{wide}}  {length:>13}  {begins:<22}  {ends}\n"


def cells(job, interval, zone):
    first, last = (words.moment(job, ms, zone) for ms in (interval.first, interval.last))
    return first, last, words.clock(words.length(interval)), words.begins(job, interval), words.ends(job, interval)


def counts(listed):
    return f"{words.counted(len(listed.intervals), 'interval')}, {words.counted(listed.asked, 'instant')} asked"


def called(job):
    return f"  ({job.name})" if job.name else ""


# ---- CSV

COLUMNS = "job name row question from to from_ms to_ms length_ms begins ends intervals instants_asked refusal reason".split()


def spreadsheet(answers, zone):
    """A row for each record that came back: an interval, done, or refused."""
    page = io.StringIO()
    writer = csv.DictWriter(page, COLUMNS, lineterminator="\r\n")
    writer.writeheader()
    for job, answer in answers:
        for row in rows(job, answer, zone):
            writer.writerow({"job": job.number, "name": job.name, "question": job.question, **row})
        yield page.getvalue()
        page.seek(0)
        page.truncate()
    yield page.getvalue()


def rows(job, answer, zone):
    if isinstance(answer, Refused):
        yield {"row": "refused", "refusal": answer.number, "reason": words.refusal(job, answer)}
        return
    for interval in answer.intervals:
        yield {"row": "interval", **told(job, interval, zone)}
    yield {"row": "done", "intervals": len(answer.intervals), "instants_asked": answer.asked}


def told(job, interval, zone):
    """An interval, by the names that CSV and JSON have for it; from and to only where the job has an epoch."""
    times = {}
    if job.epoch is not None:
        times = {"from": utc.shown(job.epoch + interval.first, zone), "to": utc.shown(job.epoch + interval.last, zone)}
    return {
        **times,
        "from_ms": interval.first,
        "to_ms": interval.last,
        "length_ms": words.length(interval),
        "begins": words.begins(job, interval),
        "ends": words.ends(job, interval),
    }


# ---- JSON

def structured(answers, zone):
    """An array with an object for each job, a line each: one is held back until it is known whether a comma follows."""
    before = ""
    yield "[\n"
    for job, answer in answers:
        if before:
            yield before + ",\n"
        before = json.dumps(outcome(job, answer, zone), ensure_ascii=False)
    yield before + "\n" * bool(before) + "]\n"


def outcome(job, answer, zone):
    said = {"job": job.number, "name": job.name, "question": job.question}
    if isinstance(answer, Refused):
        return {**said, "refused": {"refusal": answer.number, "reason": words.refusal(job, answer)}}
    return {**said, "intervals": [told(job, interval, zone) for interval in answer.intervals], "instants_asked": answer.asked}
