"""The command line of `desk`."""
import argparse
import os
import sys
import textwrap
import time
import traceback
from datetime import timezone
from zoneinfo import ZoneInfo, ZoneInfoNotFoundError

from desk import columns, drawing, explaining, ics, listing, words
from desk.files import FORMS, JobFile
from desk.jobs import U32, whole
from desk.program import Failed, Refused, answered

ALL_GOOD, SOME_REFUSED, UNREADABLE, NO_ANSWER, INTERRUPTED, READER_GONE = 0, 1, 2, 3, 130, 141
FORMATS = {"table": listing.table, "csv": listing.spreadsheet, "json": listing.structured, "ics": ics.calendar}
MOST_PROCESSES = 256

ABOUT = """Lists of when a craft is hidden by its planet, or visible from a dish, made by the proved program `lists`.
Begin with: bin/desk list samples/day.csv"""
NOTES = """
A job file is CSV with a header, or a JSON array of objects with the same names. The columns, in any order:

{table}

The epoch is a periapsis passage of the craft, and greenwich_right_ascension_deg is Greenwich's right ascension
at that very instant: another passage, another value. Orbit, far body and Greenwich are against the mean Earth
equator and equinox of date. The question visible supposes that the far body is the Earth.

Times are whole milliseconds from the epoch; or, where the column epoch has a UTC instant, UTC instants such as
2026-11-16T06:30:00.250Z, with Z or an offset such as +01:00, and of whole milliseconds. Leap seconds are counted:
between two instants there are as many milliseconds as passed, so one more second for each of the 27 leap seconds
from 1972 to 2016 between them, and 23:59:60 is read and shown where there was one. A leap second that is announced
later has to be added to desk/utc.py. Without an epoch times are shown as days, hours, minutes and seconds from it.

Both ends belong to an interval, so one of a single millisecond has a length of 0.001 s. The horizon is the least
elevation. What begins and ends inside one step is not seen. In a calendar, which has whole seconds, an event is
the seconds that are wholly visible, or those that are hidden in part; its description has the exact times.

status  0  every job was accepted
        1  some were refused, all others listed
        2  something in the file or the command cannot be read; jobs that can be are listed
        3  the program did not answer, or the desk itself failed
        130, 141  it was interrupted; what read its output went away
"""


class Screen:
    """Standard output, and standard error with a line of progress where that is a terminal and the work is long."""

    AFTER, EACH = 2, 0.5  # seconds

    def __init__(self):
        for name, mode, access in (("stdin", "r", os.O_RDONLY), ("stdout", "w", os.O_RDONLY), ("stderr", "w", os.O_WRONLY)):
            if getattr(sys, name) is None:  # it was closed: now it is empty, cannot be written, or swallows
                setattr(sys, name, open(os.open(os.devnull, access), mode))
        sys.stdout.reconfigure(encoding="utf-8")
        sys.stderr.reconfigure(encoding="utf-8", errors="backslashreplace")
        self.due = time.monotonic() + self.AFTER if sys.stderr.isatty() else float("inf")
        self.shown = False

    def write(self, piece):
        self.clear()
        sys.stdout.write(piece)

    def say(self, message):
        self.clear()
        print(f"desk: {message}", file=sys.stderr)

    def clear(self):
        if self.shown:
            sys.stderr.write("\r\033[K")
            sys.stderr.flush()
            self.shown = False

    def progress(self, jobs, file):
        if time.monotonic() < self.due:
            return
        sys.stdout.flush()
        part = file.part_read()
        known = "" if part is None else f", {part:.0%} of the file read"
        sys.stderr.write(f"\r\033[Kdesk: {words.counted(jobs, 'job')} answered{known}")
        sys.stderr.flush()
        self.shown, self.due = True, time.monotonic() + self.EACH


class Run:
    """A run over a job file: its jobs with their answers, counted."""

    def __init__(self, arguments, screen):
        self.screen, self.processes = screen, arguments.jobs
        # What of the command makes no sense without the jobs' epochs, if anything.
        self.needs_epoch = "--format ics" if arguments.format == "ics" else "--zone" if arguments.zone is not timezone.utc else ""
        self.file = JobFile(arguments.file, arguments.input, screen.say)
        self.answered = self.refused = self.intervals = 0

    def jobs(self):
        """The jobs of the file; one without an epoch is told where that is needed."""
        for job in self.file.jobs():
            if self.needs_epoch and job.epoch is None:
                self.file.complain(job.line, columns.EPOCH.name, f"a UTC instant, for {self.needs_epoch}", "")
            else:
                yield job

    def answers(self, jobs=None):
        for job, answer in answered(jobs or self.jobs(), self.processes):
            self.answered += 1
            self.refused += isinstance(answer, Refused)
            self.intervals += 0 if isinstance(answer, Refused) else len(answer.intervals)
            yield job, answer
            self.screen.progress(self.answered, self.file)

    def status(self):
        return UNREADABLE if self.file.unreadable else SOME_REFUSED if self.refused else ALL_GOOD

    def summary(self, good):
        said = f"{words.counted(self.answered, 'job')}: {self.answered - self.refused:,} {good}, {self.refused:,} refused"
        return said + (f"; {words.counted(self.file.unreadable, 'fault')} in the file" if self.file.unreadable else "")


# ---- the commands

def list_jobs(arguments, screen):
    run = Run(arguments, screen)
    answers = run.answers()
    if arguments.format == "ics":
        answers = without_refused(answers, screen)
    for piece in FORMATS[arguments.format](answers, arguments.zone):
        screen.write(piece)
    if arguments.format == "ics" and not run.intervals:
        screen.say("no job has an interval, so the calendar has no event")
    if arguments.format == "table":
        screen.write(run.summary("listed") + "\n")
    elif run.status() != ALL_GOOD:
        screen.say(run.summary("listed"))
    return run.status()


def without_refused(answers, screen):
    """The lists alone; each refusal is told, since a calendar has no place for it."""
    for job, answer in answers:
        if isinstance(answer, Refused):
            screen.say(f"job {job.number} is {words.verdict(job, answer)}")
        else:
            yield job, answer


def check(arguments, screen):
    run = Run(arguments, screen)
    for job, answer in run.answers():
        screen.write(f"job {job.number}: {words.verdict(job, answer) if isinstance(answer, Refused) else 'accepted'}\n")
    screen.write(run.summary("accepted") + "\n")
    return run.status()


def draw(arguments, screen):
    run = Run(arguments, screen)
    answers = [*run.answers()]
    if not answers:
        screen.say("there is no job to draw")
        return UNREADABLE
    jobs = [job for job, _ in answers]
    for job in jobs:
        if (job.epoch is None) != (jobs[0].epoch is None):
            run.file.complain(job.line, columns.EPOCH.name, "an epoch in every job of a picture, or in none")
            return UNREADABLE
    drawn = "".join(drawing.picture(answers, arguments.zone))
    save(drawn, arguments.output, screen)
    if run.status() != ALL_GOOD:
        screen.say(run.summary("drawn"))
    return run.status()


def save(drawn, path, screen):
    if path == "-":
        screen.write(drawn)
        return
    try:
        with open(path, "w", encoding="utf-8") as file:
            file.write(drawn)
    except OSError as error:
        raise OSError(error.errno, error.strerror, path) from None


def explain(arguments, screen):
    run = Run(arguments, screen)
    for job, answer in run.answers(job for job in run.jobs() if job.number == arguments.job):
        for paragraph in explaining.explained(job, answer, arguments.zone):
            screen.write(textwrap.fill(paragraph, 110, break_on_hyphens=False, break_long_words=False) + "\n\n")
    if not run.answered:
        screen.say(f"{arguments.file} has no job {arguments.job} that can be read")
        return UNREADABLE
    return run.status()


def records(arguments, screen):
    run = Run(arguments, screen)
    for job in run.jobs():
        sys.stdout.buffer.write(job.record())
    return run.status()


# ---- the arguments

def zone(name):
    """A time zone: None is the machine's own."""
    if name in ("local", "UTC"):
        return {"local": None, "UTC": timezone.utc}[name]
    try:
        return ZoneInfo(name)
    except (ZoneInfoNotFoundError, ValueError, OSError):
        raise argparse.ArgumentTypeError(f"no zone is known by the name {name}; such as Europe/Madrid, or local") from None


def number(least, most):
    """What reads a whole number."""

    def read(text):
        try:
            return whole(text, most, least)
        except ValueError as error:
            raise argparse.ArgumentTypeError(f"{error} is expected") from None

    return read


def notes():
    """The columns with what the program accepts, and what else there is to know."""
    rows = [("column", "holds", "accepted"), *columns.ALWAYS, ("and, if wanted,", "", ""), *columns.IF_WANTED]
    return NOTES.format(table="\n".join(f"  {name:<30} {meaning:<39} {accepted}".rstrip() for name, meaning, accepted in rows))


def parser():
    desk = argparse.ArgumentParser(prog="desk", description=ABOUT, epilog=notes(), formatter_class=argparse.RawDescriptionHelpFormatter, allow_abbrev=False)
    desk.set_defaults(jobs=1, zone=timezone.utc, format="table")
    commands = desk.add_subparsers(required=True, metavar="COMMAND")

    def command(name, does, said, zones=True, runs=True):
        added = commands.add_parser(name, help=said, description=f"{said[0].upper()}{said[1:]}.", epilog="desk --help tells what a job file holds.", allow_abbrev=False)
        added.add_argument("file", metavar="FILE", help="a job file, .csv or .json; - is standard input")
        added.add_argument("--input", choices=FORMS, help="what the file is, where its name does not tell")
        if runs:
            added.add_argument("--jobs", type=number(1, MOST_PROCESSES), default=1, metavar="N", help="run N processes of the program side by side; the order stays")
        if zones:
            added.add_argument("--zone", type=zone, default=timezone.utc, metavar="NAME", help="show times in a zone such as Europe/Madrid, or local for this machine's; else UTC")
        added.set_defaults(does=does)
        return added

    command("list", list_jobs, "list the intervals of each job").add_argument("--format", choices=FORMATS, default="table", help="for a person, a spreadsheet, a program, a calendar")
    command("check", check, "say whether each job is accepted, and why not", zones=False)
    command("draw", draw, "draw the intervals as a picture, SVG").add_argument("-o", dest="output", metavar="FILE.svg", default="-", help="where to; else to standard output")
    command("explain", explain, "say what the list of a job promises").add_argument("--job", type=number(0, U32), required=True, metavar="NUMBER", help="the job's number")
    command("records", records, "write the orbit records, as bin/lists and bin/totals read them", zones=False, runs=False)
    return desk


def let_go():
    """What is still to be written is written; where that fails it is left, so that the end does not fail as well."""
    try:
        sys.stdout.flush()
    except OSError:
        os.dup2(os.open(os.devnull, os.O_WRONLY), sys.stdout.fileno())


def main():
    screen, arguments = Screen(), parser().parse_args()
    try:
        status = arguments.does(arguments, screen)
        sys.stdout.flush()
    except BrokenPipeError:
        status = READER_GONE
    except KeyboardInterrupt:
        status = INTERRUPTED
    except Failed as error:
        screen.say(error)
        status = NO_ANSWER
    except OSError as error:
        screen.say(f"{'standard output' if error.filename is None else error.filename}: {error.strerror}")
        status = UNREADABLE
    except Exception:  # so that no fault of the desk's own looks like a refusal
        traceback.print_exc()
        status = NO_ANSWER
    screen.clear()
    let_go()
    return status
