"""gpu log: a day of the firing log, in words and as a picture."""

import argparse
import os
import re
from datetime import date

import home
from files import STANDARD_INPUT, Unusable, opened, write_whole
from logs.chart import picture_of
from logs.firing import FAULT, PERSON, REFUSAL, STOP, TOLD_LINES, read_log
from texts import counted

SUMMARY = "sum up a day of the kiosk's firing log, and draw it as a picture"
MORE = """\
The log is the file that 'gpu kiosk --log FILE' writes. Damaged lines, and a last line that was cut off, are told and passed
over; then the status is 1. The picture is a drawing (SVG), which any browser opens and prints.
"""


def arguments(parser):
    parser.add_argument("file", metavar="FILE", help="the log; - is standard input")
    parser.add_argument("--day", metavar="YYYY-MM-DD", type=day_of, help="which day (default: the last day in the log)")
    parser.add_argument("--svg", metavar="OUT.svg", type=svg_of,
                        help="where the picture goes (default: FILE.YYYY-MM-DD.svg)")


def day_of(text):
    """A day as it is typed."""
    try:
        if re.fullmatch(r"\d{4}-\d\d-\d\d", text, re.ASCII):
            return date.fromisoformat(text).isoformat()
    except ValueError:
        pass
    raise argparse.ArgumentTypeError(f"'{text}' is no day: write the year, the month and the day, such as 2026-11-17")


def svg_of(text):
    """The name of a picture. Any other name may be that of a file which is still wanted."""
    if not text.endswith(".svg"):
        raise argparse.ArgumentTypeError(f"'{text}' is no name for a picture: it must end in .svg")
    return text


def run(given):
    if not given.file:
        raise Unusable("no log is named: name the file that was given to gpu kiosk --log, as in make log LOG=firing.log")
    with opened(given.file) as file:
        log = read_log(file)
    if not log.days:
        raise Unusable(f"{given.file}: " + ("no line in it is one of a firing log" if log.lines else "the log is empty")
                       + ": name the file that was given to 'gpu kiosk --log'")
    day_name = given.day or max(log.days)
    if day_name not in log.days:
        raise Unusable(f"{given.file}: has no line of {day_name}: its days are {days_told(sorted(log.days))}")
    day = log.days[day_name]
    picture = given.svg or f"{'log' if given.file == STANDARD_INPUT else given.file}.{day_name}.svg"
    unwritten = None
    try:
        # Before the words, of which a reader may take only the first.
        write_whole(picture, picture_of(day_name, day))
    except OSError as error:
        unwritten = Unusable(f"{picture}: the picture can not be written ({error.strerror}): name another place by --svg")
    for line in [f"Firing log of {day_name}, from {given.file}", *sums_told(day), *damage_told(log)]:
        print(line)
    kept = [event.kept for event in day.events[FAULT] if event.kept != "none"]
    if kept:
        beside = os.path.join(os.path.dirname(given.file), kept[-1])
        print(f"To have the last fault explained: {home.typed('explain', beside)}")
    if unwritten:
        raise unwritten
    print(f"The picture is {picture}")
    return 1 if log.damaged or log.cut_off else 0


def days_told(names):
    return names[0] if len(names) == 1 else f"{names[0]} and {names[1]}" if len(names) == 2 else (
        f"{len(names)}, from {names[0]} to {names[-1]}")


def sums_told(day):
    """The lines that tell a day."""
    yield "Images:"
    for image, frames in day.images.items():
        yield f"  {image.name}, checksum {image.checksum}, version {image.version}: {counted(frames, 'frame')}"
    yield row("First frame", day.first or "none")
    yield row("Last frame", day.last or "none")
    yield row("Runs", day.runs, f", of which {day.begun_before:,} had begun on another day or in a line that is missing"
              if day.begun_before else "")
    yield row("Frames", sum(day.frames))
    yield row("Steps", sum(day.steps))
    yield row("Stops by the program", day.count(STOP))
    yield row("Ends by a person", day.count(PERSON))
    yield row("Ends that are not told", day.open_runs,
              ": the frames were used up, the run goes on, or the power failed" if day.open_runs else "")
    for name, kind in ("Refusals", REFUSAL), ("Faults", FAULT):
        yield row(name, day.count(kind))
        yield from events_told(day, kind)


def row(name, value, more=""):
    told = f"{value:,}" if isinstance(value, int) else value
    return f"{name + ':':<24}{told}{more}"


def events_told(day, kind):
    """A line for each fault or refusal."""
    events = day.events[kind]
    for event in events:
        if kind == REFUSAL:
            where = f"address {event.counter}"
        else:
            where = f"counter {event.counter}, " + ("not kept" if event.kept == "none" else f"kept in {event.kept}")
        yield f"  {event.clock}  answer {event.answer}, {where}, {event.image.name}"
    if day.count(kind) > len(events):
        yield f"  and {day.count(kind) - len(events):,} more"


def damage_told(log):
    """What of the whole log could not be read."""
    if log.damaged:
        numbers = ", ".join(map(str, log.damaged_lines)) + (" and more" if log.damaged > TOLD_LINES else "")
        are, lines = ("is", "line") if log.damaged == 1 else ("are", "lines")
        yield f"{counted(log.damaged, 'line')} of the log {are} damaged and passed over: {lines} {numbers}"
    if log.cut_off:
        yield f"the last line of the log, line {log.lines}, is cut off and passed over"
