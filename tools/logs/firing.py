"""The firing log, which the kiosk's program writes line by line: its lines, and the sums of each day in it.

docs/KIOSK.md has the fields of a line. A log may have millions of lines; it is read in a stream, and only sums are kept.
"""

import re
import time
from datetime import date
from functools import partial
from typing import NamedTuple

from files import told
from texts import printable

# Longer than any line that the kiosk's program writes.
LINE_LIMIT = 1 << 14

LINE = re.compile(
    r"(\d{4}-\d\d-\d\d)T((?:[01]\d|2[0-3]):[0-5]\d:[0-6]\d\.\d{3}[+-]\d\d:\d\d)"
    r"\timage=([^\t]*)\tcrc32=([0-9A-F]{8})\tversion=([^\t]*)"
    r"\tframe=(\d{1,20})\tanswer=(\d{1,2})\tsteps=(\d{1,20})\ttotal=\d{1,20}\tcounter=([0-9A-F]{8})"
    r"(?:\t(kept|ended)=([^\t\r]+))?\r?\n", re.ASCII)

HOURS = 24
QUARTERS = 4 * HOURS

# How a run can end, so that the log tells it, or be refused before it begins; and which answer tells which of these.
STOP, PERSON, REFUSAL, FAULT = ENDS = "stop", "person", "refusal", "fault"
UNKNOWN = "unknown"
END_OF = {"0": None, "1": STOP, **{str(n): FAULT for n in range(11, 16)},
          **{str(n): REFUSAL for n in (*range(21, 27), *range(31, 36))}}

# As many damaged lines as are told by their number, and as many faults and refusals as are told one by one.
TOLD_LINES = 5
TOLD_EVENTS = 100


class Image(NamedTuple):
    """What an image is known by, and the version of the processor that ran it."""
    name: str
    checksum: str
    version: str


class Event(NamedTuple):
    """A fault or a refusal."""
    clock: str
    answer: int
    counter: str
    image: Image
    kept: str


class Day:
    """The sums of a day."""

    def __init__(self):
        self.images = {}                                   # the frames of each Image
        self.first = self.last = None                      # the clock at the first frame and at the last
        self.runs = 0                                      # runs that have a line of this day
        self.begun_before = 0                              # those of them whose first line is not one of this day
        self.frames = [0] * HOURS
        self.steps = [0] * HOURS
        self.ends = {end: [0] * QUARTERS for end in ENDS}  # in each quarter of an hour
        self.events = {REFUSAL: [], FAULT: []}

    def count(self, end):
        return sum(self.ends[end])

    @property
    def open_runs(self):
        """Runs of which the lines of the day tell no end."""
        return self.runs - self.count(STOP) - self.count(PERSON) - self.count(FAULT)

    def take_run(self, begins):
        """Counts a run at its first line of the day, which is the first of all where the run begins there."""
        self.runs += 1
        self.begun_before += not begins

    def take_frame(self, clock, hour, image, steps):
        self.images[image] = self.images.get(image, 0) + 1
        self.frames[hour] += 1
        self.steps[hour] += steps
        self.last = clock
        if self.first is None:
            self.first = clock

    def take_end(self, end, event):
        self.ends[end][4 * int(event.clock[:2]) + int(event.clock[3:5]) // 15] += 1
        if end in self.events:
            self.images.setdefault(event.image, 0)
            if len(self.events[end]) < TOLD_EVENTS:
                self.events[end].append(event)


class Log:
    """A log on its way: its days, and which lines could not be read."""

    def __init__(self):
        self.days = {}
        self.lines = self.damaged = 0
        self.damaged_lines = []
        self.cut_off = False
        self.images = {}
        self.frame = 0   # the last frame of the run that is under way, or 0
        self.day = None  # in which it was counted last

    def damage(self):
        self.damaged += 1
        if self.damaged <= TOLD_LINES:
            self.damaged_lines.append(self.lines)

    def day_of(self, text):
        """The day of a date that is not in the log yet, or None if there is no such date."""
        try:
            date.fromisoformat(text)
        except ValueError:
            return None
        return self.days.setdefault(text, Day())

    def image_of(self, raw):
        return self.images.setdefault(raw, Image(*map(printable, raw)))

    def take_run(self, day, frame, end):
        """Counts the run of a line in its day. It is that of the line before unless that one has ended, or the number of the
        frame does not grow; a person's end has the number of the last frame. So a run whose first line is lost counts too."""
        goes_on = self.frame and (frame > self.frame or frame == self.frame and end is PERSON)
        if not goes_on or day is not self.day:
            day.take_run(frame == 1 and end is not PERSON)
        self.frame, self.day = 0 if end else frame, day

    def take(self, line):
        """Takes a line; false if it is none of a log."""
        found = LINE.fullmatch(line.decode("utf-8", "replace"))
        if found is None:
            return False
        when, clock, name, checksum, version, frame, answer, steps, counter, key, value = found.groups()
        end = END_OF.get(answer, UNKNOWN)
        day = self.days.get(when) or self.day_of(when)
        if day is None or end is UNKNOWN:
            return False
        raw = name, checksum, version
        image = self.images.get(raw) or self.image_of(raw)
        if key == "ended":
            end = PERSON
        if end is REFUSAL:
            # No run began, and the one before is over.
            self.frame = 0
        else:
            self.take_run(day, int(frame), end)
            if end is not PERSON:
                day.take_frame(clock, int(clock[:2]), image, int(steps))
        if end is not None:
            day.take_end(end, Event(clock, int(answer), counter, image, printable(value) if key == "kept" else "none"))
        return True


def read_log(file):
    """What a log tells, read from a stream of bytes."""
    log = Log()
    spoken = time.monotonic()
    for line in iter(partial(file.readline, LINE_LIMIT), b""):
        log.lines += 1
        if not log.take(line):
            pass_over(log, file, line)
        if not log.lines % 100000 and time.monotonic() - spoken > 2:
            spoken = time.monotonic()
            told(f"gpu log: {log.lines:,} lines read")
    return log


def pass_over(log, file, line):
    """Counts a line that is damaged, or that is cut off at the end of the file."""
    while len(line) == LINE_LIMIT and not line.endswith(b"\n"):
        line = file.readline(LINE_LIMIT)
    if line.endswith(b"\n"):
        log.damage()
    else:
        log.cut_off = True
