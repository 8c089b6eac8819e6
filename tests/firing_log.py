"""Tests of `gpu log`: what it sums up, passes over, refuses and draws of logs with known sums, and of one by the kiosk.

    python3 tests/firing_log.py [KIOSK]      by default target/kiosk
"""

import contextlib
import io
import os
import re
import subprocess
import sys
import tempfile
import tracemalloc
import xml.etree.ElementTree as xml
from collections import Counter
from datetime import datetime, timezone
from pathlib import Path

sys.dont_write_bytecode = True
ROOT = Path(__file__).resolve().parent.parent
sys.path.insert(0, str(ROOT / "tools"))

from command import dispatch
from images import image_of, read_image
from logs import chart, firing

SVG = "{http://www.w3.org/2000/svg}"
ELEMENTS = {"svg", "title", "style", "rect", "line", "text", "circle", "path"}
DRUM, RAMP = ("drum & <spot>.words", "1A2B3C4D"), ("ramp.words", "407E1239")


def line(moment, image, frame, answer, steps, total, more=""):
    name, checksum = image
    return (f"{moment}+01:00\timage={name}\tcrc32={checksum}\tversion=0.1.0\tframe={frame}\tanswer={answer}\tsteps={steps}"
            f"\ttotal={total}\tcounter=00F0300C{more}\n")


# A run that goes on past midnight and is ended by a person; on the next day one that stops, three with a fault, a refusal,
# and one of which no end is told.
FIRST_DAY = [line(f"2026-11-16T23:59:5{n}.000", DRUM, n, 0, 100, 100 * n) for n in range(1, 5)]
SECOND_DAY = [
    line("2026-11-17T00:00:01.500", DRUM, 5, 0, 100, 500),
    line("2026-11-17T00:14:59.999", DRUM, 6, 0, 100, 600),
    line("2026-11-17T00:15:00.000", DRUM, 6, 0, 0, 600, "\tended=SIGTERM"),
    line("2026-11-17T10:00:00.000", RAMP, 1, 0, 1500000, 1500000),
    line("2026-11-17T10:00:01.000", RAMP, 2, 1, 500000, 2000000),
    line("2026-11-17T10:50:00.000", DRUM, 1, 13, 4, 4, "\tkept=a.saved"),
    line("2026-11-17T10:55:00.000", DRUM, 1, 11, 0, 0, "\tkept=none"),
    line("2026-11-17T11:00:00.000", DRUM, 1, 12, 7, 7, "\tkept=b.saved"),
    line("2026-11-17T13:15:00.000", DRUM, 0, 25, 0, 0),
    line("2026-11-17T23:59:59.998", RAMP, 1, 0, 1000000, 1000000),
    line("2026-11-17T23:59:59.999", RAMP, 2, 0, 1000000, 2000000),
]

FIRST_TOLD = """\
Firing log of 2026-11-16, from {log}
Images:
  drum & <spot>.words, checksum 1A2B3C4D, version 0.1.0: 4 frames
First frame:            23:59:51.000+01:00
Last frame:             23:59:54.000+01:00
Runs:                   1
Frames:                 4
Steps:                  400
Stops by the program:   0
Ends by a person:       0
Ends that are not told: 1: the frames were used up, the run goes on, or the power failed
Refusals:               0
Faults:                 0
The picture is {svg}
"""
SECOND_TOLD = """\
Firing log of 2026-11-17, from {log}
Images:
  drum & <spot>.words, checksum 1A2B3C4D, version 0.1.0: 5 frames
  ramp.words, checksum 407E1239, version 0.1.0: 4 frames
First frame:            00:00:01.500+01:00
Last frame:             23:59:59.999+01:00
Runs:                   6, of which 1 had begun on another day or in a line that is missing
Frames:                 9
Steps:                  4,000,211
Stops by the program:   1
Ends by a person:       1
Ends that are not told: 1: the frames were used up, the run goes on, or the power failed
Refusals:               1
  13:15:00.000+01:00  answer 25, address 00F0300C, drum & <spot>.words
Faults:                 3
  10:50:00.000+01:00  answer 13, counter 00F0300C, kept in a.saved, drum & <spot>.words
  10:55:00.000+01:00  answer 11, counter 00F0300C, not kept, drum & <spot>.words
  11:00:00.000+01:00  answer 12, counter 00F0300C, kept in b.saved, drum & <spot>.words
{damage}To have the last fault explained: './gpu explain {folder}/b.saved'
The picture is {svg}
"""

GOOD = SECOND_DAY[0]
DAMAGED = [
    "\n", "what is this\n", "x" * 100000 + "\n", "\0" * 300 + "\n", "\udcff\udcfe\n", GOOD[:50] + "\n",
    GOOD.replace("\t", " "), GOOD.replace("11-17", "11-31"), GOOD.replace("T00", "T24"),
    GOOD.replace("answer=0", "answer=99"), GOOD.replace("steps=100", "steps=-5"),
    GOOD.replace("steps=100", "steps=" + "9" * 5000),
    GOOD.replace("crc32=1A2B3C4D", "crc32=1a2b3c4d"), GOOD[:-1] + "\tkept=\n",
]


class Told:
    """What `gpu log` says, in its folder."""

    def __init__(self, folder, content, *words, name="firing.log"):
        self.log = folder / name if name else ""
        if content is not None:
            self.log.write_bytes("".join(content).encode("utf-8", "surrogateescape"))
        out, err = io.StringIO(), io.StringIO()
        with contextlib.redirect_stdout(out), contextlib.redirect_stderr(err):
            try:
                self.status = dispatch(["log", str(self.log), *map(str, words)])
            except SystemExit as ended:
                self.status = ended.code
        self.out, self.err = out.getvalue(), err.getvalue()
        assert not list(folder.glob("*.new")), "a part of a picture was left"

    def expect(self, status, *parts, out=None):
        assert self.status == status, f"ended with {self.status} and not {status}:\n{self.out}{self.err}"
        assert out is None or self.out == out, f"says\n{self.out}\nand not\n{out}"
        said = re.sub(" +", " ", self.out + self.err)
        for part in parts:
            assert part in said, f"'{part}' is not in:\n{said}"
        return self

    def picture(self, path):
        """The kinds of bars and marks of the picture, each with its number; and its texts."""
        root = xml.parse(path).getroot()
        assert (root.tag, root.get("width"), root.get("height")) == (SVG + "svg", "297mm", "210mm"), root.attrib
        assert {each.tag[len(SVG):] for each in root.iter()} <= ELEMENTS, "it has elements of another kind"
        assert "http" not in path.read_text("utf-8").replace('xmlns="http://www.w3.org/2000/svg"', ""), "it needs more"
        self.heights = []
        for bar in root.iter(SVG + "rect"):
            if bar.get("class"):
                x, y, width, height = (float(bar.get(side)) for side in ("x", "y", "width", "height"))
                assert chart.LEFT <= x and x + width <= chart.RIGHT and chart.TOP <= y, "a bar is outside its field"
                assert abs(y + height - chart.BOTTOM) < 0.2, "a bar does not stand on its axis"
                self.heights.append(height)
        texts = ["".join(each.itertext()) for each in root.iter(SVG + "text")]
        return Counter(each.get("class") for each in root.iter() if each.get("class")), texts


def days(folder):
    """The sums of each day in words and as a picture; the last day is taken where none is named."""
    svg = folder / "firing.log.2026-11-17.svg"
    told = Told(folder, FIRST_DAY + SECOND_DAY)
    told.expect(0, out=SECOND_TOLD.format(log=told.log, svg=svg, folder=folder, damage=""))
    marks, texts = told.picture(svg)
    # Steps in the hours 0, 10, 11 and 23; of the three faults two are in one quarter of an hour.
    assert marks == {"bar": 4, "stop": 1, "person": 1, "refusal": 1, "fault": 2}, marks
    # 200, 2,000,011, 7 and 2,000,000 of them; what is too low to be seen is drawn one unit high.
    low, high, lowest, other = told.heights
    assert low == lowest == 1 and high == other == max(told.heights) > 100, told.heights
    assert "Firing log of 2026-11-17" in texts, texts
    assert "6 runs, 9 frames, 4,000,211 steps, from 00:00:01 to 23:59:59" in texts, texts
    assert "drum & <spot>.words, checksum 1A2B3C4D, version 0.1.0" in texts and "in millions" in texts, texts
    assert "Fault at 10:50:00: answer 13, counter 00F0300C, drum & <spot>.words, kept in a.saved" in texts, texts

    svg = folder / "first.svg"
    told = Told(folder, FIRST_DAY + SECOND_DAY, "--day", "2026-11-16", "--svg", svg)
    told.expect(0, out=FIRST_TOLD.format(log=told.log, svg=svg))
    assert told.picture(svg)[0] == {"bar": 1}, "the first day has one bar and no mark"
    # The order of the lines does not matter, nor do line ends of another system.
    told = Told(folder, [each.replace("\n", "\r\n") for each in SECOND_DAY + FIRST_DAY])
    told.expect(0, out=SECOND_TOLD.format(log=told.log, svg=folder / "firing.log.2026-11-17.svg", folder=folder, damage=""))


def damage(folder):
    """Damaged lines change no sum. The first five are told by number; a last line that is cut off is told too."""
    svg = folder / "firing.log.2026-11-17.svg"
    for broken in DAMAGED:
        told = Told(folder, SECOND_DAY[:3] + [broken] + SECOND_DAY[3:])
        told.expect(1, out=SECOND_TOLD.format(log=told.log, svg=svg, folder=folder,
                                              damage="1 line of the log is damaged and passed over: line 4\n"))
    told = Told(folder, DAMAGED[:2] + SECOND_DAY + DAMAGED)
    numbers = "1, 2, 14, 15, 16 and more"
    told.expect(1, out=SECOND_TOLD.format(log=told.log, svg=svg, folder=folder,
                                          damage=f"16 lines of the log are damaged and passed over: lines {numbers}\n"))
    for rest in (SECOND_DAY[-1][:-1], SECOND_DAY[-1][:30], "2", "x" * 50000):
        told = Told(folder, SECOND_DAY + [rest])
        told.expect(1, out=SECOND_TOLD.format(log=told.log, svg=svg, folder=folder,
                                              damage="the last line of the log, line 12, is cut off and passed over\n"))


def missing_lines(folder):
    """A run whose first line is missing counts by its other lines, so that runs, ends and frames fit together."""
    moment = "2026-11-17T10:00:00.000"

    def run(first, last, *end):
        """The lines of a run from a frame to another, and the one that ends it."""
        return [line(moment, RAMP, n, 0, 1, n) for n in range(first, last + 1)] + [line(moment, RAMP, *each) for each in end]

    stop, fault, person = (4, 1, 1, 4), (4, 13, 1, 4, "\tkept=none"), (3, 0, 0, 3, "\tended=SIGTERM")
    refusal = [line(moment, RAMP, 0, 25, 0, 0)]
    for lines, runs, before, frames, untold in (
            (run(1, 3, stop) + run(2, 3, stop), 2, 1, 7, 0), (run(2, 3, stop) + run(2, 3, fault), 2, 2, 6, 0),
            (run(1, 3) + run(2, 3, person), 2, 1, 5, 1), (run(1, 3) + run(3, 5), 2, 1, 6, 2),
            (run(1, 1, stop) + run(4, 3, person), 2, 1, 2, 0), (run(1, 2, person), 1, 0, 2, 0),
            (run(1, 3) + run(1, 3), 2, 0, 6, 2),
            (run(1, 2) + refusal + run(3, 5), 2, 1, 5, 2), (refusal + refusal, 0, 0, 0, 0)):
        more = f", of which {before} had begun on another day or in a line that is missing" if before else ""
        Told(folder, lines).expect(0, f"Runs: {runs}{more}\n", f"Frames: {frames}\n", f"Ends that are not told: {untold}")
    # The first line is damaged, and on the next day the run goes on and ends.
    lines = ["x\n", *run(2, 3), line("2026-11-18T00:00:00.000", RAMP, *person)]
    Told(folder, lines, "--day", "2026-11-17").expect(1, "Runs: 1, of which 1 had begun", "Ends that are not told: 1:")
    Told(folder, lines).expect(1, "Runs: 1, of which 1 had begun", "Frames: 0\n", "Ends by a person: 1\n", "not told: 0\n")


def refused(folder):
    """What can not be read or written is said in a sentence, with status 2."""
    Told(folder, []).expect(2, "gpu log: ", "the log is empty", out="")
    Told(folder, ["a letter\n", "and its second line\n"]).expect(2, "no line in it is one of a firing log", out="")
    Told(folder, [SECOND_DAY[0][:-1]]).expect(2, "no line in it is one of a firing log", out="")
    Told(folder, SECOND_DAY)
    Told(folder, None, name="firing.lgo").expect(2, "there is no such file: is it ", "firing.log", out="")
    Told(folder, None, name=".").expect(2, "this is a folder", out="")
    Told(folder, None, name=None).expect(2, "no log is named", "make log LOG=firing.log", out="")
    Told(folder, SECOND_DAY, "--day", "2026-11-18").expect(2, "has no line of 2026-11-18: its days are 2026-11-17", out="")
    Told(folder, FIRST_DAY + SECOND_DAY, "--day", "2026-11-18").expect(2, "2026-11-16 and 2026-11-17", out="")
    for day in ("17.11.2026", "2026-11-31", "20261117", "today", ""):
        Told(folder, SECOND_DAY, "--day", day).expect(2, f"'{day}' is no day", out="")
    Told(folder, SECOND_DAY, "--svg", "firing.log").expect(2, "must end in .svg", out="")
    (folder / "taken.svg").mkdir()
    for place in ("missing/day.svg", "taken.svg"):
        Told(folder, SECOND_DAY, "--svg", folder / place).expect(2, "the picture can not be written", "Faults: 3\n")
    (folder / "taken.svg").rmdir()


def limits(folder):
    """Days that fill the picture, and a day that has nothing to draw."""
    many = []
    for minute in range(24 * 60):
        moment = f"2026-11-17T{minute // 60:02}:{minute % 60:02}:00.000"
        image = f"{'very ' * 40}long {minute // 60}", "00000000"
        many += [line(moment, image, 1, 1, 10 ** 12, 0), line(moment, image, 1, 13, 10 ** 12, 0, "\tkept=none"),
                 line(moment, image, 1, 0, 0, 0), line(moment, image, 1, 0, 0, 0, "\tended=SIGINT"),
                 line(moment, RAMP, 0, 26, 0, 0)]
    # A person who ends a run in its first frame begins no other by it.
    told = Told(folder, many).expect(0, "Runs: 4,320\n", "not told: 0\n", "Faults: 1,440\n", "and 1,340 more\n")
    marks, texts = told.picture(folder / "firing.log.2026-11-17.svg")
    assert marks == {"bar": 24, "stop": 96, "person": 96, "refusal": 96, "fault": 96}, marks
    assert "and 1,438 more faults, which gpu log tells" in texts and "in million millions" in texts, texts
    assert "and 23 more images" in texts and len(max(texts, key=len)) < 140, texts
    told = Told(folder, SECOND_DAY[8:9])
    told.expect(0, "First frame: none\n", "Runs: 0\n", "not told: 0\n", "Refusals: 1\n")
    assert told.picture(folder / "firing.log.2026-11-17.svg")[0] == {"refusal": 1}
    # A control character would break the picture, and a terminal.
    told = Told(folder, [line("2026-11-17T10:00:00.000", ("a\x1bb", "00000000"), 1, 0, 1, 1)]).expect(0, "a?b, checksum")
    assert told.picture(folder / "firing.log.2026-11-17.svg")[0] == {"bar": 1}


def memory():
    """What is kept does not grow with the number of lines."""
    peaks = []
    for frames in (2000, 20000):
        lines = [line("2026-11-17T10:00:00.000", RAMP, n, 0, 100, 100 * n) for n in range(1, frames)]
        text = io.BytesIO("".join(lines).encode())
        tracemalloc.start()
        firing.read_log(text)
        peaks.append(tracemalloc.get_traced_memory()[1])
        tracemalloc.stop()
    assert peaks[1] < peaks[0] + 20000, f"2,000 lines need {peaks[0]} bytes, and 20,000 need {peaks[1]}"


def of_the_kiosk(folder, kiosk):
    """A log that the kiosk wrote is read without a damaged line, and its sums are those of the runs."""
    log = folder / "kiosk.log"
    # A zone in which it is noon, so that no day ends meanwhile.
    noon = {**os.environ, "TZ": f"NOON{datetime.now(timezone.utc).hour - 12:+d}"}
    ramp, fault, endless = folder / "ramp.bin", folder / "fault.bin", folder / "endless.bin"
    ramp.write_bytes(read_image(ROOT / "examples" / "ramp.words").ram)
    fault.write_bytes(read_image(ROOT / "examples" / "fault.words").ram)
    endless.write_bytes(image_of("D7E0 E400"))
    for status, *words in ((0, "--steps", 50, ramp, 68), (1, fault), (2, fault, 28),
                           (0, "--steps", 7, "--frames", 3, endless)):
        done = subprocess.run([kiosk, "--log", log, *map(str, words)], stdout=subprocess.DEVNULL, env=noon)
        assert done.returncode == status, f"the kiosk ended with {done.returncode} on {words}"
    text = log.read_text()
    day = text[:10]
    kept = re.search(r"kept=(\S+)", text)[1]
    told = Told(folder, None, name="kiosk.log").expect(
        0, f"Firing log of {day}", "First frame: 12:", "Last frame: 1", "Runs: 3\n", "Frames: 8\n", "Steps: 213\n",
        "Stops by the program: 1\n", "Ends that are not told: 1:", "Refusals: 1\n", "Faults: 1\n",
        "answer 26, address 00F0300C", f"answer 13, counter 00F0300C, kept in {kept}", f"'./gpu explain {folder / kept}'")
    marks, _ = told.picture(folder / f"kiosk.log.{day}.svg")
    assert (marks["stop"], marks["refusal"], marks["fault"]) == (1, 1, 1) and marks["bar"] >= 1, marks


def main():
    kiosk = Path(sys.argv[1] if len(sys.argv) > 1 else ROOT / "target" / "kiosk").resolve()
    for test in days, damage, missing_lines, refused, limits:
        with tempfile.TemporaryDirectory() as folder:
            test(Path(os.path.realpath(folder)))
    memory()
    with tempfile.TemporaryDirectory() as folder:
        of_the_kiosk(Path(os.path.realpath(folder)), kiosk)
    print(f"firing log: gpu log sums days up and draws them as the logs have them, past {len(DAMAGED)} kinds of damage")


if __name__ == "__main__":
    main()
