"""Holds what the example kiosk logs, keeps, shows and refuses to the model, and the order of its calls, screen and log to
docs/KIOSK.md.

    python3 tests/kiosk_log.py [KIOSK]      by default target/kiosk
"""

import argparse
import fcntl
import os
import pty
import re
import resource
import signal
import struct
import subprocess
import sys
import tempfile
import termios
import time
import zlib
from contextlib import suppress
from datetime import datetime, timedelta
from pathlib import Path

ROOT = Path(__file__).resolve().parent.parent
VERSION = (ROOT / "VERSION").read_text("ascii").strip()
sys.path.insert(0, str(ROOT / "tools"))

from images import image_of, read_image
from kiosk import picture
from kiosk_page import block_of
from machine import RAM_BASE, START, run

RAMP = read_image(ROOT / "examples" / "ramp.words").ram
RAMP_LENGTH = 68
FAULTY = read_image(ROOT / "examples" / "fault.words").ram
CARD = read_image(ROOT / "examples" / "card.words").ram
# JR to itself and NOP: a program that never stops.
ENDLESS = image_of("D7E0 E400")
# MOVEI #F03800h,R2; MOVEI #FFh,R3; STORE R3,(R2); and a word that is no instruction.
BRIGHT_THEN_FAULTY = image_of("9802 3800 00F0 9803 00FF 0000 BC43 FC00")

CHECKED = "The program was checked: it runs without a fault and keeps its code.\n"
UNCHECKED = "The program was not checked. Give its length (--length N, or N behind the image) to have it checked.\n"
# What docs/KIOSK.md says of the picture: a blank for 0 to 51, and so on.
SHADES = {51: " ", 102: "░", 153: "▒", 204: "▓", 255: "█"}

LINE = re.compile(r"(\d{4}-\d\d-\d\dT\d\d:\d\d:\d\d\.\d{3}[+-]\d\d:\d\d)\timage=([^\t]*)\tcrc32=([0-9A-F]{8})"
                  r"\tversion=([^\t]*)\tframe=(\d+)\tanswer=(\d+)\tsteps=(\d+)\ttotal=(\d+)\tcounter=([0-9A-F]{8})"
                  r"(?:\t(kept|ended)=([^\t]+))?\n")

# Far longer than anything here takes, so that a kiosk that hangs fails the test.
PATIENCE = 30

# F_SETPIPE_SZ of Linux, which fcntl has only from python 3.10 on.
SET_PIPE_SIZE = 1031


class Failed(Exception):
    pass


def hold(is_so, message):
    if not is_so:
        raise Failed(message)


# What the model says.

def frames(ram, steps, count=10 ** 6):
    """For each frame: frame, answer, steps, total, counter; and RAM and state after it."""
    state, total, answer, frame = START, 0, 0, 0
    while answer == 0 and frame < count:
        answer, done, ram, state = run(ram, state, steps)
        frame, total = frame + 1, total + done
        yield (frame, answer, done, total, state.pc), ram, state


def lines_of(told):
    """The entries of frames that end without a further field."""
    return [(*each, None, None) for each, _, _ in told]


def shown(ram, address, width, height, size=4):
    """A window of RAM in block characters."""
    first = address - RAM_BASE
    values = [int.from_bytes(ram[at:at + size], "big") for at in range(first, first + width * height * size, size)]
    pixels = [2 * next((SHADES[bound] for bound in SHADES if value <= bound), "█") for value in values]
    return "".join("".join(pixels[row * width:(row + 1) * width]) + "\n" for row in range(height))


def frame_line(told):
    return f"frame {told[0]}: {told[3]} steps so far, counter {told[4]:08X}\n"


# The kiosk.

def entries(text, image, name):
    """The lines of a log, each as (frame, answer, steps, total, counter, key, value). All are of that image, in order."""
    hold(text.endswith("\n") or not text, f"the log's last line is cut off: {text[-200:]!r}")
    found, before = [], None
    for line in text.splitlines(keepends=True):
        match = LINE.fullmatch(line)
        hold(match is not None, f"this is no line of a log: {line!r}")
        moment = datetime.fromisoformat(match[1])
        hold(before is None or before <= moment, f"the time goes back at {line!r}")
        before = moment
        hold(match.group(2, 3, 4) == (name, f"{zlib.crc32(image):08X}", VERSION), f"{line!r} is not of {name}")
        found.append((*map(int, match.group(5, 6, 7, 8)), int(match[9], 16), match[10], match[11]))
    return found


class Kiosk:
    def __init__(self, program, folder):
        self.program, self.folder = program, folder
        self.log = folder / "firing.log"
        self.image = folder / "image.bin"
        self.checks = 0

    def fresh(self, image):
        """No log, and this image."""
        for path in self.folder.iterdir():
            path.unlink()
        self.image.write_bytes(image)
        self.checks += 1

    def start(self, *words, before=None, stdout=subprocess.PIPE, **how):
        """Starts the kiosk; `before` is called in its process first."""
        def prepare():
            # A shell may have had a signal ignored, and that would be inherited.
            for each in (signal.SIGINT, signal.SIGTERM, signal.SIGHUP):
                signal.signal(each, signal.SIG_DFL)
            if before is not None:
                before()
        return subprocess.Popen([self.program, *map(str, words)], cwd=self.folder, preexec_fn=prepare, stdout=stdout,
                                stderr=subprocess.PIPE, **how)

    def run(self, status, *words, **how):
        """What the kiosk says on standard output and on standard error."""
        process = self.start(*words, **how)
        try:
            out, err = process.communicate(timeout=PATIENCE)
        finally:
            process.kill()
        out, err = (out or b"").decode(), (err or b"").decode()
        hold(process.returncode == status, f"{words} ended with {process.returncode}, not {status}:\n{out}{err}")
        return out, err

    def entries(self, image, name="image.bin"):
        return entries(self.log.read_text(), image, name)

    def wait_for_lines(self, process, count):
        """Waits until the log has so many lines."""
        end = time.monotonic() + PATIENCE
        while not self.log.exists() or self.log.read_bytes().count(b"\n") < count:
            hold(time.monotonic() < end and process.poll() is None, f"the log does not come to {count} lines")
            time.sleep(0.002)


def ramp(kiosk):
    """Each frame's line and picture are the model's, and the picture stands above its line."""
    told = list(frames(RAMP, 50))
    for window, place in (("F03800:16x1", (0xF03800, 16, 1, 4)), ("F03800:4x4", (0xF03800, 4, 4, 4)),
                          ("F03800:64x1:byte", (0xF03800, 64, 1, 1)), ("f03000:32x128:byte", (0xF03000, 32, 128, 1)),
                          ("0xF03800:16X1", (0xF03800, 16, 1, 4)), ("$F03800:64X1:byte", (0xF03800, 64, 1, 1))):
        kiosk.fresh(RAMP)
        out, _ = kiosk.run(0, "--log", "firing.log", "--name", "ramp.words", "--steps", 50, "--picture", window, "image.bin",
                           RAMP_LENGTH)
        wanted = CHECKED + "".join(shown(ram, *place) + frame_line(each) for each, ram, _ in told)
        wanted += ("The program stopped itself.\n"
                   f"answer 1 after 188 steps, in frame 4\nimage ramp.words, checksum {zlib.crc32(RAMP):08X}\n")
        hold(out.startswith(wanted), f"the picture {window} is\n{out}and not\n{wanted}")
        hold(kiosk.entries(RAMP, "ramp.words") == lines_of(told), "the log of the ramp is not the model's")


def shades(kiosk):
    """Every value of a byte, and longs that are higher than any byte."""
    longs = b"".join(n.to_bytes(4, "big") for n in (0, 51, 52, 255, 256, 0x80000000, 0xFFFFFFFF))
    for there, window, place in ((bytes(range(256)), "F03800:16x16:byte", (0xF03800, 16, 16, 1)),
                                 (longs, "F03800:7x1", (0xF03800, 7, 1, 4))):
        image = ENDLESS[:0x800] + there + ENDLESS[0x800 + len(there):]
        kiosk.fresh(image)
        out, _ = kiosk.run(0, "--frames", 1, "--picture", window, "image.bin")
        hold(out.startswith(UNCHECKED + shown(image, *place) + "frame 1: "), f"{window} is shown as\n{out}")


def page(kiosk):
    """The page has the fields that a line has, in the same order."""
    text = (ROOT / "docs" / "KIOSK.md").read_text("utf-8")
    table = text[text.index("\n## The firing log\n"):text.index("\n## Pacing and the picture\n")]
    kiosk.fresh(FAULTY)
    kiosk.run(1, "--log", "firing.log", "image.bin")
    fields = [each.split("=")[0] for each in kiosk.log.read_text().split("\t")[1:]] + ["ended"]
    hold(re.findall(r"^\| `(\w+)` \|", table, re.MULTILINE) == fields, f"docs/KIOSK.md has not the fields {fields}")


def without_options(kiosk):
    """No option: ten frames of 100,000 steps, and no file is written."""
    kiosk.fresh(ENDLESS)
    out, err = kiosk.run(0, "image.bin", 4)
    last = [each for each, _, _ in frames(ENDLESS, 2, 1)][0][4]
    wanted = [frame_line((n, 0, 0, 100000 * n, last)) for n in range(1, 11)]
    hold(out.startswith(CHECKED + "".join(wanted) + "The program is still running, and its frames are used up.\n"), out)
    hold(err == "", err)
    hold(os.listdir(kiosk.folder) == ["image.bin"], "the kiosk has written a file that nobody asked for")
    # One that the check has not seen, with a number of frames.
    out, _ = kiosk.run(0, "--frames", 3, "image.bin")
    hold(out.startswith(UNCHECKED + "".join(wanted[:3]) + "The program is still running"), out)
    hold(kiosk.run(0, "image.bin", 4, 3)[0].count("\nframe ") == 3, "three frames were asked for")


def dates(kiosk):
    """The time is that of the zone, and of the run."""
    kiosk.fresh(CARD)
    before = datetime.now().astimezone() - timedelta(milliseconds=1)
    kiosk.run(0, "--log", "firing.log", "image.bin", env={**os.environ, "TZ": "ABC-5:30"})
    after = datetime.now().astimezone()
    text = kiosk.log.read_text().split("\t")[0]
    hold(text.endswith("+05:30") and before <= datetime.fromisoformat(text) <= after, f"{text} is not the time")
    kiosk.run(0, "--log", "firing.log", "image.bin", env={**os.environ, "TZ": "ABC+3"})
    hold(kiosk.log.read_text().splitlines()[1].split("\t")[0].endswith("-03:00"), "the zone of a run in the west is wrong")


def several_runs(kiosk):
    """Runs follow each other in one file. A name that would break a line does not."""
    kiosk.fresh(CARD)
    told = lines_of(frames(CARD, 100000))
    for _ in range(3):
        kiosk.run(0, "--log", "firing.log", "--name", "a\tb\nc\x7f.words", "image.bin", 16)
    hold(kiosk.entries(CARD, "a?b?c?.words") == told * 3, "three runs are not three times the lines of one")


def faults(kiosk):
    """A fault's frame is shown, and RAM and block before the faulty step are kept."""
    for image, steps, window in ((FAULTY, 100000, ""), (FAULTY, 3, ""), (BRIGHT_THEN_FAULTY, 2, "F03800:1x1")):
        kiosk.fresh(image)
        picture = ["--picture", window] if window else []
        out, err = kiosk.run(1, "--log", kiosk.log, "--steps", steps, *picture, "image.bin")
        *whole, (last, ram, state) = frames(image, steps)
        *lines, (*ended, key, kept) = kiosk.entries(image)
        hold(lines == lines_of(whole) and tuple(ended) == last and key == "kept", "the log of a fault is not the model's")
        hold((kiosk.folder / kept).read_bytes() == ram + block_of(state), "what was kept is not as before the faulty step")
        hold(re.fullmatch(r"firing\.log\.\d{8}-\d{6}\.saved", kept), f"{kept} is no name for what was kept")
        hold(f"explained: gpu explain {kiosk.folder / kept}\n" in out and not err, out)
        wanted = "".join((shown(ram, 0xF03800, 1, 1) if window else "") + frame_line(each) for each, ram, _ in whole)
        wanted += shown(ram, 0xF03800, 1, 1) if window else ""
        hold(out.startswith(UNCHECKED + wanted + "The program "), f"a fault is shown as\n{out}and not as\n{wanted}")


def kept_files(kiosk):
    """What was kept before is not overwritten. A fault that can not be kept is logged all the same."""
    # The first two names of the next seconds are taken.
    seconds = [(datetime.now() + timedelta(seconds=n)).strftime("%Y%m%d-%H%M%S") for n in range(-1, 5)]
    kiosk.fresh(FAULTY)
    for second in seconds:
        for more in "", "-2":
            (kiosk.folder / f"firing.log.{second}{more}.saved").write_text("an earlier fault")
    kiosk.run(1, "--log", "firing.log", "image.bin")
    kept = kiosk.entries(FAULTY)[-1][-1]
    hold(re.fullmatch(r"firing\.log\.\d{8}-\d{6}-3\.saved", kept), f"it was kept in {kept}")
    hold(len((kiosk.folder / kept).read_bytes()) == len(FAULTY) + len(block_of(START)), f"{kept} has a wrong length")
    earlier = sum(path.read_bytes() == b"an earlier fault" for path in kiosk.folder.iterdir())
    hold(earlier == 2 * len(seconds), "an earlier fault was overwritten")

    # A name that the file system does not take.
    kiosk.fresh(FAULTY)
    kiosk.log = kiosk.folder / ("l" * 250)
    _, err = kiosk.run(1, "--log", kiosk.log.name, "image.bin")
    hold(kiosk.entries(FAULTY)[-1][-2:] == ("kept", "none") and "could not be kept" in err, f"kept nowhere: {err}")
    kiosk.log = kiosk.folder / "firing.log"

    # Without a log nothing is kept.
    kiosk.fresh(FAULTY)
    kiosk.run(1, "image.bin")
    hold(os.listdir(kiosk.folder) == ["image.bin"], "a fault was kept without a log")


def explanations(kiosk):
    """The command that is told for an explanation works as it is typed, and is that of the caller where nothing is kept."""
    words = ["--gpu", "printf '%s\\n'", "--explain", "gpu explain x.words"]
    for name in ("firing.log", "a b.log", "it's.log", "$HOME;(&).log", "ä.log"):
        kiosk.fresh(FAULTY)
        out, _ = kiosk.run(1, "--log", name, *words, "image.bin")
        command = re.search(r"^Memory and registers are kept in a file\. To have it explained: (.+)$", out, re.MULTILINE)[1]
        typed = subprocess.run(command, shell=True, stdout=subprocess.PIPE, check=True).stdout.decode().splitlines()
        kept = [path.name for path in kiosk.folder.glob("*.saved")]
        hold(typed == ["explain", *kept] and len(kept) == 1, f"{command} is typed for {kept}")
        hold("gpu explain x.words" not in out, out)
    for status, *more in (1, "image.bin"), (2, "image.bin", 28):
        out, _ = kiosk.run(status, *words, *more)
        hold("\nTo have it explained: gpu explain x.words\n" in out and out.count("explained") == 1, out)
        hold(f"\nimage image.bin, checksum {zlib.crc32(FAULTY):08X}\n" in out, out)
        hold("explained" not in kiosk.run(status, *more)[0], "a command is told that nobody gave")


def refusals(kiosk):
    """A refused program has one line: no frame, no step, and the address that the check tells."""
    for image, words, answer, address in ((CARD, [12], 25, 0xF0300A), (FAULTY, [28], 26, 0xF0300C), (CARD, [27], 33, 0),
                                          (CARD, ["four"], 33, 0), (CARD[:-1], [16], 31, 0), (CARD[:-1], [], 31, 0xF03000)):
        kiosk.fresh(image)
        out, _ = kiosk.run(2, "--log", "firing.log", "--picture", "F03800:4x4", "image.bin", *words)
        hold(kiosk.entries(image) == [(0, answer, 0, 0, address, None, None)], f"refusal {answer}: {kiosk.log.read_text()}")
        hold(f"answer {answer} " in out and "frame 1:" not in out and "█" not in out, out)


def signals(kiosk):
    """A person ends an endless run: the frame under way is whole, and a closing line tells which signal it was."""
    for number, name in ((signal.SIGINT, "SIGINT"), (signal.SIGTERM, "SIGTERM"), (signal.SIGHUP, "SIGHUP")):
        kiosk.fresh(ENDLESS)
        process = kiosk.start("--log", "firing.log", "--endless", "--fps", 500, "--steps", 3, "image.bin", 4)
        kiosk.wait_for_lines(process, 4)
        process.send_signal(number)
        out = process.communicate(timeout=PATIENCE)[0].decode()
        *lines, closing = kiosk.entries(ENDLESS)
        told = [each for each, _, _ in frames(ENDLESS, 3, len(lines))]
        hold(process.returncode == 0 and len(lines) >= 4, f"{name} ended it with {process.returncode}")
        hold(lines == lines_of(frames(ENDLESS, 3, len(lines))), "the frames before a signal are not the model's")
        frame, answer, _, *reached = told[-1]
        hold(closing == (frame, answer, 0, *reached, "ended", name), f"the closing line of {name} is {closing}")
        hold("".join(map(frame_line, told)) + "A person ended it.\nanswer 0 after" in out, out)
        hold("bank 1, R0 to R31" in out, out)

    # A sleep ends at once, and so does a run without pauses. On a busy machine it may take longer, but not each time.
    for words in ["--fps", 1], []:
        hold(any(ends_at_once(kiosk, words) for _ in range(5)), "a signal was slept through")

    # What nohup has ignored stays ignored.
    kiosk.fresh(ENDLESS)
    process = kiosk.start("--log", "firing.log", "--endless", "--fps", 500, "image.bin", 4,
                          before=lambda: signal.signal(signal.SIGHUP, signal.SIG_IGN))
    kiosk.wait_for_lines(process, 2)
    process.send_signal(signal.SIGHUP)
    kiosk.wait_for_lines(process, kiosk.log.read_bytes().count(b"\n") + 5)
    process.send_signal(signal.SIGTERM)
    process.communicate(timeout=PATIENCE)
    hold(kiosk.entries(ENDLESS)[-1][-1] == "SIGTERM", "a signal that is ignored has ended it")


def ends_at_once(kiosk, words):
    """Whether a run of one frame a second, or without pauses, ends before the second is over."""
    kiosk.fresh(ENDLESS)
    process = kiosk.start("--log", "firing.log", "--endless", *words, "image.bin", 4, stdout=subprocess.DEVNULL)
    kiosk.wait_for_lines(process, 1)
    sent = time.monotonic()
    process.send_signal(signal.SIGTERM)
    process.communicate(timeout=PATIENCE)
    took = time.monotonic() - sent
    hold(process.returncode == 0 and kiosk.entries(ENDLESS)[-1][-1] == "SIGTERM", "a signal in a sleep has no closing line")
    return took < 0.8


def pacing(kiosk):
    """Frames are not faster than they should be, also behind a pause that somebody else made."""
    kiosk.fresh(ENDLESS)
    began = time.monotonic()
    out, _ = kiosk.run(0, "--fps", 50, "--frames", 10, "image.bin", 4)
    hold(out.count("\nframe ") == 10 and time.monotonic() - began >= 0.18, "ten frames at 50 a second took less than 0.18 s")

    kiosk.fresh(ENDLESS)
    began = time.monotonic()
    process = kiosk.start("--log", "firing.log", "--fps", 50, "--frames", 15, "image.bin", 4)
    kiosk.wait_for_lines(process, 2)
    process.send_signal(signal.SIGSTOP)
    time.sleep(0.3)
    process.send_signal(signal.SIGCONT)
    process.communicate(timeout=PATIENCE)
    hold(time.monotonic() - began >= 0.3 + 12 * 0.02 - 0.005, "frames that were missed in a pause were made up for")


def stand_still(reading):
    """Waits until a process has filled a pipe and can not go on."""
    before, end = -1, time.monotonic() + PATIENCE
    while True:
        time.sleep(0.05)
        now = struct.unpack("i", fcntl.ioctl(reading, termios.FIONREAD, b"\0" * 4))[0]
        if now and now == before:
            return
        hold(time.monotonic() < end, "a pipe is never filled")
        before = now


def end_where_it_stands(process, reading):
    """Ends a kiosk that can not go on, in the middle of what it was doing."""
    stand_still(reading)
    process.kill()
    process.communicate(timeout=PATIENCE)


def hold_order(lines, painted):
    """The screen is not older than the log's last line, and not more than one frame newer."""
    hold(3 < lines <= painted <= lines + 1, f"the log has {lines} lines, and {painted} frames were painted")


def screen_before_log(kiosk):
    """A screen that takes no more holds the kiosk in the middle of a frame: no line of that frame is in the log."""
    kiosk.fresh(ENDLESS)
    reading, writing = os.pipe()
    fcntl.fcntl(writing, SET_PIPE_SIZE, 4096)
    process = kiosk.start("--log", "firing.log", "--endless", "--picture", "F03000:16x4", "image.bin", 4, stdout=writing)
    os.close(writing)
    end_where_it_stands(process, reading)
    with open(reading, "rb") as screen:
        hold_order(len(kiosk.entries(ENDLESS)), screen.read().count(b"frame "))


def signals_on_a_full_screen(kiosk):
    """A signal while the screen takes no more: the frame is logged when it is shown, and never before. A second signal ends
    the kiosk at once, but for one directly behind the first, as timeout and a terminal that is closed send it."""
    for sent, pause, waits in (([signal.SIGTERM], 0, True), ([signal.SIGINT], 0, True),
                               ([signal.SIGTERM, signal.SIGTERM], 0, True), ([signal.SIGHUP, signal.SIGTERM], 0, True),
                               ([signal.SIGTERM, signal.SIGTERM], 0.7, False), ([signal.SIGHUP, signal.SIGINT], 0.7, False)):
        kiosk.fresh(ENDLESS)
        reading, writing = os.pipe()
        fcntl.fcntl(writing, SET_PIPE_SIZE, 4096)
        process = kiosk.start("--log", "firing.log", "--endless", "--picture", "F03000:16x4", "image.bin", 4, stdout=writing)
        os.close(writing)
        stand_still(reading)
        before = kiosk.log.read_bytes()
        for each in sent:
            process.send_signal(each)
            time.sleep(pause)
        if waits:
            time.sleep(0.1)
            hold(process.poll() is None, f"{sent}: the kiosk ended with {process.poll()}")
        else:
            process.wait(PATIENCE)
        hold(kiosk.log.read_bytes() == before, f"{sent}: a line was written of a frame that was not shown")
        with open(reading, "rb") as screen:
            out = screen.read()
        err = process.communicate(timeout=PATIENCE)[1]
        found = kiosk.entries(ENDLESS)
        painted = out.count(b"frame ") - out.count(b"in frame ")
        if waits:
            hold(process.returncode == 0 and not err, f"{sent}: ended with {process.returncode}: {err}")
            hold(found[-1][-2:] == ("ended", sent[0].name) and b"A person ended it." in out, f"{sent}: {found[-1]}")
            # The frame under way is the last, and both have it.
            hold(found[-1][0] == found[-2][0] == len(found) - 1 == painted, f"{sent}: {painted} frames, {len(found)} lines")
        else:
            hold(process.returncode == -sent[-1], f"{sent}: ended with {process.returncode}")
            hold(all(each[-2] is None for each in found), f"{sent}: {found[-1]}")
            hold_order(len(found), painted)


def log_before_next_call(kiosk):
    """A log that takes no more holds the kiosk behind the painting of a frame: no further frame has been run."""
    kiosk.fresh(ENDLESS)
    os.mkfifo(kiosk.log)
    reading = os.open(kiosk.log, os.O_RDONLY | os.O_NONBLOCK)
    fcntl.fcntl(reading, SET_PIPE_SIZE, 4096)
    screen = kiosk.folder / "screen"
    with open(screen, "wb") as out:
        process = kiosk.start("--log", "firing.log", "--endless", "--picture", "F03000:16x4", "image.bin", 4, stdout=out)
        end_where_it_stands(process, reading)
    lines = entries(os.read(reading, 1 << 16).decode(), ENDLESS, "image.bin")
    os.close(reading)
    hold_order(len(lines), screen.read_bytes().count(b"frame "))


def unwritable(kiosk):
    """A log that can not be written stops the kiosk: at once where it can not be opened, else before the next call."""
    kiosk.fresh(ENDLESS)
    for path in ("missing/firing.log", ".", "image.bin/firing.log"):
        out, err = kiosk.run(2, "--log", path, "image.bin", 4)
        hold(out == "" and f"the log {path} can not be opened" in err, f"{path}: {out}{err}")
    out, err = kiosk.run(2, "--log", "/dev/full", "image.bin", 4)
    hold(out.count("frame 1:") == 1 and "frame 2:" not in out and "/dev/full can not be written" in err, out + err)
    # The disk is full in the middle of the fourth line; the kiosk stops behind that frame, and a later run goes on.
    kiosk.fresh(CARD)
    kiosk.run(0, "--log", "firing.log", "image.bin", 16)
    limit = kiosk.log.stat().st_size * 7 // 2
    kiosk.fresh(ENDLESS)
    out, err = kiosk.run(2, "--log", "firing.log", "--steps", 3, "--endless", "image.bin", 4,
                         before=lambda: resource.setrlimit(resource.RLIMIT_FSIZE, (limit, limit)))
    told = lines_of(frames(ENDLESS, 3, 3))
    whole, _, rest = kiosk.log.read_text().rpartition("\n")
    hold(entries(whole + "\n", ENDLESS, "image.bin") == told and rest, f"the log of a full disk is {whole}\n{rest}")
    hold(out.count("\nframe ") == 4 and "can not be written (File too large)" in err, out + err)
    kiosk.run(0, "--log", "firing.log", "--steps", 3, "--frames", 3, "image.bin", 4)
    hold(entries(kiosk.log.read_text().replace(rest + "\n", ""), ENDLESS, "image.bin") == told * 2, kiosk.log.read_text())
    # What is no log is not written into.
    for content in (CARD, b"; length: 16 bytes\n9801 2114 00F0\n", b"2026-11-17 was a Tuesday\n", b"\n"):
        kiosk.fresh(ENDLESS)
        kiosk.log.write_bytes(content)
        out, err = kiosk.run(2, "--log", "firing.log", "image.bin", 4)
        hold(out == "" and "is no firing log" in err and kiosk.log.read_bytes() == content, f"{content[:20]}: {out}{err}")


def no_screen(kiosk):
    """A screen that can not be written stops the kiosk behind the frame's line."""
    reading, unread = os.pipe()
    os.close(reading)
    with open("/dev/full", "wb") as full:
        # The last two have no standard output at all, and the very last no standard error; neither may be the log by chance.
        for how, told in (({"stdout": full}, True), ({"stdout": unread}, True), ({"before": lambda: os.close(1)}, True),
                          ({"before": lambda: os.closerange(1, 3)}, False)):
            kiosk.fresh(ENDLESS)
            _, err = kiosk.run(2, "--log", "firing.log", "--steps", 100, "image.bin", 4, **how)
            hold(("standard output, can not be written" in err) == told, f"{how}: {err}")
            hold(kiosk.entries(ENDLESS) == lines_of(frames(ENDLESS, 100, 1)), f"{how}: {kiosk.log.read_text()}")
    os.close(unread)


def cut_off(kiosk):
    """A line that was cut off is ended first, and spoils no other."""
    told = lines_of(frames(CARD, 100000))
    kiosk.fresh(CARD)
    kiosk.run(0, "--log", "firing.log", "image.bin")
    whole = kiosk.log.read_text()
    for before in (whole[:40], whole[:6], whole + whole[:70], whole[:6] + "\n" + whole, whole[:-1], whole):
        kiosk.fresh(CARD)
        kiosk.log.write_text(before)
        kiosk.run(0, "--log", "firing.log", "image.bin")
        after = kiosk.log.read_text()
        before += "" if before.endswith("\n") else "\n"
        hold(after.startswith(before), f"{before!r} became {after!r}")
        hold(entries(after[len(before):], CARD, "image.bin") == told, f"behind {before!r} stands {after!r}")


def all_of(keyboard):
    """What came to a terminal that nobody writes to any more; it may come in several pieces."""
    out = b""
    with open(keyboard, "rb", 0) as file:
        # The end is told as an error.
        with suppress(OSError):
            while piece := file.read(1 << 16):
                out += piece
    return out


def terminals(kiosk):
    """On a terminal a frame is painted over the one before. A terminal that is too small is refused."""
    for rows, columns, fits in ((24, 80, True), (3, 33, True), (2, 80, False), (24, 32, False), (0, 0, True)):
        kiosk.fresh(RAMP)
        keyboard, terminal = pty.openpty()
        fcntl.ioctl(terminal, termios.TIOCSWINSZ, struct.pack("HHHH", rows, columns, 0, 0))
        _, err = kiosk.run(0 if fits else 2, "--steps", 50, "--picture", "F03800:16x1", "image.bin", RAMP_LENGTH,
                           stdout=terminal)
        os.close(terminal)
        out = all_of(keyboard)
        wanted = "".join("\x1b[H" + shown(ram, 0xF03800, 16, 1)[:-1] + "\x1b[K\n\x1b[J" + frame_line(told)
                         for told, ram, _ in frames(RAMP, 50))
        if fits:
            hold(out.decode().replace("\r", "").startswith(CHECKED + wanted), f"the terminal shows {out.decode()!r}")
        else:
            hold(f"33 columns and 3 lines, and the terminal has {columns} and {rows}" in err, err)


# Words of the command line that are wrong, and what is said of them.
NUMBER = "give a number from 1 to "
FORM, OUTSIDE = "write ADDRESS:WIDTHxHEIGHT", "the picture is not wholly in RAM"
NOT_ALIGNED = "a picture of longs must begin at a multiple of 4"
WRONG = [
    ("", "IMAGE: no image is named"), ("--endless", "IMAGE: no image is named"),
    ("--fps", "--fps: the word behind it is missing"), ("--speed 5 image.bin", "--speed: there is no such option"),
    ("-- image.bin", "--: there is no such option"), ("--fps 0 image.bin", f"--fps 0: {NUMBER}1000\n"),
    ("--fps 1001 image.bin", f"--fps 1001: {NUMBER}1000\n"), ("--fps -1 image.bin", "--fps -1: "),
    ("--fps 1.5 image.bin", "--fps 1.5: "), ("--fps  image.bin", f"--fps: {NUMBER}"),
    ("--steps 1000001 image.bin", f"--steps 1000001: {NUMBER}1000000\n"), ("--steps +5 image.bin", "--steps +5: "),
    ("--frames 99999999999999999999999 image.bin", f"--frames 99999999999999999999999: {NUMBER}1000000\n"),
    ("image.bin 16 0", f"FRAMES 0: {NUMBER}1000000\n"), ("image.bin 16 5 6", "6: this is a word too many"),
    ("image.bin --log x.log", "--log: options stand before the image"),
    ("--endless image.bin 16 5", "--endless: a number of frames was given too"),
    ("--endless --frames 5 image.bin", "--endless: a number of frames was given too"),
    ("--frames 5 image.bin 16 5", "5: the number of frames was given by --frames already"),
    ("--log --fps 5 image.bin", "--log --fps: the name of the file is missing"),
    ("--log  image.bin", "--log: the name of the file is missing"),
    ("--picture F03800:0x4 image.bin", "--picture F03800:0x4: the width and the height must be 1 or more"),
    *((f"--picture {word} image.bin", f"--picture {word}: {what}") for what, words in (
        (FORM, "F03800 F03800:16 F03800:16x F03800:16x1: F03800:16x1:long F03800:16x1:bytes F03800:-1x1 F03800:1*1 "
               "0xF03800 $:1x1 0x:1x1 $0xF03800:1x1 F03800:1xX1 F03800h:1x1 123456789:1x1 :1x1"),
        (OUTSIDE, "F02FFC:1x1 0xF04000:1x1 $3000:1X1 F03FFF:2x1:byte F03800:16x33 F04000:1x1 0:1x1 "
                  "FFFFFFFF:1x1:byte F03000:99999999x99999999"),
        (NOT_ALIGNED, "F03801:1x1 F03802:1x1")) for word in words.split()),
]


def wrong_words(kiosk):
    """A wrong word is named, with what is right; nothing is run and nothing is written."""
    kiosk.fresh(CARD)
    for command, what in WRONG:
        out, err = kiosk.run(2, *command.split(" ")) if command else kiosk.run(2)
        hold(out == "" and err.startswith(f"kiosk: {what}") and "\nusage: kiosk " in err, f"'{command}': {out}{err}")
        # gpu kiosk says the same of a picture, before it starts the program.
        if command.startswith("--picture "):
            window = command.split(" ")[1]
            try:
                picture(window)
                hold(False, f"gpu kiosk takes {window}")
            except argparse.ArgumentTypeError as refusal:
                hold(f"kiosk: --picture {window}{str(refusal)[len(window) + 2:]}\n" in err, f"{refusal}, and {err}")
    hold(os.listdir(kiosk.folder) == ["image.bin"], "a wrong command has written a file")
    hold(kiosk.run(0, "--help")[0].startswith("usage: kiosk "), "--help does not tell the usage")
    for window in ("F03FFC:1x1", "F03FFF:1x1:byte", "F03000:32x32", "0xF03000:64x64:byte", "0Xf03ffc:1X1", "$F03FFC:1x1"):
        kiosk.run(0, "--picture", picture(window), "image.bin")


def main():
    program = Path(sys.argv[1] if len(sys.argv) > 1 else ROOT / "target" / "kiosk").resolve()
    header = (ROOT / "include" / "gpu.h").read_text()
    if f'#define GPU_VERSION "{VERSION}"\n' not in header:
        sys.exit("kiosk log: include/gpu.h has another version than the file VERSION")
    with tempfile.TemporaryDirectory() as folder:
        kiosk = Kiosk(program, Path(folder))
        for test in (ramp, shades, page, without_options, dates, several_runs, faults, kept_files, explanations, refusals,
                     signals, pacing, screen_before_log, signals_on_a_full_screen, log_before_next_call, unwritable,
                     no_screen, cut_off, terminals, wrong_words):
            try:
                test(kiosk)
            except Failed as what:
                sys.exit(f"kiosk log: {test.__name__}: {what}")
    print(f"kiosk log: {kiosk.checks} runs are logged, shown, paced and ended as the model and docs/KIOSK.md have it")


if __name__ == "__main__":
    main()
