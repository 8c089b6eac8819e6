"""gpu kiosk: the kiosk's program, on an image file of any kind."""

import argparse
import os
import re
import sys
from pathlib import Path

import home
from arguments import add_file, add_length, take_image, take_length, whole
from files import STANDARD_INPUT, Unusable
from processor import RAM_BASE, RAM_LENGTH

SUMMARY = "run a program frame by frame, with a log and a picture where they are wanted"
MORE = """\
The program is checked first where its length is stated or given, and is not run where the check refuses it. Frames follow each
other until the program stops, the frames are used up, or a person ends it with Ctrl-C; then the numbers that it holds are shown.
A program that the check refuses ends it with 2, since nothing was run. docs/KIOSK.md describes the log and the picture.
"""

PICTURE = re.compile(r"(?:\$|0[xX])?([0-9A-Fa-f]{1,8}):([0-9]{1,8})[xX]([0-9]{1,8})(:byte)?")


def arguments(parser):
    add_file(parser)
    add_length(parser)
    parser.add_argument("--frames", metavar="N", type=whole(1, 1000000, "a number of frames"), help="how many frames (default: 10)")
    parser.add_argument("--endless", action="store_true", help="as many frames as it takes, until the program or a person ends it")
    parser.add_argument("--fps", metavar="N", type=whole(1, 1000, "a number of frames a second"),
                        help="frames per second (default: one directly after the other)")
    parser.add_argument("--steps", metavar="N", type=whole(1, 1000000, "a number of steps"),
                        help="steps in a frame (default: 100,000)")
    parser.add_argument("--log", metavar="FILE", help="append a line for each frame; a fault is kept in a file beside it")
    parser.add_argument("--picture", metavar="ADDRESS:WxH[:byte]", type=picture,
                        help="draw so many longs, or bytes, of the memory in each frame, as F03800:16x1")


def picture(text):
    """The picture's place, in the words that the kiosk's program takes. The rules are those of examples/kiosk/picture.h, which
    has them for its own callers; here a wrong place is told before the program starts, and without its usage."""
    def refuse_if(is_wrong, what):
        if is_wrong:
            raise argparse.ArgumentTypeError(f"'{text}': {what}")

    found = PICTURE.fullmatch(text)
    refuse_if(not found, "write ADDRESS:WIDTHxHEIGHT, as F03800:16x1, or F03800:16x1:byte where a pixel is a byte")
    first, width, height = int(found[1], 16), int(found[2]), int(found[3])
    size = width * height * (1 if found[4] else 4)
    refuse_if(size == 0, "the width and the height must be 1 or more")
    refuse_if(first < RAM_BASE or first + size > RAM_BASE + RAM_LENGTH,
              "the picture is not wholly in RAM, F03000 to F03FFF")
    refuse_if(not found[4] and first % 4 != 0,
              "a picture of longs must begin at a multiple of 4; for a picture of bytes put :byte behind it")
    return text


def run(given):
    if given.endless and given.frames:
        raise Unusable("--endless and --frames exclude each other: leave one of them out")
    image = take_image(given, "kiosk")
    program = home.kiosk()
    length = take_length(given, image, "kiosk") if given.length is not None or image.length is not None else None
    words = [program, *options(given, image), *commands(given, length), handed_over(image.ram)]
    words += [str(length)] if length is not None else []
    sys.stdout.flush()
    try:
        # The kiosk takes this process's place, so that a signal reaches it and its status is the command's.
        os.execv(program, words)
    except OSError as error:
        raise home.NotWhole(f"{program} does not start: {error.strerror}")


def options(given, image):
    """The words for the kiosk's program that come before the image."""
    words = ["--name", Path(image.path).name]
    for name in ("frames", "log", "fps", "steps", "picture"):
        value = getattr(given, name)
        if value is not None:
            words += [f"--{name}", str(value)]
    return words + ["--endless"] * given.endless


def commands(given, length):
    """The commands that the kiosk's program tells for an explanation, as they can be typed here, with no quotes around them."""
    words = ["--gpu", home.typed()[1:-1]]
    if given.file != STANDARD_INPUT:
        more = ["--length", length] if length is not None else []
        words += ["--explain", home.typed("explain", given.file, *more)[1:-1]]
    return words


def handed_over(ram):
    """The name of a file that holds these bytes: a pipe, which has room for them and leaves nothing behind."""
    reading, writing = os.pipe()
    os.write(writing, ram)
    os.close(writing)
    os.set_inheritable(reading, True)
    return f"/dev/fd/{reading}"
