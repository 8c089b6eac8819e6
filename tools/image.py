#!/usr/bin/env python3
"""gpu image: an image file of any kind as the 4,096 bytes of local RAM, which a kiosk of one's own reads.

It is a script too, with the same words: tools/image.py FILE.
"""

import sys

import command
from arguments import take_image
from files import Unusable

SUMMARY = "make an image of 4,096 bytes from a program file, for a kiosk of your own"
MORE = """\
The form of a program file stands in docs/KIOSK.md. The length of its code is told on standard error.
"""


def arguments(parser):
    parser.add_argument("file", metavar="FILE", help="a program file, an image or a saved machine; - is standard input")
    parser.add_argument("-o", "--output", metavar="FILE.bin", help="write there, and not to standard output")


def run(given):
    image = take_image(given, "image", saved=True)
    if given.output is None:
        if sys.stdout.isatty():
            raise Unusable("an image is no text for a terminal: name a file for it, as in -o ramp.bin")
        sys.stdout.buffer.write(image.ram)
        return 0
    try:
        with open(given.output, "wb") as file:
            file.write(image.ram)
    except OSError as error:
        raise Unusable(f"{given.output}: can not be written ({error.strerror}): name another file behind -o")
    return 0


if __name__ == "__main__":
    sys.exit(command.main(["image", *sys.argv[1:]]))
