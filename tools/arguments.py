"""Words that several verbs take."""

import argparse
import re

import home
from files import Unusable, told
from images import SAVED, read_image
from listing import warnings_of
from processor import RAM_LENGTH

FILE_HELP = "a program file (.words, .txt) or an image of 4,096 bytes; - is standard input (default: paper 01's card)"
LENGTH_HELP = "how many bytes of the image are the program, where the file does not state it, or to try another length"


def add_file(parser, help=FILE_HELP):
    parser.add_argument("file", metavar="FILE", nargs="?", default=str(home.DEFAULT_IMAGE), help=help)


def add_length(parser):
    parser.add_argument("--length", metavar="N", type=length, help=LENGTH_HELP)


def whole(low, high, what):
    """Reads a whole number within bounds."""
    def read(text):
        if not re.fullmatch(r"[0-9]{1,12}", text) or not low <= int(text) <= high:
            raise argparse.ArgumentTypeError(f"'{text}' is not {what} from {low:,} to {high:,}")
        return int(text)
    return read


def length(text):
    """A length in bytes. Which lengths are right is the check's to say: it answers 33."""
    if not re.fullmatch(r"[0-9]{1,9}", text):
        raise argparse.ArgumentTypeError(f"'{text}' is not a number of bytes: write digits alone, such as 68")
    return int(text)


def shown_path(path):
    """A path as a person would type it here."""
    default = str(home.DEFAULT_IMAGE)
    return "examples/" + home.DEFAULT_IMAGE.name + ", since no file was named" if path == default else path


def take_image(given, verb, saved=False):
    """The image of a command, of which is told what it was taken for. `saved`: a saved machine may be one."""
    image = read_image(given.file)
    if image.kind == SAVED and not saved:
        raise Unusable(f"{image.path}: is a saved machine, which has begun already: {home.typed('show', image.path)} shows "
                       f"it, {home.typed('explain', image.path)} says why it ended")
    told(f"gpu {verb}: {shown_path(image.path)}: {image.described()}")
    if verb != "show":
        warn_of_comments(image, verb)
    return image


def comments_told(count):
    return "1 comment does not fit its word" if count == 1 else f"{count} comments do not fit their words"


def warn_of_comments(image, verb):
    """Says where a program file is not what its comments say, since a word may be mistyped and still be an instruction."""
    count = sum(1 for _ in warnings_of(image, image.length))
    if count:
        told(f"gpu {verb}: {comments_told(count)}: {home.typed('show', image.path)} shows where")


def take_length(given, image, verb):
    """The length of the code: the one that is given, else the one that the file states."""
    stated = image.length
    if given.length is None and stated is None:
        raise Unusable(f"{image.path}: the file does not state how long its program is, so nothing was done. {advice(image, verb)}")
    if given.length is None:
        return stated
    if stated is not None and stated != given.length:
        told(f"gpu {verb}: the file states {stated} bytes of code; {given.length} are taken, since you gave that number")
    if given.length > RAM_LENGTH:
        told(f"gpu {verb}: an image has only {RAM_LENGTH:,} bytes")
    return given.length


def advice(image, verb):
    """How to give a length that is not stated. Only of a program file can it be reckoned, and only its author knows."""
    if image.code is None:
        return ("Look it up in the papers of the program, and add it in bytes: "
                f"{home.typed(verb, image.path, '--length')} and the number")
    return (f"Its words have {image.code} bytes up to the first line with @ or the end. If all of them are the program, type "
            f"{home.typed(verb, image.path, '--length', image.code)}")
