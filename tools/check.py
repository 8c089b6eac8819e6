"""gpu check: the loading check, on an image file of any kind."""

import sys

import home
from arguments import add_file, add_length, take_image, take_length
from files import told
from outcome import outcome_of

SUMMARY = "check a program before it runs: answer 0, or the rule that it breaks and where"
MORE = """\
The length is the one that the file states in a line '; length: N bytes' at its top, or the one that is given. Where there is
neither, nothing is checked.
"""


def arguments(parser):
    add_file(parser)
    add_length(parser)


def answer_of(image, length):
    """The answer of the check, as the program loadcheck prints it."""
    (program,) = home.programs("loadcheck")
    return home.output(program, image.ram + f"{length}\n".encode("ascii")).decode("ascii")


def run(given):
    image = take_image(given, "check")
    length = take_length(given, image, "check")
    answer = answer_of(image, length)
    sys.stdout.write(answer)
    outcome = outcome_of(answer)
    if outcome.status():
        sys.stdout.flush()
        more = home.typed("explain", given.file, "--length", length)
        told(f"gpu check: answer {outcome.answer}; {more} says what that means and what to do")
    return outcome.status()
