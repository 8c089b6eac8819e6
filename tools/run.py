"""gpu run: the run program, on an image file of any kind."""

import sys

import home
from arguments import add_file, take_image
from files import told
from outcome import outcome_of

SUMMARY = "run a program and print its card: six lines, of which the first is the answer"
MORE = """\
A program begins at its first word and runs until it stops or has done 1,000,000 steps. What was run is named on standard
error, so that standard output has the card alone.
"""


def arguments(parser):
    add_file(parser)


def card_of(image):
    """The card of an image, as the run program prints it."""
    (program,) = home.programs("run")
    return home.output(program, image.ram).decode("ascii")


def run(given):
    image = take_image(given, "run")
    card = card_of(image)
    sys.stdout.write(card)
    outcome = outcome_of(card)
    if outcome.status():
        sys.stdout.flush()
        told(f"gpu run: answer {outcome.answer}; {home.typed('explain', given.file)} says what that means and what to do")
    return outcome.status()
