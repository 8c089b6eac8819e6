"""Holds the cards of examples/ to the model, and a program to the cards.

    python3 tests/examples.py                  every examples/NAME.card is what the model says of examples/NAME.words
    python3 tests/examples.py --write          writes the cards
    python3 tests/examples.py --run PROGRAM    the program also prints each card, given the image on its standard input,
                                               the model's card for inputs of other lengths, and the longest card
"""

import argparse
import subprocess
import sys
from pathlib import Path

ROOT = Path(__file__).resolve().parent.parent
EXAMPLES = ROOT / "examples"
sys.path.insert(0, str(ROOT / "tools"))

from images import image_of, read_image
from machine import BUDGET_LIMIT, START, card, card_text, run

# An image has 4,096 bytes, and the program reads 4,097: around both, twice as long, and much longer.
LENGTHS = [0, 1, 4095, 4096, 4097, 4098, 8192, 8194, 1048576]

# Steps after which a program that goes round has gone round at least once.
ONCE_ROUND = 10000

# A jump to itself is still running when the budget is spent, so that no card has more digits.
ENDLESS = image_of("D7E0 E400")
LONGEST = "answer=0\nsteps=1000000\npc=00F03000\nflags=00000000\nremain=00000000\nacc=00000000\n"


def card_of(image):
    """The model's card of an image. A million steps would take the model long; a machine that has come back to an earlier
    one goes on as it did then, so whole rounds can be left out."""
    steps, ram, state = 0, bytes(image), START
    seen = {}
    while (ram, state) not in seen:
        seen[ram, state] = steps
        answer, done, ram, state = run(ram, state, 1)
        steps += done
        if answer or steps > ONCE_ROUND:
            return card(image)
    left = (BUDGET_LIMIT - steps) % (steps - seen[ram, state])
    answer, _, _, state = run(ram, state, left)
    return card_text(answer, BUDGET_LIMIT, state)


def shown(path):
    """A path as the reader of the repository knows it."""
    return str(path.relative_to(ROOT))


def quoted(lines, i):
    """A line as it may be shown in a message, or that there is none."""
    return repr(lines[i][:60]) if i < len(lines) else "missing"


def first_difference(wanted, got):
    """The first line in which two texts differ, in words. A text that ends in a line feed has an empty last line."""
    wanted, got = wanted.split("\n"), got.split("\n")
    i = 0
    while i < min(len(wanted), len(got)) and wanted[i] == got[i]:
        i += 1
    return f"line {i + 1} is {quoted(got, i)} and should be {quoted(wanted, i)}"


def card_fault(path, wanted):
    """What is wrong with a card on disk, or None."""
    if not path.exists():
        return "is missing; --write makes it"
    got = path.read_bytes().decode("utf-8", "replace")
    return None if got == wanted else first_difference(wanted, got)


def printed_fault(program, image, wanted):
    """What is wrong with what a program prints for an image, or None."""
    try:
        done = subprocess.run([program], input=image, stdout=subprocess.PIPE, timeout=60)
    except OSError as error:
        return f"does not start: {error.strerror}"
    except subprocess.TimeoutExpired:
        return "has not ended after 60 seconds"
    if done.returncode < 0:
        return f"was ended by signal {-done.returncode}"
    got = done.stdout.decode("utf-8", "replace")
    return None if got == wanted else first_difference(wanted, got)


def check_cards(images):
    """Lines about cards that are missing, wrong, or without their words."""
    faults = []
    for name, image in images.items():
        path = EXAMPLES / f"{name}.card"
        fault = card_fault(path, card_of(image))
        if fault:
            faults.append(f"{shown(path)}: {fault}")
    for path in sorted(EXAMPLES.glob("*.card")):
        if path.stem not in images:
            faults.append(f"{shown(path)}: there is no examples/{path.stem}.words")
    return faults


def check_program(program, images):
    """Lines about images for which a program prints something else than the model's card."""
    cases = [(f"examples/{name}.words", image, card_of(image)) for name, image in images.items()]
    # What is longer than an image begins with one that runs well.
    for n in LENGTHS:
        for first in (bytes(1), images["card"]):
            given = (first * (n // len(first) + 1))[:n]
            cases.append((f"{n} bytes that begin with {first[:2].hex()}", given, card(given)))
    cases.append(("a jump to itself", ENDLESS, LONGEST))
    faults = []
    for name, image, wanted in cases:
        fault = printed_fault(program, image, wanted)
        if fault:
            faults.append(f"{program}, given {name}: {fault}")
    return faults


def write_cards(images):
    for name, image in images.items():
        (EXAMPLES / f"{name}.card").write_bytes(card_of(image).encode())


def main():
    parser = argparse.ArgumentParser(description="Holds the cards of examples/ to the model, and a program to the cards.")
    parser.add_argument("--write", action="store_true", help="write the cards")
    parser.add_argument("--run", metavar="PROGRAM", help="compare what this program prints with the cards")
    given = parser.parse_args()

    images = {path.stem: read_image(path).ram for path in sorted(EXAMPLES.glob("*.words"))}
    if not images:
        sys.exit("examples: there is no examples/*.words")
    if given.write:
        write_cards(images)
    faults = check_cards(images)
    if given.run:
        faults += check_program(given.run, images)
    for fault in faults:
        print(fault)
    if faults:
        sys.exit(f"examples: {len(faults)} disagree")
    if given.run:
        print(f"examples: the program prints {len(images)} cards, those of inputs of {len(LENGTHS)} lengths, and the longest card")
    print(f"examples: {len(images)} cards agree")


if __name__ == "__main__":
    main()
