"""gpu explain: what a number, a card, an answer of the check or a program's end means, in sentences to be read aloud."""

import re
import shutil
import sys
import textwrap

import check
import home
import run as run_verb
from arguments import add_length, take_length, warn_of_comments
from files import STANDARD_INPUT, Unusable, decoded, is_text, read_bytes, told
from images import MOST_BYTES, SAVED, image_in, read_image
from listing import instruction_at
from outcome import outcome_of
from processor import Machine
from refusals import entries_of

SUMMARY = "say what a number, a card or the end of a program means, and what to do"
MORE = """\
  gpu explain 14                 what that number means
  gpu explain FILE               runs a program and explains its card; of a saved machine, why it ended
  gpu explain FILE --check       checks a program and explains the answer
  gpu explain FILE --length 68   the same, with that length
  gpu explain CARD               explains a card or an answer that was kept in a file
  gpu explain CARD --of FILE     the same, and quotes the program file at the address
"""

# Answers whose address is no place to look at: a program that has stopped, and refused calls.
NO_PLACE = {1, 31, 32, 33, 34, 35}


def arguments(parser):
    parser.add_argument("what", metavar="WHAT", nargs="?", default=STANDARD_INPUT,
                        help="a number, a card, a program file, an image or a saved machine (default: a card on standard input)")
    parser.add_argument("--check", action="store_true", help="check the program, and explain the answer of the check")
    add_length(parser)
    parser.add_argument("--of", metavar="FILE", help="the program that the card is of")


def run(given):
    if re.fullmatch(r"[0-9]{1,3}", given.what):
        return explain_number(int(given.what), given)
    data = read_bytes(given.what, MOST_BYTES)
    path = "standard input" if given.what == STANDARD_INPUT else given.what
    card = card_in(data)
    if card is not None:
        return explain_card(path, card, given)
    refuse_options(given, f"{path} is no card", ["of"])
    if given.what == STANDARD_INPUT and is_text(data) and not re.match(r"\s*([0-9A-Fa-f]{4}\b|;|@)", decoded(data)):
        return explain_text(decoded(data).encode("ascii", "replace"), None)
    return explain_image(image_in(path, data), given)


def refuse_options(given, what, names):
    """An option that means nothing here is refused, since it would be taken for obeyed."""
    for name in names:
        if getattr(given, name) not in (None, False):
            raise Unusable(f"{what}, so --{name} means nothing here: leave it out")


# Numbers.

def explain_number(number, given):
    """The sentences of a number, with no card: as the page has them."""
    refuse_options(given, f"{number} is a number", ["check", "length", "of"])
    entries = entries_of(home.page("REFUSALS.md"), number)
    if not entries:
        raise Unusable(f"{number} is no number of this machine: see that it was copied rightly from the line answer. "
                       f"{home.typed('explain', 14)}, for example, is one")
    print(folded("\n".join(entries)), end="")
    told("gpu explain: ADDRESS and STEPS stand for what a card or the check tells: "
         f"{home.typed('explain', 'FILE')} says which, of a program or of a card")
    return 0


# Cards.

def card_in(data):
    """The lines of a card or of an answer in a text, or None where there are none, and the number of the first. Line ends of
    other systems, blanks around a line, and what stands above and below the card and has not its form, as the command that was
    typed and what gpu said, are no part of it."""
    if not is_text(data):
        return None
    lines = [line.strip() for line in decoded(data).split("\n")]
    first = next((i for i, line in enumerate(lines) if re.match(r"answer=", line)), None)
    if first is None:
        return None
    last = max(i for i, line in enumerate(lines) if re.match(r"[a-z]+=", line))
    return "".join(line + "\n" for line in lines[first:last + 1]).encode("ascii", "replace"), first


def explain_card(path, card, given):
    refuse_options(given, f"{path} is a card", ["check", "length"])
    text, above = card
    told(f"gpu explain: {path}: a card or an answer of the check")
    if above:
        told(f"gpu explain: it begins at line {above + 1} of the text; lines are counted from there")
    if not given.of:
        return explain_text(text, None)
    image = read_image(given.of)
    is_of_a_run = b"\nsteps=" in text
    if is_of_a_run and image.kind != SAVED and run_verb.card_of(image).encode("ascii") != text:
        raise Unusable(f"{given.of}: prints another card when it is run, so the card is of another program: name the right one")
    return explain_text(text, image)


# Programs and saved machines.

def explain_image(image, given):
    """Runs or checks a program, and explains what came."""
    told(f"gpu explain: {image.path}: {image.described()}")
    if image.kind == SAVED:
        refuse_options(given, f"{image.path} is a saved machine, and the check is of a program that begins", ["check", "length"])
        return explain_saved(image)
    warn_of_comments(image, "explain")
    if given.check or given.length is not None:
        text = check.answer_of(image, take_length(given, image, "explain"))
    else:
        text = run_verb.card_of(image)
    told("gpu explain: it gives " + " ".join(text.split()))
    return explain_text(text.encode("ascii"), image)


def explain_saved(image):
    """Says how a saved machine stands, by one step more: a fault is refused as it was before, and changes nothing."""
    machine = Machine.of(image.ram, image.block)
    answer, _ = home.processor()(machine)
    machine = Machine.of(image.ram, image.block)
    if machine.read("running") and answer <= 1:
        print("This machine was saved while it ran, and its next instruction can be run.")
        quote(image, machine.read("counter"))
        return 0
    return explain_text(card_of(machine, answer), image)


def card_of(machine, answer):
    """The card of a machine that has done no step."""
    flags = sum(machine.read(name) << bit for name, bit in (("Z", 0), ("C", 1), ("N", 2), ("bank", 14)))
    longs = machine.read("counter"), flags, machine.read("remainder"), machine.read("accumulator")
    lines = [f"{key}={n:08X}\n" for key, n in zip(("pc", "flags", "remain", "acc"), longs)]
    return (f"answer={answer}\nsteps=0\n" + "".join(lines)).encode("ascii")


def explain_text(text, image):
    """Prints the sentences of the program explain, and the line of the program that they speak of."""
    (program,) = home.programs("explain")
    said = home.output(program, text).decode("ascii")
    sys.stdout.write(folded(said))
    outcome = outcome_of(text.decode("ascii"))
    if not re.match(r"\d+: ", said):
        return 2  # no card, a damaged one, or a number that there is not
    if image is not None and outcome.answer not in NO_PLACE:
        quote(image, outcome.address)
    return 0


def folded(said):
    """The sentences as a terminal shows them, without breaking a word; elsewhere as they are."""
    if not sys.stdout.isatty():
        return said
    width = shutil.get_terminal_size().columns
    return "".join(textwrap.fill(line, width, break_on_hyphens=False) + "\n" for line in said.splitlines())


def quote(image, address):
    """The line of the program at an address, if there is one."""
    line = image.line_at(address)
    text = instruction_at(image.ram, address)
    if line is not None:
        print(f"In {image.path}, line {line.number}: {line.text}")
        if len(line.text.partition(";")[0].split()) > 1 and text:
            print(f"At address {address:08X}: {text}")
    elif text is not None:
        print(f"In {image.path}, at address {address:08X}: {text}")
