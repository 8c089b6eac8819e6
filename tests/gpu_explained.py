"""gpu explain: numbers, cards in every form in which people keep them, saved machines, and the line of the program."""

import re

from gpu_typed import EXAMPLES, ROOT
from kiosk_page import block_of
from machine import START, run


FAULT = EXAMPLES / "fault.words"
CARD = (EXAMPLES / "fault.card").read_text()
LINE = "BC43            ; STORE R3,(R2)        the fault"


def numbers(test):
    """Each number of the page; 0 is both a run's and the check's."""
    page = (ROOT / "docs" / "REFUSALS.md").read_text()
    for number, title in re.findall(r"^\*\*(\d+): (.*)\*\*$", page, re.MULTILINE):
        test.gpu("explain", number).expect(0, f"{number}: {title}", "What to do: ")
    assert test.gpu("explain", 0).out.count("What happened") == 2
    test.gpu("explain", 26).expect(0, "Example, refused with 26", "Its mend")
    test.gpu("explain", 99).expect(2, "99 is no number of this machine", out="")
    test.gpu("explain", 14, "--check").expect(2, "--check means nothing here", out="")


def cards(test):
    """A card as people keep it, with what gpu and make say around it; one that is damaged is still seen to be."""
    wanted = test.gpu("explain", "-", given=CARD.encode()).expect(0, "13: an address is not a multiple of four.").out
    for name, content in (
        ("card", CARD), ("crlf.txt", CARD.replace("\n", "\r\n")), ("end.card", CARD.rstrip("\n")),
        ("above.card", "$ gpu run examples/fault.words\ngpu run: a program file\n\n" + CARD), ("below.card", CARD + "\n\n"),
        ("mark.card", "\ufeff" + CARD), ("spaces.card", CARD.replace("\n", "  \n")),
        ("indented.card", "  " + CARD.replace("\n", "\n  ")), ("prompt.card", CARD + "$ \n"),
    ):
        test.gpu("explain", test.file(name, content)).expect(0, out=wanted)
    for verb, first in (("run", "13: "), ("check", "26: ")):
        seen = test.gpu(verb, FAULT)
        above, below = seen.err.split("\n", 1)
        seen = test.file("seen.txt", f"{above}\n{seen.out}{below}make: *** [Makefile:60: run] Error 1\n")
        told = test.gpu("explain", seen).expect(0)
        assert told.out.startswith(first), told.out
    test.gpu("explain", test.file("cut.card", CARD.replace("pc=00F0300C\n", ""))).expect(2, "line 3 is missing")
    test.gpu("explain", test.file("more.card", CARD + "extra=1\n")).expect(2, "line 7 is missing, is damaged, or should not be")
    test.gpu("explain", "-", given=b"answer=99\naddress=00000000\n").expect(2, "This number is not known here.")
    test.gpu("explain", "-", given=b"hello\n").expect(2, "This is no card.")


def programs(test):
    """The end of a program or the check's answer, and the line of the program file at the address."""
    wanted = test.gpu("explain", "-", given=CARD.encode()).out
    quoted = f"In {FAULT}, line {FAULT.read_text().splitlines().index(LINE) + 1}: {LINE}\n"
    test.gpu("explain", FAULT).expect(0, out=wanted + quoted)
    test.gpu("explain", FAULT, "--check").expect(0, "26: a place is not sure.", quoted)
    test.gpu("explain", FAULT, "--length", 28).expect(0, "26: a place is not sure.", quoted)
    card = test.file("kept.card", CARD)
    test.gpu("explain", card, "--of", FAULT).expect(0, out=wanted + quoted)
    test.gpu("explain", card, "--of", EXAMPLES / "ramp.words").expect(2, "prints another card", out="")


def saved_machines(test):
    """A machine as the kiosk keeps it after a fault; one that runs, one that has stopped, and one whose state is damaged."""
    image = test.image(FAULT)
    _, _, ram, state = run(image, START, 1000)
    saved = test.file("fault.saved", ram + block_of(state))
    test.gpu("explain", saved).expect(0, "13: an address is not a multiple of four.", "at address 00F0300C: STORE R3,(R2)")
    told = test.gpu("show", saved).expect(0, "counter 00F0300C", "00F03802").out
    assert "\n>F0300C  BC43            STORE R3,(R2)" in told, told
    test.gpu("show", saved, "--memory").expect(0, "00000005")
    for verb in ("run", "check", "kiosk"):
        test.gpu(verb, saved).expect(2, "is a saved machine", out="")
    test.gpu("explain", saved, "--check").expect(2, "is a saved machine", out="")
    running = test.file("running.saved", image + block_of(START))
    test.gpu("explain", running).expect(0, "saved while it ran", "at address 00F03000: MOVEI")
    stopped = test.file("stopped.saved", image + block_of(START._replace(running=False)))
    test.gpu("explain", stopped).expect(0, "1: the program has stopped.")
    damaged = test.file("damaged.saved", image + block_of(START)[:-4] + b"\x80\x01\0\0")
    test.gpu("explain", damaged).expect(0, "34: the saved state is not valid.")
    test.gpu("show", damaged, "--trace", 3).expect(2, "the saved state was refused")


TESTS = [numbers, cards, programs, saved_machines]
