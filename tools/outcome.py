"""What the proved programs print, taken apart: a card or an answer of the check, and the status that a command ends with."""

import re
from typing import NamedTuple

FAULTS = range(11, 16)
RULES = range(21, 27)


class Outcome(NamedTuple):
    """An answer and the address beside it: a card's counter, or the place that the check tells."""
    answer: int
    address: int

    def status(self):
        return status_of(self.answer)


def status_of(answer):
    """0 in good order, 1 for a fault or a refused program, 2 for a refused call."""
    if answer <= 1:
        return 0
    return 1 if answer in FAULTS or answer in RULES else 2


def outcome_of(text):
    """The outcome that a printed text tells, or None."""
    found = re.match(r"answer=(\d+)\n(?:steps=\d+\npc|address)=([0-9A-F]{8})\n", text)
    return Outcome(int(found[1]), int(found[2], 16)) if found else None
