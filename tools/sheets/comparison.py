"""A row's case through the processor: what it expected, and what came."""

from typing import NamedTuple, Optional

from processor import BITS, PLACES

# Paper 01's numbers in its own words, but for the first two; docs/REFUSALS.md has them at length.
ANSWERS = {
    0: "still running", 1: "stopped", 11: "word not built", 12: "counter odd, or instruction not wholly in local RAM",
    13: "address not a multiple of 4", 14: "address neither in local RAM nor a built register",
    15: "JR, JUMP, MOVEI or MOVE PC while a jump is pending",
}


class Difference(NamedTuple):
    """A place of which something else was expected than came: the expected number, and both as the report has them."""
    name: str
    place: str
    number: Optional[int]
    expected: str
    came: str

    @property
    def line(self):
        return f"{self.name}: expected {self.expected}, got {self.came}"


def shown(place, number):
    """A number as the report has it."""
    if number is None:
        return "none"
    if place == "answer":
        return f"{number} ({ANSWERS[number]})" if number in ANSWERS else str(number)
    return str(number) if place in BITS or place == "steps" else f"{number:08X}"


def difference(name, place, number, came, as_before):
    expected = shown(place, number) + (" as before" if as_before else "")
    return Difference(name, place, number, expected, shown(place, came))


def differences(case, step, whole):
    """What differs in a case, and the answer; with `whole`, also what has changed though the row expects nothing of it."""
    after = case.before.copy()
    answer, steps = step(after)
    outcome = {"answer": answer, "steps": steps}
    found = []
    for cell in case.expected:
        came = outcome[cell.place] if cell.place in outcome else after.read(cell.place)
        if came != cell.number:
            found.append(difference(cell.name, cell.place, cell.number, came, cell.unchanged))
    named = {cell.place for cell in case.expected}
    if answer > 1 and "answer" not in named:
        found.append(Difference("answer", "answer", 0, "no fault", shown("answer", answer)))
    return found + (changes(case.before, after, named) if whole else []), answer


def changes(before, after, named):
    """The places that are not named and have changed."""
    kept = before.copy()
    for place in named - {"answer", "steps"}:
        kept.write(place, after.read(place))
    if kept.same(after):
        return []
    found = []
    for place in PLACES:
        old, new = kept.read(place), after.read(place)
        if old != new:
            found.append(difference(place, place, old, new, True))
    return found
