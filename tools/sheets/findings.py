"""A row of a table to what is told of it, on the screen and on the page."""

from typing import NamedTuple

from sheets import cells, emulator
from sheets.comparison import differences, shown
from sheets.extent import left_out

# The states of a row, as the report has them. PART agrees in what it compares, and does not compare all.
OK, PART, DIFFERS, NOT_RUN = "ok", "part", "DIFFERS", "NOT RUN"


class Finding(NamedTuple):
    """What is told of a row. The last six are for a row that differs or is not run."""
    number: int
    state: str
    instruction: str
    opcodes: list
    compared: list
    left_out: list
    note: str = ""
    differences: list = ()
    problems: list = ()
    before: str = ""
    sentences: list = ()
    hints: list = ()


class Judge:
    """What does not change from row to row: the columns, the processor's step, the papers' sentences, two options."""

    def __init__(self, columns, step, grounds, plain_hex, whole):
        self.columns, self.step, self.grounds, self.plain_hex, self.whole = columns, step, grounds, plain_hex, whole

    def finding(self, number, texts):
        """Runs a row, given its cells."""
        row = cells.read_row(self.columns, texts, self.plain_hex)
        if row.problems:
            return Finding(number, NOT_RUN, row.text, row.opcodes, [], [], cells.note_of(self.columns, texts),
                           problems=row.problems)
        found, answer = differences(row.case, self.step, self.whole)
        compared = [cell.name for cell in row.case.expected]
        missing = [] if self.whole else left_out(row.words[0], row.case)
        if not found:
            return Finding(number, PART if missing else OK, row.text, row.opcodes, compared, missing)
        before = ", ".join(f"{cell.name} {shown(cell.place, cell.number)}" for cell in row.case.given)
        return Finding(
            number, DIFFERS, row.text, row.opcodes, compared, missing, cells.note_of(self.columns, texts), found,
            before=before or "all zero",
            sentences=self.grounds.of_differences(row.words[0], row.case.before, found, answer),
            hints=self.hints(row, texts, found),
        )

    def hints(self, row, texts, found):
        """What may be the reason of a difference: a number that was read as decimal, or another emulator."""
        hints = [] if self.plain_hex else cells.maybe_hex(self.columns, texts, {each.name for each in found})
        theirs = emulator.hint(row.words[0], row.case.before, [(each.place, each.number) for each in found])
        return hints + ([theirs] if theirs else [])
