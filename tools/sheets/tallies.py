"""The rows of a table, counted: by opcode, and as a whole."""

from collections import Counter

import mnemonics
from sheets.findings import DIFFERS, NOT_RUN, OK, PART
from texts import counted


class Tally:
    """The rows of an opcode. `unsure` are rows not run that name its mnemonic, but not which of the mnemonic's opcodes."""

    def __init__(self):
        self.agreed = self.part = self.differed = self.unread = self.unsure = 0

    @property
    def run(self):
        return self.agreed + self.part + self.differed

    @property
    def any(self):
        return self.run + self.unread + self.unsure


class Tallies:
    """The rows of a table."""

    def __init__(self, whole):
        self.whole = whole
        self.opcodes = [Tally() for _ in range(64)]
        self.states = Counter()
        # Rows not run that name a mnemonic with several opcodes, and the number of those that name no instruction at all.
        self.unsure = Counter()
        self.nameless = 0
        self.cells = 0

    def count(self, finding):
        self.states[finding.state] += 1
        self.cells += len(finding.compared)
        if finding.state == NOT_RUN:
            self.count_unread(finding.opcodes)
            return
        tally = self.opcodes[finding.opcodes[0]]
        if finding.state == OK:
            tally.agreed += 1
        elif finding.state == PART:
            tally.part += 1
        else:
            tally.differed += 1

    def count_unread(self, opcodes):
        if not opcodes:
            self.nameless += 1
        elif len(opcodes) == 1:
            self.opcodes[opcodes[0]].unread += 1
        else:
            self.unsure[mnemonics.mnemonic(opcodes[0])] += 1
            for opcode in opcodes:
                self.opcodes[opcode].unsure += 1

    @property
    def run(self):
        return self.total - self.states[NOT_RUN]

    @property
    def total(self):
        return sum(self.states.values())

    def verdict(self):
        """The outcome in a sentence or two."""
        total, part, differed, unread = self.total, self.states[PART], self.states[DIFFERS], self.states[NOT_RUN]
        if not total:
            return "No row was run: the table has none below its names."
        if total == 1:
            state = next(state for state, number in self.states.items() if number)
            return {OK: "The one row agrees.", PART: "The one row agrees in the part that it compares.",
                    DIFFERS: "The one row differs.", NOT_RUN: "The one row could not be run."}[state]
        if not self.run:
            return f"None of the {total:,} rows could be run."
        if differed:
            return (f"{differed:,} of {total:,} rows {'differs' if differed == 1 else 'differ'}"
                    + (f", and {unread:,} could not be run." if unread else "."))
        in_part = f"; {part:,} of them {'compares' if part == 1 else 'compare'} only a part" if part else ""
        if unread:
            others = "The other one agrees" if self.run == 1 else f"The other {self.run:,} agree"
            return f"{unread:,} of {total:,} rows could not be run. {others}{in_part}."
        return f"All {total:,} rows agree{in_part}."

    def sums(self):
        """The numbers in a line."""
        in_part = f"{self.states[PART]:,} agreed in part, " if self.states[PART] else ""
        return (f"{counted(self.run, 'row')} run: {self.states[OK]:,} agreed, {in_part}{self.states[DIFFERS]:,} differed; "
                f"{self.states[NOT_RUN]:,} not run")

    def compared(self):
        """How much was compared."""
        return (counted(self.cells, "cell")
                + (", and in each row whether all else stayed as it was" if self.whole else ""))

    def unassigned(self):
        """What is told of rows not run that belong to no single opcode, with their mnemonic, or None where there is none."""
        told = []
        for name, number in sorted(self.unsure.items()):
            opcodes = ", ".join(map(str, mnemonics.BY_MNEMONIC[name]))
            told.append((name, f"{counted(number, 'row')} {name} … not run, whose opcode can not be told: counted for each of "
                               f"{opcodes}"))
        if self.nameless:
            one = self.nameless == 1
            told.append((None, f"{counted(self.nameless, 'row')} {'names' if one else 'name'} no instruction, and "
                               f"{'counts' if one else 'count'} for no opcode"))
        return told

    def without_rows(self):
        """The built opcodes that no row names."""
        return [opcode for opcode in range(64) if not self.opcodes[opcode].any and opcode not in mnemonics.NOT_BUILT]

    def status(self):
        if self.states[NOT_RUN] or not self.run:
            return 2
        return 1 if self.states[DIFFERS] else 0
