"""The rows that a page shows: those that differ or were not run, and by their numbers those that compare only a part."""

import mnemonics
from sheets.findings import DIFFERS, NOT_RUN, PART

# As many rows as a page shows at most, and as many stretches of row numbers in a list.
MOST_ROWS = 1000
MOST_RANGES = 50


class Ranges:
    """Row numbers as stretches of rows that follow each other, in the order in which they come."""

    def __init__(self):
        self.count = self.kept = 0
        self.ranges = []

    def add(self, number):
        self.count += 1
        if self.ranges and self.ranges[-1][1] == number - 1:
            self.ranges[-1][1] = number
        elif len(self.ranges) < MOST_RANGES:
            self.ranges.append([number, number])
        else:
            return
        self.kept += 1

    def text(self):
        told = ", ".join(f"{first}" if first == last else f"{first} to {last}" for first, last in self.ranges)
        return told + (f" and {self.count - self.kept:,} more" if self.count > self.kept else "")


class Group:
    """The rows to look at of an opcode, or of a mnemonic whose opcode can not be told, or of no instruction."""

    def __init__(self):
        self.differing, self.unread = [], []
        self.count = 0
        # What is left out, to the rows that leave it out.
        self.parts = {}

    @property
    def findings(self):
        """The rows that are kept, those that differ first."""
        return self.differing + self.unread

    def take(self, finding):
        if finding.state == PART:
            self.parts.setdefault(tuple(finding.left_out), Ranges()).add(finding.number)
            return
        kept = self.differing if finding.state == DIFFERS else self.unread
        self.count += 1
        if len(kept) < MOST_ROWS:
            kept.append(finding)


class Kept:
    """The groups by their keys: an opcode, a mnemonic, or None."""

    def __init__(self):
        self.groups = {}

    def take(self, finding):
        if finding.state in (DIFFERS, NOT_RUN, PART):
            self.groups.setdefault(key_of(finding.opcodes), Group()).take(finding)

    def in_order(self):
        """The groups as (key, group): those with rows that differ first, then those with rows not run, then those in part;
        among them by opcode."""
        def place(item):
            key, group = item
            number = key if isinstance(key, int) else mnemonics.BY_MNEMONIC[key][0] if key else 64
            return 0 if group.differing else 1 if group.unread else 2, number
        return sorted(self.groups.items(), key=place)

    def most_a_group(self):
        """How many rows each group may show, so that all together show no more than a page does, and none shows nothing."""
        counts = sorted(len(group.findings) for group in self.groups.values())
        left = MOST_ROWS
        for i, count in enumerate(counts):
            share = left // (len(counts) - i)
            if count > share:
                return share
            left -= count
        return MOST_ROWS


def key_of(opcodes):
    if not opcodes:
        return None
    return opcodes[0] if len(opcodes) == 1 else mnemonics.mnemonic(opcodes[0])
