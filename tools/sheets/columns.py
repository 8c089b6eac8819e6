"""The columns of a table of instructions: what the names in its first row mean."""

import difflib
import re
from typing import NamedTuple

from processor import BITS, LONGS, RAM_BASE, RAM_LENGTH
from texts import cut

INSTRUCTION = "instruction"
EXPECT = "expect "

# Other names of a place, as they may stand in a header.
ALIASES = {"word": INSTRUCTION, "mnemonic": INSTRUCTION, "result": "d", "pc": "counter", "next": "counter",
           "mode": "divide mode", "acc": "accumulator", "remain": "remainder", "target": "pending"}
# Columns of a person's own words: the report repeats a note beside its row, and passes over the others.
NOTES = {"note", "notes", "remark", "remarks", "comment", "comments"}
PASSED_OVER = {"", "no", "nr", "number"}
NAMES = ("the names are instruction or word; R0 to R31; A0 to A31 of the other bank; s; d; Z; N; C; bank; divide mode; "
         "accumulator; remainder; counter; pending; running; ram F03800 or another address; each of them behind 'expect ', "
         "and expect result, expect answer, expect steps; note, remark or comment. A column of your own has a name that "
         "begins with #, and is passed over")
REGISTERS = {f"{bank}{i}" for bank in "RA" for i in range(32)}
ONLY_EXPECTED = {"answer", "steps"}


class Column(NamedTuple):
    """What a column of the table means: a place, before the step or expected after it. Place None is a free remark."""
    name: str
    place: str
    expected: bool


class BadCell(Exception):
    """A cell, or a column where there is no row yet, that can not be used; says what is wrong and what to do."""

    def __init__(self, column, what):
        super().__init__(what)
        self.column = column

    @property
    def line(self):
        return f"column '{self.column}': {self}"


def place_of(name):
    """The place that a name without its `expect` stands for, or None."""
    low = ALIASES.get(name.lower(), name.lower())
    if low in LONGS or low in ONLY_EXPECTED or low in (INSTRUCTION, "pending", "s", "d", "bank", "running", "divide mode"):
        return low
    if low.upper() in REGISTERS or low.upper() in BITS:
        return low.upper()
    found = re.fullmatch(r"ram (?:0x|\$)?([0-9a-f]{1,8})h?", low)
    return f"ram {int(found[1], 16):X}" if found else None


def column_of(header):
    """The meaning of a header's cell."""
    name = re.sub(r"(?i)^expect(?:ed)? ", EXPECT, " ".join(header.split()))
    if name.startswith("#") or name.lower() in NOTES or name.lower() in PASSED_OVER:
        return Column(name, None, False)
    expected = name.startswith(EXPECT)
    place = place_of(name[len(EXPECT):] if expected else name)
    if place is None or expected and place == INSTRUCTION:
        raise BadCell(cut(name), unknown(name))
    if not expected and (place in ONLY_EXPECTED or name.lower() in ("result", "next")):
        raise BadCell(name, f"comes after the step: call the column '{EXPECT}{name}'")
    if place.startswith("ram "):
        check_long_in_ram(name, int(place[4:], 16))
    return Column(name, place, expected)


def unknown(name):
    """What is said of a column of an unknown name."""
    known = [INSTRUCTION, "ram F03800", *ALIASES, *LONGS, *BITS, *ONLY_EXPECTED, *REGISTERS]
    known = {each.lower(): each for each in known + [EXPECT + each for each in known]}
    near = difflib.get_close_matches(cut(name).lower(), known, 1, 0.75)
    return "no column has this name" + (f": is it '{known[near[0]]}'?" if near else "")


def check_long_in_ram(name, address):
    if address % 4 or not RAM_BASE <= address < RAM_BASE + RAM_LENGTH:
        raise BadCell(name, "is not a long of local RAM: the address is a multiple of 4 from F03000 to F03FFC")


def columns_of(header):
    """The columns of a header row, and the problems of those that can not be used."""
    columns, problems, seen = [], [], {}
    for cell in header:
        try:
            column = column_of(cell)
            key = column.place, column.expected
            if column.place and key in seen:
                raise BadCell(column.name, f"means the same as the column '{seen[key]}': leave one of them out, or give it "
                                           "a name that begins with #")
            seen[key] = column.name
            columns.append(column)
        except BadCell as bad:
            problems.append(bad)
    if not problems and (INSTRUCTION, False) not in seen:
        problems.append(BadCell(INSTRUCTION, "there is no such column: the first row of the table has the names of the "
                                             "columns, and one of them is 'instruction' or 'word'"))
    return columns, problems
