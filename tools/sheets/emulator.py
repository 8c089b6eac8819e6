"""Where Virtual Jaguar 2.1.3, an emulator that others wrote, is known to differ from paper 01.

A table may come from such a source, so a difference of this kind is named in the report. docs/INSTRUCTIONS.md says more.
"""

from typing import NamedTuple

from mnemonics import mnemonic, registers

M = 2 ** 32


class Row(NamedTuple):
    """The source field, the registers and C before the step, and what was expected where something else came."""
    field: int
    s: int
    d: int
    c: int
    expected: dict


def shlq(row):
    other = row.d << 32 - row.field & M - 1
    given = {"result": other, "Z": int(other == 0), "N": other >> 31}
    return all(given.get(name) == number for name, number in row.expected.items())


def div(row):
    names = set(row.expected)
    return names == {"remainder"} or names <= {"remainder", "result"} and (row.s == 0 or row.s >= M // 2)


def mult(row):
    return set(row.expected) == {"N"}


def addc(row):
    return set(row.expected) == {"C"} and row.d == M - 1 and row.c == 1


def right_by_32(row):
    return row.field == 0 and set(row.expected) <= {"result", "Z", "N"}


KNOWN = {
    "SHLQ": (shlq, "it shifts by 32 less the field"),
    "DIV": (div, "it has another remainder, and other results for divisors 0 and from 80000000h"),
    "MULT": (mult, "it has another N"),
    "ADDC": (addc, "it loses the carry where d + C wraps"),
    "SHRQ": (right_by_32, "it has other results for 32 places"),
    "SHARQ": (right_by_32, "it has other results for 32 places"),
}


def hint(word, before, differing):
    """A sentence, if all that differs in a row, as (place, expected), is known to; else None."""
    name = mnemonic(word >> 10)
    if name not in KNOWN:
        return None
    source, destination = registers(word)
    expected = {"result" if place == destination else place: number for place, number in differing}
    row = Row(word >> 5 & 31, before.read(source) if source else None, before.read(destination), before.read("C"), expected)
    applies, what = KNOWN[name]
    return f"Virtual Jaguar is known to differ here: {what}; see docs/INSTRUCTIONS.md" if applies(row) else None
