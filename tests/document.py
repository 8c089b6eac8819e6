"""Holds the table of docs/INSTRUCTIONS.md to the model: opcodes, forms, words, and what it says of the flags.

    python3 tests/document.py
"""

from pathlib import Path

from basetable import machine_before, seen, spelt
from edges import rows
from machine import run
from model import ROWS, decode

DOCUMENT = Path(__file__).resolve().parent.parent / "docs" / "INSTRUCTIONS.md"
FIELDS = {"r": "sssss", "-": "00000"}, {"r": "ddddd", "-": "00000", "c": "ccccc"}


def told():
    """The cells of the table by opcode."""
    lines = ([cell.strip() for cell in line.split("|")[1:-1]] for line in DOCUMENT.read_text("utf-8").split("\n"))
    return {int(cells[0]): cells for cells in lines if len(cells) == 9 and cells[0].isdigit()}


def word_of(opcode):
    source, destination = ROWS[opcode][1]
    return f"`{opcode:06b} {FIELDS[0].get(source, 'nnnnn')} {FIELDS[1][destination]}`"


def flags_wanted(cells, state, result):
    """What the cells say of Z, N and C: "–" unchanged, "r" as the result, "0" clear; None for anything else."""
    follows = {"Z": int(result == 0), "N": (result or 0) >> 31}
    for name, old, said in zip("ZNC", (state.z, state.n, state.c), cells[4:7]):
        yield {"–": old, "r": follows.get(name), "0": 0}.get(said)


def main():
    table = told()
    assert list(table) == sorted(ROWS), "an opcode is missing, or out of its place"
    for opcode, cells in table.items():
        mnemonic = spelt([opcode << 10, 0, 0]).split()[0]
        assert cells[1].strip("`").split()[0] == mnemonic and cells[2] == word_of(opcode), cells
    every = list(rows())
    assert f"{len(every):,} rows of ours" in DOCUMENT.read_text("utf-8"), "the number of rows in base.csv"
    compared = 0
    for note, words, before in every:
        ram, state = machine_before(words, before)
        answer, _, ram_after, after = run(ram, state, 1)
        if answer > 1 or decode(words[0]) is None or not state.running:
            continue
        opcode = words[0] >> 10
        result = after.acc if ROWS[opcode][0] == "IMULTN" else seen(ram_after, after, words[0], state.bank)["result"]
        for wanted, got in zip(flags_wanted(table[opcode], state, result), (after.z, after.n, after.c)):
            assert wanted is None or wanted == got, (note, table[opcode])
            compared += wanted is not None
    assert compared > 3000, compared
    print(f"document: {len(table)} instructions, and {compared:,} flags are as docs/INSTRUCTIONS.md says")


if __name__ == "__main__":
    main()
