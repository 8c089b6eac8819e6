"""Prints docs/vectors/base.csv: the rows of `edges`, with what the model says of each.

    python3 tests/basetable.py > docs/vectors/base.csv
"""

import csv
import sys

from edges import DATA, LAST, rows
from machine import RAM_BASE, RAM_LENGTH, START, State, run, with_register_of
from model import ROWS, decode, quick, signed

BEFORE = ["s", "d", "R14", "R15", "Z", "N", "C", "bank", "divide mode", "accumulator", "remainder", "counter", "pending",
          "running", "ram F03800", "ram F03FFC"]
EXPECTED = ["result", "Z", "N", "C", "counter", "pending", "answer", "steps", "remainder", "accumulator", "bank",
            "divide mode", "running", "ram F03800", "ram F03FFC"]

# The names that `edges` uses, where they are not those of the columns.
COLUMN = {"r14": "R14", "r15": "R15", "z": "Z", "n": "N", "c": "C", "mode": "divide mode", "acc": "accumulator",
          "pc": "counter", "target": "pending", "ram": "ram F03800", "last": "ram F03FFC"}
CONDITIONS = {0: "T", 1: "NZ", 2: "Z", 4: "NC", 5: "NC NZ", 6: "NC Z", 8: "C", 9: "C NZ", 10: "C Z", 20: "NN", 21: "NN NZ",
              22: "NN Z", 24: "N", 25: "N NZ", 26: "N Z"}


# What an instruction is expected to leave, beside result, flags and counter, also where that has not changed.
ALWAYS = {"DIV": ["remainder"], "IMULTN": ["accumulator"], "IMACN": ["accumulator"], "JR": ["pending"], "JUMP": ["pending"]}


def operand(kind, field):
    """A field as documents 000 and 001 write it."""
    if kind == "c":
        return CONDITIONS.get(field, f"#{field}")
    return {"r": f"R{field}", "q": f"#{quick(field)}", "i": f"#{signed(field, 5)}"}.get(kind, f"#{field}")


def spelt(words):
    """The mnemonic of a built word with its operands."""
    name, s, d = decode(words[0])
    kinds = ROWS[words[0] >> 10][1]
    source, destination = operand(kinds[0], s), operand(kinds[1], d)
    if name.startswith(("LOAD", "STORE")):
        place = f"(R{name[-3:-1]}+{source.lstrip('#')})" if name[-1] in "NR" else f"({source})"
        return f"LOAD {place},{destination}" if name.startswith("LOAD") else f"STORE {destination},{place}"
    if name == "JUMP":
        return f"JUMP {destination},({source})"
    if name == "JR":
        return f"JR {destination},{source}"
    if name == "MOVEI":
        return f"MOVEI #${words[2] << 16 | words[1]:08X},{destination}"
    if name == "MOVEPC":
        return f"MOVE PC,{destination}"
    if kinds == "--":
        return name
    return f"{name} {destination}" if kinds[0] == "-" else f"{name} {source},{destination}"


def instruction(words, k):
    """The cell of an instruction: its mnemonic, and in every fourth row its words. A word has 0x before it, for a
    spreadsheet would make 41 of 0041, and of 5E41 a power of ten."""
    whole = ROWS.get(words[0] >> 10, ("",))[0] != "MOVEI" or len(words) == 3
    if decode(words[0]) is None or not whole or k % 4 == 3:
        return " ".join(f"0x{word:04X}" for word in words)
    return spelt(words)


def named(word):
    """The bank, counted from the active one, and the number of the registers that the two fields name."""
    name, kinds = ROWS.get(word >> 10, ("", "--"))
    source = (int(name == "MOVEFA"), word >> 5 & 31) if kinds[0] == "r" else None
    destination = (int(name == "MOVETA"), word & 31) if kinds[1] == "r" else None
    return {"s": source, "d": destination, "r14": (0, 14), "r15": (0, 15)}


def machine_before(words, before):
    """RAM and state at the start of a row."""
    state = START._replace(**{key: value for key, value in before.items() if key in State._fields})
    for key, place in named(words[0]).items():
        if key in before:
            other, i = place
            state = with_register_of(state, state.bank ^ other, i, before[key])
    ram = bytearray(RAM_LENGTH)
    for key, address in (("ram", DATA), ("last", LAST)):
        ram[address - RAM_BASE:address - RAM_BASE + 4] = before.get(key, 0).to_bytes(4, "big")
    for i, word in enumerate(words):
        at = state.pc + 2 * i - RAM_BASE
        if at % 2 == 0 and 0 <= at < RAM_LENGTH:
            ram[at:at + 2] = word.to_bytes(2, "big")
    return bytes(ram), state


def seen(ram, state, word, bank):
    """The numbers of the expected columns."""
    place = named(word)["d"]
    longs = {f"ram {at:X}": int.from_bytes(ram[at - RAM_BASE:at - RAM_BASE + 4], "big") for at in (DATA, LAST)}
    return {
        "result": state.banks[bank ^ place[0]][place[1]] if place else None, "Z": state.z, "N": state.n, "C": state.c,
        "counter": state.pc, "pending": state.target, "remainder": state.remainder, "accumulator": state.acc,
        "bank": state.bank, "divide mode": state.mode, "running": int(state.running), **longs,
    }


def expected(words, before):
    """What a row expects: result, flags and counter in every row where there are such, and whatever else has changed."""
    ram, state = machine_before(words, before)
    answer, steps, ram_after, after = run(ram, state, 1)
    old, new = seen(ram, state, words[0], state.bank), seen(ram_after, after, words[0], state.bank)
    always = {"Z", "N", "C", "counter", *ALWAYS.get(ROWS.get(words[0] >> 10, ("",))[0], ())}
    if old["result"] is not None:
        always.add("result")
    told = {name: number for name, number in new.items() if name in always or number != old[name]}
    if answer:
        told.update(answer=answer, steps=steps)
    return told


def cell(column, value):
    """A number as the table has it: in decimal digits below 100, as are shift counts below zero."""
    if value is None:
        return "none" if column == "expect pending" else ""
    return str(int(value)) if value < 100 else f"0x{value:X}"


def row_of(k, note, words, before):
    """The cells of the k-th row."""
    numbers = {COLUMN.get(key, key): value for key, value in before.items()}
    if "s" in numbers and ROWS[words[0] >> 10][0] in ("SH", "SHA"):
        numbers["s"] = signed(numbers["s"])
    numbers.update({f"expect {name}": value for name, value in expected(words, before).items()})
    cells = {column: cell(column, value) for column, value in numbers.items()}
    return {"note": note, "instruction": instruction(words, k), **cells}


def main():
    header = ["note", "instruction"] + BEFORE + [f"expect {name}" for name in EXPECTED]
    out = csv.DictWriter(sys.stdout, header, lineterminator="\n")
    out.writeheader()
    for k, row in enumerate(rows()):
        out.writerow(row_of(k, *row))


if __name__ == "__main__":
    main()
