"""Whether a row compares all that its instruction writes, or only a part of it.

A row compares all if it expects something of
- Z, N and C, also of an instruction that leaves them;
- the register that the instruction writes; the accumulator where IMULTN and IMACN write that; the remainder too of DIV; the
  pending target of JR and JUMP. CMP, CMPQ, BTST and NOP write none of these;
- the place that a STORE writes, a long of local RAM or the bits of a chip register, unless what is stored is there already;
- the counter, if the instruction comes after a jump. Elsewhere the counter goes on by itself, and need not be named.
A row that expects a fault, or finds the machine stopped, compares all if it names the answer: nothing is written then. With
--whole everything is compared in every row.
"""

import mnemonics
from processor import RAM_BASE, RAM_LENGTH

FLAGS = ("Z", "N", "C")
FIRST_FAULT = 11

# What an instruction writes beside flags and counter, where that is not its destination register alone; None is the latter.
WRITES = {
    "CMP": (), "CMPQ": (), "BTST": (), "NOP": (), "IMULTN": ("accumulator",), "IMACN": ("accumulator",),
    "DIV": (None, "remainder"), "JR": ("pending",), "JUMP": ("pending",),
}

# "F02100h gives and takes Z, C, N (bits 0, 1, 2) and bank (bit 14)"; a one in bit 0 of F02114h leaves the machine running.
CHIP_BITS = {
    0xF02100: {"Z": 0, "C": 1, "N": 2, "bank": 14},
    0xF02114: {"running": 0},
    0xF0211C: {"divide mode": 0},
}


def address_of(word, before):
    """The address that a LOAD or a STORE reaches."""
    form, field = mnemonics.OPCODES[word >> 10], word >> 5 & 31
    index = before.read(f"R{field}") if "Rs" in form else 4 * (field or 32)
    base = next((before.read(name) for name in ("R14", "R15") if name in form), 0)
    return (base + index) % 2 ** 32


def stored(word, before):
    """The places that a STORE changes, chip registers bit by bit."""
    address, number = address_of(word, before), before.read(f"R{word & 31}")
    if address in CHIP_BITS:
        new = {place: number >> bit & 1 for place, bit in CHIP_BITS[address].items()}
    elif address % 4 == 0 and RAM_BASE <= address < RAM_BASE + RAM_LENGTH:
        new = {f"ram {address:X}": number}
    else:
        new = {}
    return [place for place, value in new.items() if before.read(place) != value]


def written(word, before):
    """The places that a row must name, each with the name that the report has for it."""
    name = mnemonics.mnemonic(word >> 10)
    places = stored(word, before) if name == "STORE" else WRITES.get(name, (None,))
    if before.read("pending") is not None:
        places = (*places, "counter")
    destination = mnemonics.registers(word)[1]
    return [("result", destination) if place is None else (place, place) for place in (*places, *FLAGS)]


def left_out(word, case):
    """The names of the places that a row should name and does not."""
    expected = {cell.place: cell.number for cell in case.expected}
    answer = expected.get("answer", 0)
    if answer >= FIRST_FAULT or "answer" in expected and not case.before.read("running"):
        return []
    missing = (name for name, place in written(word, case.before) if place not in expected)
    return list(dict.fromkeys(missing))
