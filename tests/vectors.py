"""Prints what the program `published` or `vectors` must print, from the model alone: python3 tests/vectors.py NAME"""

import sys

from model import M, ROWS, class_of, decode, effect, taken

EDGES = [
    0, 1, 2, 3, 7, 15, 16, 31, 32, 33, 63, 64, 255, 256, 0x7FFF, 0x8000, 0x8001, 0xFFFF, 0x10000, 0x3FFFFF, 0x400000,
    0x7FFFFF, 0x800000, 0xFFFFFF, 0x1000000, 0x7FFFFFFF, 0x80000000, 0x80000001, 0xBFC00000, 0xFFFFFFE0, 0xFFFFFFE1,
    0xFFFFFFFF,
]

EFFECTS = [
    "not built", "nothing", "write", "keep", "flags", "divide", "product", "accumulate", "to other", "from other",
    "immediate", "counter", "jump", "load", "store",
]

CLASSES = [
    "quiet", "write", "moveq", "movei", "move", "and", "add", "add quick", "sub quick", "shlq", "load", "store", "movepc",
    "jump", "jr",
]

FAMILIES = [
    ("add and subtract", "ADD ADDC ADDQ ADDQT SUB SUBC SUBQ SUBQT NEG ABS CMP CMPQ"),
    ("logic and bits", "AND OR XOR NOT BTST BSET BCLR"),
    ("multiply", "MULT IMULT IMULTN RESMAC IMACN"),
    ("divide", "DIV"),
    ("shift and rotate", "SH SHLQ SHRQ SHA SHARQ ROR RORQ"),
    ("saturate", "SAT8 SAT16 SAT24"),
    ("normalise", "MTOI NORMI"),
    ("jump targets", "JUMP JR"),
    ("moves, loads and stores", "MOVE MOVEQ MOVETA MOVEFA MOVEI MOVEPC NOP LOAD LOAD14N LOAD15N LOAD14R LOAD15R "
                                "STORE STORE14N STORE15N STORE14R STORE15R"),
]

# The rows of paper 01 that concern these functions: a word, the contents of its two registers, and the divide mode.
PUBLISHED = [
    ("ABS 80000000h", 0x5801, 0, 0x80000000, 0),
    ("FFFFFFFFh ADD 1", 0x0041, 1, 0xFFFFFFFF, 0),
    ("CMPQ field 31 with FFFFFFFFh", 0x7FE1, 0, 0xFFFFFFFF, 0),
    ("NEG 0", 0x2001, 0, 0, 0),
    ("NEG 1", 0x2001, 0, 1, 0),
    ("ADDQ field 0 to 0", 0x0801, 0, 0, 0),
    ("IMULT 8000h by 2", 0x4441, 2, 0x8000, 0),
    ("MULT 8000h by 2", 0x4041, 2, 0x8000, 0),
    ("DIV 7 by 2", 0x5441, 2, 7, 0),
    ("DIV 7 by 2, mode 1", 0x5441, 2, 7, 1),
    ("SAT8 of 256", 0x8001, 0, 256, 0),
    ("SAT8 of FFFFFFFFh", 0x8001, 0, 0xFFFFFFFF, 0),
    ("NORMI of 1", 0xE041, 1, 0, 0),
    ("NORMI of 400000h", 0xE041, 0x400000, 0, 0),
    ("NORMI of 80000000h", 0xE041, 0x80000000, 0, 0),
    ("MTOI of BFC00000h", 0xDC41, 0xBFC00000, 0, 0),
    ("SHLQ field 4 on 1", 0x6081, 0, 1, 0),
    ("word D7E0h at F0300Ch", 0xD7E0, 0, 0, 0),
]


def show(name, word, s, d, mode):
    kind, *told = effect(word, {"s": s, "d": d, "pc": 0xF0300C, "z": 0, "n": 0, "c": 0, "acc": 0, "mode": mode})
    text = name + ":"
    if kind == "write":
        text += f" {told[1]:08x}"
    if kind in ("write", "flags"):
        text += " z=%d n=%d c=%d" % tuple(told[-3:])
    if kind == "divide":
        text += f" quotient={told[1]:08x} remainder={told[2]:08x}"
    if kind == "jump":
        text += f" target={told[1]:08x}"
    print(text)


class Digest:
    def __init__(self, name):
        self.name, self.count, self.sum = name, 0, 1

    def take(self, numbers):
        self.count += 1
        for n in numbers:
            self.sum = (self.sum * 1000003 + n) % (1 << 32)

    def show(self):
        print(f"{self.name}: {self.count} vectors, checksum {self.sum:08x}")


def numbered(kinds, told):
    return [kinds.index(told[0])] + told[1:]


def reached(told):
    """An effect with the address that a load or a store reaches, where register i holds the i-th edge value."""
    if told[0] == "load":
        kind, d, base, offset = told
        return [kind, d, (EDGES[base] + offset) % M]
    if told[0] == "store":
        kind, base, offset, value = told
        return [kind, (EDGES[base] + offset) % M, value]
    return told


def family(name, opcodes):
    digest = Digest(name)
    for op in opcodes:
        for n in range(2048):
            bit = n >> 10
            x = {
                "s": EDGES[n // 32 % 32], "d": EDGES[n % 32], "pc": 0xF03000 + 2 * n, "z": bit, "n": 1 - bit, "c": bit,
                "acc": EDGES[n % 31], "mode": bit,
            }
            digest.take(numbered(EFFECTS, reached(effect(op << 10 | n & 1023, x))))
    digest.show()


def conditions():
    digest = Digest("conditions")
    for bits in range(32):
        for f in range(8):
            digest.take([int(taken(bits, f & 1, f >> 2 & 1, f >> 1 & 1))])
    digest.show()


def words():
    digest = Digest("words")
    for w in range(65536):
        found = decode(w)
        read = numbered(CLASSES, class_of(*found)) if found else []
        digest.take([6 if read and CLASSES[read[0]] == "movei" else 2] + ([1, w] + read if found else [0]))
    digest.show()


def published():
    for row in PUBLISHED:
        show(*row)


def vectors():
    for name, mnemonics in FAMILIES:
        family(name, [op for op in range(64) if op in ROWS and ROWS[op][0] in mnemonics.split()])
    family("not built", [op for op in range(64) if op not in ROWS])
    conditions()
    words()


if __name__ == "__main__":
    {"published": published, "vectors": vectors}[sys.argv[1]]()
