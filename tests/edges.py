"""The rows of docs/vectors/base.csv before they are run: for each instruction the edges that paper 01 speaks of.

A row is a note, the words of the instruction, and what is there before the step, by the names that `basetable.before` takes.
"""

from itertools import count

from machine import CONTROL, DIVIDE, FLAGS, RAM_BASE
from model import M, ROWS, taken
from vectors import PUBLISHED

OPCODE = {name: opcode for opcode, (name, _) in ROWS.items()}
DATA, LAST = 0xF03800, 0xF03FFC
TOP, MIN, MAX = M - 1, 0x80000000, 0x7FFFFFFF

PAIRS = [
    ("0 and 0", 0, 0), ("1 and 0", 1, 0), ("0 and 1", 0, 1), ("up to 7FFFFFFFh", 1, MAX - 1), ("past 7FFFFFFFh", 1, MAX),
    ("7FFFFFFFh twice", MAX, MAX), ("80000000h twice", MIN, MIN), ("1 and 80000000h", 1, MIN), ("80000000h and 1", MIN, 1),
    ("1 and FFFFFFFFh", 1, TOP), ("FFFFFFFFh and 1", TOP, 1), ("FFFFFFFFh twice", TOP, TOP), ("FFFFFFFFh and 0", TOP, 0),
    ("0 and FFFFFFFFh", 0, TOP), ("7FFFFFFFh and 80000000h", MAX, MIN), ("80000000h and 7FFFFFFFh", MIN, MAX),
    ("every other bit", 0xAAAAAAAA, 0x55555555), ("the same bits", 0x55555555, 0x55555555),
    ("carry between the halves", 0xFFFF, 1), ("mixed", 0x12345678, 0x9ABCDEF0),
]
PRODUCTS = [
    ("0 by 0", 0, 0), ("1 by 1", 1, 1), ("0 by FFFFh", 0, 0xFFFF), ("FFFFh by 0", 0xFFFF, 0), ("FFFFh by 1", 0xFFFF, 1),
    ("1 by FFFFh", 1, 0xFFFF), ("FFFFh twice", 0xFFFF, 0xFFFF), ("8000h twice", 0x8000, 0x8000), ("8000h by 2", 0x8000, 2),
    ("2 by 8000h", 2, 0x8000), ("7FFFh twice", 0x7FFF, 0x7FFF), ("8000h by 7FFFh", 0x8000, 0x7FFF),
    ("8000h by FFFFh", 0x8000, 0xFFFF), ("bit 31 of the product", 0xFFFF, 0x8001), ("just below bit 31", 0xB504, 0xB504),
    ("just above bit 31", 0xB505, 0xB505), ("high half of s ignored", 0x10000, 1), ("high half of d ignored", 1, 0x10000),
    ("high halves ignored", 0xFFFF0003, 0xFFFF0005), ("sign of the low half only", 0x7FFF8000, 2),
    ("mixed", 0x12345678, 0x9ABCDEF0),
]
DIVISIONS = [
    ("0 by 1", 1, 0), ("1 by 1", 1, 1), ("7 by 2", 2, 7), ("divisor above dividend", 7, 2), ("by 0", 0, 7), ("0 by 0", 0, 0),
    ("FFFFFFFFh by 0", 0, TOP), ("FFFFFFFFh by 1", 1, TOP), ("FFFFFFFFh by itself", TOP, TOP), ("1 by FFFFFFFFh", TOP, 1),
    ("by 80000000h", MIN, TOP), ("7FFFFFFFh by 80000000h", MIN, MAX), ("80000000h by 3", 3, MIN),
    ("10000h by 10000h", 1 << 16, 1 << 16), ("quotient above 32 bits in mode 1", 1, 1 << 16), ("no remainder", 5, 1000),
    ("mixed", 0x1234, 0x9ABCDEF0),
]
VALUES = [
    ("0", 0), ("1", 1), ("2", 2), ("FEh", 254), ("255", 255), ("256", 256), ("7FFFh", 0x7FFF), ("8000h", 0x8000),
    ("65,535", 0xFFFF), ("65,536", 0x10000), ("3FFFFFh", 0x3FFFFF), ("bit 22", 0x400000), ("bits 0 to 22", 0x7FFFFF),
    ("bit 23", 0x800000), ("16,777,215", 0xFFFFFF), ("16,777,216", 0x1000000), ("7FFFFFFFh", MAX), ("80000000h", MIN),
    ("80000001h", MIN + 1), ("FFFFFFFFh", TOP), ("minus 256", M - 256), ("a negative mantissa", 0xBFC00000),
    ("a mantissa", 0x3FC00000), ("every other bit", 0xAAAAAAAA),
]
COUNTS = [0, 1, 4, 31, 32, 33, MAX, -1, -4, -31, -32, -33, -MIN]
OUTSIDE = [("below RAM", RAM_BASE - 4), ("behind RAM", RAM_BASE + 4096), ("F02104h, not built", 0xF02104),
           ("F02118h, not built", 0xF02118), ("address 0", 0), ("the last long of all", M - 4)]

states_so_far, words_so_far = count(), count()


def vary(**before):
    """Flags and bank that change from row to row, so that each is met both ways, under what the row itself asks for."""
    k = next(states_so_far)
    return {"z": k & 1, "n": k >> 1 & 1, "c": k >> 2 & 1, "bank": int(k % 3 == 2), **before}


def fields(name, s=None, d=None):
    """A word of an instruction, with registers that change from row to row where none is asked for."""
    k = next(words_so_far)
    s = 1 + k % 13 if s is None else s
    d = 16 + k % 16 if d is None else d
    return [OPCODE[name] << 10 | s << 5 | d]


def pairs(name, edges, **more):
    for note, s, d in edges:
        yield note, fields(name), vary(s=s, d=d, **more)
    for value in (0, MIN, 3):
        yield "source and destination are one register", fields(name, 5, 5), vary(d=value, **more)


def with_carry(name):
    for c in (0, 1):
        for note, words, before in pairs(name, PAIRS, c=c):
            yield f"{note}, C {c}", words, before


def quick(name):
    for d in (0, 1, 31, 32, 33, MAX, MIN, TOP, M - 32, M - 33):
        for field in (1, 0):
            yield f"quick {field or 32}", fields(name, field), vary(d=d)
    for field in (2, 15, 16, 31):
        yield f"quick {field}", fields(name, field), vary(d=16)


def bits(name):
    for bit in (0, 1, 15, 16, 30, 31):
        for note, d in (("in 0", 0), ("in all ones", TOP), ("alone set", 1 << bit), ("alone clear", TOP ^ 1 << bit)):
            yield f"bit {bit} {note}", fields(name, bit), vary(d=d)


def one(name, register="d"):
    for note, value in VALUES:
        words = fields(name, None if register == "s" else 0)
        yield note, words, vary(**{register: value})


def multiplies(name):
    yield from pairs(name, PRODUCTS, acc=0x1234)


def accumulates(name):
    for i, (note, words, before) in enumerate(pairs(name, PRODUCTS)):
        yield note, words, {**before, "acc": (0, 1, MAX, MIN, TOP)[i % 5]}


def divides(name):
    for mode in (0, 1):
        for note, words, before in pairs(name, DIVISIONS, mode=mode, remainder=0x55):
            yield f"{note}, mode {mode}", words, before


def shifts(name):
    for places in COUNTS:
        for d in (MIN + 1, MAX - 1):
            way = "right" if places >= 0 else "left"
            yield f"{abs(places)} {way}", fields(name), vary(s=places % M, d=d)
    yield "source and destination are one register", fields(name, 6, 6), vary(d=4)


def quick_shifts(name):
    for field in (1, 4, 16, 31, 0):
        for d in (1, MIN, MIN + 1, TOP, MAX - 1):
            yield f"{field or 32} places", fields(name, field), vary(d=d)


def rotates(name):
    for places in (0, 1, 4, 31, 32, 33, 63, TOP):
        for d in (1, MIN, 0x12345678):
            yield f"by {places % 32}, the low five bits", fields(name), vary(s=places, d=d)


def compares_quick(name):
    for immediate in (-16, -1, 0, 1, 15):
        for d in (0, 1, 15, MAX, MIN, M - 16, TOP):
            yield f"with {immediate}", fields(name, immediate % 32), vary(d=d)


def moves(name):
    for note, value in VALUES:
        yield note, fields(name), vary(s=value, d=0x11111111)
    for bank in (0, 1):
        old = 0xCAFE if name == "MOVE" else 1
        yield f"one number twice, bank {bank}", fields(name, 9, 9), vary(bank=bank, s=0xCAFE, d=old)


def move_quick(name):
    for n in range(32):
        yield f"the number {n}", fields(name, n), vary(d=TOP)


def move_immediate(name):
    for note, value in VALUES:
        yield note, fields(name, 0) + [value % 65536, value >> 16], vary(d=0x11111111)
    yield "low word first", fields(name, 0) + [0x5678, 0x1234], vary()
    for pc in (0xF03FFA, 0xF03FFC, 0xF03FFE):
        yield f"at {pc:X}h", fields(name, 0) + [0x5678, 0x1234], vary(pc=pc)


def move_counter(name):
    for i in range(20):
        pc = RAM_BASE + 2 * i * i if i < 19 else 0xF03FFE
        yield f"at {pc:X}h", fields(name, 0), vary(pc=pc, d=TOP)


def nothing(name):
    for f in range(8):
        for bank in (0, 1):
            yield "flags and bank stay", fields(name, 0, 0), vary(z=f & 1, c=f >> 1 & 1, n=f >> 2, bank=bank)
    for s, d in ((1, 0), (0, 1), (31, 31)):
        yield "a field is not zero", fields(name, s, d), vary()
    for running in (True, False):
        yield "stopped already" if not running else "running", fields(name, 0, 0), vary(running=running)


def reached(name, address, k):
    """The word and the registers with which a LOAD or STORE reaches an address. The index changes with k."""
    if name[-1] == "N":
        base, field = name[-3:-1], (1, 2, 31, 0)[k % 4]
        return fields(name, field), {f"r{base}": (address - 4 * (field or 32)) % M}
    if name[-1] == "R":
        index = (0, 4, 0x100, M - 4, MIN)[k % 5]
        return fields(name), {f"r{name[-3:-1]}": (address - index) % M, "s": index}
    return fields(name), {"s": address}


def addresses():
    """A note and an address, for all that may be reached and some that may not."""
    yield from [("RAM", DATA), ("the last long of RAM", LAST), ("flags register", FLAGS), ("control register", CONTROL),
                ("divide register", DIVIDE)]
    for address in (DATA, LAST, FLAGS):
        for odd in (1, 2, 3):
            yield f"{odd} behind {address:X}h", address + odd
    yield from OUTSIDE


def loads(name):
    for k, (note, address) in enumerate(addresses()):
        words, before = reached(name, address, k)
        yield note, words, vary(d=TOP, ram=0x89ABCDEF, last=0x01234567, remainder=0xFEDC, **before)
    for k in range(4):
        words, before = reached(name, (DATA, RAM_BASE)[k // 2], k)
        yield ("RAM, index changed", "the instruction itself")[k // 2], words, vary(d=0, ram=k, **before)


def stores(name):
    for k, (note, address) in enumerate(addresses()):
        words, before = reached(name, address, k)
        yield note, words, vary(d=0x89ABCDEF, ram=1, last=2, **before)
    for k, value in enumerate((0, 1, 2, 4, 7, 0x4000, 0x4007, 0xFFFFBFF8, TOP)):
        words, before = reached(name, FLAGS, k)
        yield f"flags register takes {value:X}h", words, vary(d=value, **before)
    for k, value in enumerate((0, 1, TOP - 1, TOP)):
        words, before = reached(name, CONTROL, k)
        yield "stops" if value % 2 == 0 else "goes on", words, vary(d=value, **before)
    for k, value in enumerate((0, 1, 2, TOP)):
        words, before = reached(name, DIVIDE, k)
        yield f"divide mode {value % 2}", words, vary(d=value, mode=1 - value % 2, **before)
    words, before = reached(name, CONTROL, 0)
    yield "stops behind a jump", words, vary(d=0, target=DATA, **before)


def conditions(name, field, **more):
    """Each condition with flags that take the jump and with flags that do not, where there are such."""
    for condition in range(32):
        for wanted in (True, False):
            flags = [f for f in range(8) if taken(condition, f & 1, f >> 2, f >> 1 & 1) == wanted]
            if flags:
                f = flags[condition % len(flags)]
                note = f"condition {condition}: {'taken' if wanted else 'not taken'}"
                yield note, fields(name, field, condition), vary(z=f & 1, c=f >> 1 & 1, n=f >> 2, **more)


def relative_jumps(name):
    yield from conditions(name, 5)
    for offset in (-16, -2, -1, 0, 1, 15):
        yield f"{offset} words", fields(name, offset % 32, 0), vary(pc=0xF03100)
    yield "to below RAM", fields(name, 16, 0), vary()


def absolute_jumps(name):
    yield from conditions(name, 7, s=DATA)
    for target in (0, 1, RAM_BASE - 2, RAM_BASE + 4096, TOP, DATA + 1):
        yield f"any content is taken: {target:X}h", fields(name, 8, 0), vary(s=target)


def anywhere(name):
    """What can happen to every instruction: its place, and a jump before it."""
    source, destination = dict(ROWS.values())[name]
    words = fields(name, 0 if source == "-" else 1, 0 if destination in "-c" else None) + [0, 0] * (name == "MOVEI")
    before = {}
    if name.startswith(("LOAD", "STORE")):
        words, before = reached(name, DATA, 0)
    yield "after a jump", words, vary(target=DATA + 0x10, **before)
    yield "after a jump to address 0", words, vary(target=0, **before)
    yield "last word of RAM", words, vary(pc=0xF03FFE, **before)
    yield "odd counter", words, vary(pc=RAM_BASE + 1, **before)
    yield "counter below RAM", words, vary(pc=RAM_BASE - 2, **before)
    if source == "-":
        yield "source field not zero", [words[0] | 1 << 5], vary()


FAMILIES = [
    (lambda name: pairs(name, PAIRS), "ADD SUB AND OR XOR CMP"), (with_carry, "ADDC SUBC"),
    (quick, "ADDQ ADDQT SUBQ SUBQT"), (bits, "BTST BSET BCLR"), (one, "NEG NOT ABS SAT8 SAT16 SAT24"),
    (lambda name: one(name, "s"), "MTOI NORMI"), (lambda name: one(name, "acc"), "RESMAC"),
    (multiplies, "MULT IMULT IMULTN"), (accumulates, "IMACN"), (divides, "DIV"), (shifts, "SH SHA"),
    (quick_shifts, "SHLQ SHRQ SHARQ"), (rotates, "ROR"), (quick_shifts, "RORQ"), (compares_quick, "CMPQ"),
    (moves, "MOVE MOVETA MOVEFA"), (move_quick, "MOVEQ"), (move_immediate, "MOVEI"), (move_counter, "MOVEPC"),
    (nothing, "NOP"), (loads, "LOAD LOAD14N LOAD15N LOAD14R LOAD15R"),
    (stores, "STORE STORE14N STORE15N STORE14R STORE15R"), (relative_jumps, "JR"), (absolute_jumps, "JUMP"),
]
FAMILY = {name: family for family, names in FAMILIES for name in names.split()}


def published():
    """Paper 01's own rows; those of a run or a check are no instructions."""
    for note, word, s, d, mode in PUBLISHED:
        source, destination = ROWS[word >> 10][1]
        before = {"mode": mode, "pc": 0xF0300C}
        if source == "r":
            before["s"] = s
        if destination == "r":
            before["d"] = d
        yield f"paper 01: {note}", [word], before
    yield "paper 01: MOVEI at F03FFEh", [OPCODE["MOVEI"] << 10 | 1], {"pc": 0xF03FFE}


def rows():
    """Every row, in the order of the opcodes behind paper 01's own."""
    yield from published()
    for opcode in range(64):
        if opcode in ROWS:
            name = ROWS[opcode][0]
            yield from FAMILY[name](name)
            yield from anywhere(name)
        else:
            for low in (0, 0x41, 0x3FF):
                yield f"opcode {opcode} is not built", [opcode << 10 | low], vary()
