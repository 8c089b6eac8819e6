"""A model of the instructions, written from paper 01 and the manual, and from nothing of the proved code.

An instruction is found by its opcode in ROWS. What it does is told by `effect` as a list that begins with the kind of
the effect; what the loading rules see of it is told by `class_of`. Numbers are Python's own, so that nothing wraps unasked.
"""

M = 1 << 32

# Source document 001, section 5.0: the mnemonic of each opcode, and what its two fields are.
# r register, q quick number (0 is 32), b bit number, u unsigned field, i signed field, c condition, - must be zero.
ROWS = {
    0: ("ADD", "rr"), 1: ("ADDC", "rr"), 2: ("ADDQ", "qr"), 3: ("ADDQT", "qr"),
    4: ("SUB", "rr"), 5: ("SUBC", "rr"), 6: ("SUBQ", "qr"), 7: ("SUBQT", "qr"),
    8: ("NEG", "-r"), 9: ("AND", "rr"), 10: ("OR", "rr"), 11: ("XOR", "rr"), 12: ("NOT", "-r"),
    13: ("BTST", "br"), 14: ("BSET", "br"), 15: ("BCLR", "br"),
    16: ("MULT", "rr"), 17: ("IMULT", "rr"), 18: ("IMULTN", "rr"), 19: ("RESMAC", "-r"), 20: ("IMACN", "rr"),
    21: ("DIV", "rr"), 22: ("ABS", "-r"), 23: ("SH", "rr"), 24: ("SHLQ", "qr"), 25: ("SHRQ", "qr"),
    26: ("SHA", "rr"), 27: ("SHARQ", "qr"), 28: ("ROR", "rr"), 29: ("RORQ", "qr"),
    30: ("CMP", "rr"), 31: ("CMPQ", "ir"), 32: ("SAT8", "-r"), 33: ("SAT16", "-r"),
    34: ("MOVE", "rr"), 35: ("MOVEQ", "ur"), 36: ("MOVETA", "rr"), 37: ("MOVEFA", "rr"), 38: ("MOVEI", "-r"),
    41: ("LOAD", "rr"), 43: ("LOAD14N", "qr"), 44: ("LOAD15N", "qr"),
    47: ("STORE", "rr"), 49: ("STORE14N", "qr"), 50: ("STORE15N", "qr"),
    51: ("MOVEPC", "-r"), 52: ("JUMP", "rc"), 53: ("JR", "ic"),
    55: ("MTOI", "rr"), 56: ("NORMI", "rr"), 57: ("NOP", "--"),
    58: ("LOAD14R", "rr"), 59: ("LOAD15R", "rr"), 60: ("STORE14R", "rr"), 61: ("STORE15R", "rr"), 62: ("SAT24", "-r"),
}


def signed(x, bits=32):
    x &= (1 << bits) - 1
    return x - (1 << bits) if x >> (bits - 1) else x


def quick(field):
    return field or 32


def decode(word):
    """The mnemonic and the two fields of a built word, or None."""
    op, s, d = word >> 10, word >> 5 & 31, word & 31
    if op not in ROWS:
        return None
    name, fields = ROWS[op]
    if fields[0] == "-" and s or fields[1] == "-" and d:
        return None
    return name, s, d


def flags(result, carry):
    return [1 if result == 0 else 0, result >> 31, carry]


def shift_left(d, n):
    return (d << n) % M if n < 32 else 0, d >> 31


def shift_right(d, n):
    return d >> n if n < 32 else 0, d & 1


def shift_right_signed(d, n):
    return (signed(d) >> min(n, 31)) % M, d & 1


def rotate_right(d, n):
    n %= 32
    return ((d >> n) | (d << (32 - n))) % M, d >> 31


def by_sign(d, s, right):
    n = signed(s)
    return shift_left(d, -n) if n < 0 else right(d, n)


def saturate(d, top):
    return max(0, min(signed(d), top))


def divide(d, s, mode):
    if s == 0:
        return M - 1, d
    n = d << 16 if mode else d
    return n // s % M, n % s


def product(d, s):
    return signed(d, 16) * signed(s, 16) % M


def computed(name, d, s, s_field, c):
    """Result and C of an instruction that writes a register and its flags, or None."""
    q = quick(s_field)
    if name == "ADD":
        return (d + s) % M, int(d + s >= M)
    if name == "ADDC":
        return (d + s + c) % M, int(d + s + c >= M)
    if name == "ADDQ":
        return (d + q) % M, int(d + q >= M)
    if name == "SUB":
        return (d - s) % M, int(d - s < 0)
    if name == "SUBC":
        return (d - s - c) % M, int(d - s - c < 0)
    if name == "SUBQ":
        return (d - q) % M, int(d - q < 0)
    if name == "NEG":
        return -d % M, int(d > 0)
    if name == "ABS":
        return abs(signed(d)), int(signed(d) < 0)
    if name == "AND":
        return d & s, c
    if name == "OR":
        return d | s, c
    if name == "XOR":
        return d ^ s, c
    if name == "NOT":
        return d ^ (M - 1), c
    if name == "BSET":
        return d | 1 << s_field, c
    if name == "BCLR":
        return d & ~(1 << s_field), c
    if name == "MULT":
        return (d & 0xFFFF) * (s & 0xFFFF), c
    if name == "IMULT":
        return product(d, s), c
    if name == "SH":
        return by_sign(d, s, shift_right)
    if name == "SHA":
        return by_sign(d, s, shift_right_signed)
    if name == "SHLQ":
        return shift_left(d, q)
    if name == "SHRQ":
        return shift_right(d, q)
    if name == "SHARQ":
        return shift_right_signed(d, q)
    if name == "ROR":
        return rotate_right(d, s)
    if name == "RORQ":
        return rotate_right(d, q)
    if name == "SAT8":
        return saturate(d, 255), c
    if name == "SAT16":
        return saturate(d, 65535), c
    if name == "SAT24":
        return saturate(d, 16777215), c
    if name == "MTOI":
        return s & 0x7FFFFF | (0xFF800000 if s >> 31 else 0), c
    if name == "NORMI":
        return (s.bit_length() - 1 - 22) % M if s else 0, c
    return None


def effect(word, x):
    """What a word does with the operands x: s, d, pc, z, n, c, acc, mode. The kind comes first."""
    found = decode(word)
    if found is None:
        return ["not built"]
    name, s_field, d_field = found
    s, d, c = x["s"], x["d"], x["c"]
    q = quick(s_field)
    written = computed(name, d, s, s_field, c)
    if written is not None:
        return ["write", d_field, written[0]] + flags(*written)
    if name == "NOP":
        return ["nothing"]
    if name == "ADDQT":
        return ["keep", d_field, (d + q) % M]
    if name == "SUBQT":
        return ["keep", d_field, (d - q) % M]
    if name == "RESMAC":
        return ["keep", d_field, x["acc"]]
    if name == "MOVE":
        return ["keep", d_field, s]
    if name == "MOVEQ":
        return ["keep", d_field, s_field]
    if name == "CMP":
        return ["flags"] + flags((d - s) % M, int(d < s))
    if name == "CMPQ":
        n = signed(s_field, 5) % M
        return ["flags"] + flags((d - n) % M, int(d < n))
    if name == "BTST":
        return ["flags", int(d >> s_field & 1 == 0), x["n"], c]
    if name == "DIV":
        return ["divide", d_field, *divide(d, s, x["mode"])]
    if name == "IMULTN":
        return ["product", product(d, s)] + flags(product(d, s), c)
    if name == "IMACN":
        return ["accumulate", (x["acc"] + product(d, s)) % M]
    if name == "MOVETA":
        return ["to other", d_field, s]
    if name == "MOVEFA":
        return ["from other", s_field, d_field]
    if name == "MOVEI":
        return ["immediate", d_field]
    if name == "MOVEPC":
        return ["counter", d_field]
    if name == "JUMP":
        return ["jump", d_field, s]
    if name == "JR":
        return ["jump", d_field, (x["pc"] + 2 + 2 * signed(s_field, 5)) % M]
    base, offset = place(name, s_field, s)
    if name.startswith("LOAD"):
        return ["load", d_field, base, offset]
    return ["store", base, offset, d]


def place(name, s_field, s):
    """The register and the offset that a LOAD or STORE adds."""
    if name[-1] == "N":
        return int(name[-3:-1]), 4 * quick(s_field)
    if name[-1] == "R":
        return int(name[-3:-1]), s
    return s_field, 0


def taken(bits, z, n, c):
    """Whether all the conditions that the five bits ask for hold."""
    chosen = n if bits & 16 else c
    return not (bits & 1 and z or bits & 2 and not z or bits & 4 and chosen or bits & 8 and not chosen)


QUIET = {"CMP", "CMPQ", "BTST", "IMULTN", "IMACN", "NOP", "MOVETA"}


def class_of(name, s, d):
    """What the loading rules see of an instruction. The class comes first."""
    if name in QUIET:
        return ["quiet"]
    if name in ("MOVEQ", "MOVE", "AND", "ADD", "JUMP", "JR"):
        return [name.lower(), s, d]
    if name in ("MOVEI", "MOVEPC"):
        return [name.lower(), d]
    if name in ("ADDQ", "ADDQT"):
        return ["add quick", quick(s), d]
    if name in ("SUBQ", "SUBQT"):
        return ["sub quick", quick(s), d]
    if name == "SHLQ":
        return ["shlq", quick(s), d]
    if name.startswith("LOAD") or name.startswith("STORE"):
        kind = "load" if name.startswith("LOAD") else "store"
        if name[-1] == "N":
            return [kind, d, 1, int(name[-3:-1]), 4 * quick(s)]
        if name[-1] == "R":
            return [kind, d, 2, int(name[-3:-1]), s]
        return [kind, d, 0, s]
    return ["write", d]
