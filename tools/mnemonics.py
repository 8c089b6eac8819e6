"""The 64 opcodes, and the text of an instruction to its words and back.

OPCODES is one table for both ways. In an operand, s and d are the numbers of the registers in the source and destination
fields, and the other small letters are read and written by OPERANDS.
"""

import re

from numerals import Unreadable, in_range, long_of, number_of

# Source document 001, section 5.0, in the order of the numbers, with the operands spelt as there.
OPCODES = """
ADD Rs,Rd         | ADDC Rs,Rd        | ADDQ #q,Rd        | ADDQT #q,Rd       | SUB Rs,Rd         | SUBC Rs,Rd
SUBQ #q,Rd        | SUBQT #q,Rd       | NEG Rd            | AND Rs,Rd         | OR Rs,Rd          | XOR Rs,Rd
NOT Rd            | BTST #u,Rd        | BSET #u,Rd        | BCLR #u,Rd        | MULT Rs,Rd        | IMULT Rs,Rd
IMULTN Rs,Rd      | RESMAC Rd         | IMACN Rs,Rd       | DIV Rs,Rd         | ABS Rd            | SH Rs,Rd
SHLQ #q,Rd        | SHRQ #q,Rd        | SHA Rs,Rd         | SHARQ #q,Rd       | ROR Rs,Rd         | RORQ #q,Rd
CMP Rs,Rd         | CMPQ #i,Rd        | SAT8 Rd           | SAT16 Rd          | MOVE Rs,Rd        | MOVEQ #u,Rd
MOVETA Rs,Rd      | MOVEFA Rs,Rd      | MOVEI #l,Rd       | LOADB (Rs),Rd     | LOADW (Rs),Rd     | LOAD (Rs),Rd
LOADP (Rs),Rd     | LOAD (R14+q),Rd   | LOAD (R15+q),Rd   | STOREB Rd,(Rs)    | STOREW Rd,(Rs)    | STORE Rd,(Rs)
STOREP Rd,(Rs)    | STORE Rd,(R14+q)  | STORE Rd,(R15+q)  | MOVE PC,Rd        | JUMP c,(Rs)       | JR c,#j
MMULT Rs,Rd       | MTOI Rs,Rd        | NORMI Rs,Rd       | NOP               | LOAD (R14+Rs),Rd  | LOAD (R15+Rs),Rd
STORE Rd,(R14+Rs) | STORE Rd,(R15+Rs) | SAT24 Rd          | PACK Rd
"""
OPCODES = [form.strip() for form in re.split(r"[|\n]", OPCODES.strip())]
MOVETA, MOVEFA, MOVEI = (OPCODES.index(form) for form in ("MOVETA Rs,Rd", "MOVEFA Rs,Rd", "MOVEI #l,Rd"))

# "Opcodes 39, 40, 42, 45, 46, 48, 54 and 63 are not built."
NOT_BUILT = {39, 40, 42, 45, 46, 48, 54, 63}

# The names of conditions: first the manual's (source document 000), then those of 001, section 3.2.6.1.
CONDITIONS = {
    "T": 0, "NZ": 1, "Z": 2, "NC": 4, "NC NZ": 5, "NC Z": 6, "C": 8, "C NZ": 9, "C Z": 10, "NN": 20, "NN NZ": 21, "NN Z": 22,
    "N": 24, "N NZ": 25, "N Z": 26,
    "": 0, "NE": 1, "EQ": 2, "CC": 4, "HI": 5, "CS": 8, "PL": 20, "MI": 24,
}
CONDITION_NAMES = {bits: name for name, bits in reversed(list(CONDITIONS.items())) if name}
CONDITION_BITS = {frozenset(name.split()): bits for name, bits in CONDITIONS.items()}


# Each operand that is no register: its text to the field, and the field to its text. JR's may be the address of its target.

def quick(text, address):
    return in_range(number_of(text), 1, 32, "the number") % 32


def unsigned(text, address):
    return in_range(number_of(text), 0, 31, "the number")


def signed(text, address):
    return in_range(number_of(text), -16, 15, "the number") % 32


def offset(text, address):
    number = number_of(text)
    if -16 <= number <= 15:
        return number % 32
    if number % 2:
        raise Unreadable(f"{number:X}h is odd: a target is an even address")
    words = (number - address - 2) // 2
    if not -16 <= words <= 15:
        raise Unreadable(f"JR does not reach {number:X}h from {address:X}h: write an offset of -16 to 15 words behind the "
                         f"next instruction, or a target from {address - 30:X}h to {address + 32:X}h")
    return words % 32


def condition(text, address):
    names = frozenset((text or "").split())
    if names in CONDITION_BITS:
        return CONDITION_BITS[names]
    try:
        return in_range(number_of(text.lstrip("#")), 0, 31, "a condition")
    except Unreadable as told:
        raise Unreadable(f"{told}; a condition is one of {', '.join(name for name in CONDITIONS if name)}, or a number")


def as_signed(field):
    return str(field - 32 if field > 15 else field)


OPERANDS = {
    "q": (quick, lambda field: str(field or 32)),
    "u": (unsigned, str),
    "i": (signed, as_signed),
    "j": (offset, as_signed),
    "c": (condition, lambda field: CONDITION_NAMES.get(field, f"#{field}")),
    "l": (lambda text, address: long_of(text), lambda value: f"${value:08X}"),
}
NUMBER = r"(?P<{}>[+-]?(?:\$|0X)?[0-9A-F]+H?)"


def pattern_of(form):
    """The regular expression of a form's operands. A # and the condition may be left out."""
    pattern = ""
    for part in re.findall(r"R[sd]|[quijl]|c,|R1[45]|PC|.", form.partition(" ")[2]):
        if part in ("Rs", "Rd"):
            pattern += f"R(?P<{part[1]}>[0-9]{{1,2}})"
        elif part in OPERANDS:
            pattern += "#?" + NUMBER.format(part)
        elif part == "c,":
            pattern += r"(?:(?P<c>[^,()]*),)?"
        elif part != "#":
            pattern += re.escape(part)
    return re.compile(pattern)


PATTERNS = [pattern_of(form) for form in OPCODES]


def mnemonic(opcode):
    return OPCODES[opcode].split()[0]


BY_MNEMONIC = {}
for each in range(64):
    BY_MNEMONIC.setdefault(mnemonic(each), []).append(each)


def form(opcode):
    """An instruction as the manual writes it: n for each kind of number, cc for a condition."""
    return re.sub(r"\b[quijl]\b", "n", OPCODES[opcode]).replace(" c,", " cc,")


def example(opcode):
    """A form with operands filled in."""
    sample = {"s": "1", "d": "2", "q": "4", "u": "4", "i": "-4", "j": "-4", "c": "NZ", "l": "$12345678"}
    return re.sub(r"(?<=R)[sd]|\b[quijcl]\b", lambda found: sample[found[0]], OPCODES[opcode])


def registers(word):
    """The registers that the source and destination fields name, as columns are named: R is the active bank, A the other.
    None for a field that names no register."""
    opcode = word >> 10
    source = f"{'A' if opcode == MOVEFA else 'R'}{word >> 5 & 31}" if "Rs" in OPCODES[opcode] else None
    destination = f"{'A' if opcode == MOVETA else 'R'}{word & 31}" if "Rd" in OPCODES[opcode] else None
    return source, destination


def words_of(text, address):
    """The words of an instruction that stands at an address, from its mnemonic and operands."""
    plain = re.sub(r"\s*([,()+#])\s*", r"\1", " ".join(text.replace("\u2212", "-").upper().split()))
    name, operands = re.fullmatch(r"(\w*)\s?(.*)", plain).groups()
    opcodes = BY_MNEMONIC.get(name)
    if opcodes is None:
        raise Unreadable(f"'{text}' is no instruction: write a mnemonic with its operands, such as ADD R1,R2, or a word of "
                         "four hex digits, such as 0022")
    for opcode in opcodes:
        found = PATTERNS[opcode].fullmatch(operands)
        if found:
            return encoded(opcode, found.groupdict(), address)
    raise Unreadable(f"'{text}' has other operands than {name} takes: write " + " or ".join(map(example, opcodes)))


def encoded(opcode, operands, address):
    """The words of an opcode with the texts of its operands."""
    fields = {"s": 0, "d": 0}
    for letter, text in operands.items():
        if letter in fields:
            fields[letter] = in_range(int(text), 0, 31, "a register's number")
        elif letter == "l":
            fields["l"] = long_of(text)
        else:
            fields["d" if letter == "c" else "s"] = OPERANDS[letter][0](text, address)
    words = [opcode << 10 | fields["s"] << 5 | fields["d"]]
    if "l" in fields:
        words += [fields["l"] % 65536, fields["l"] >> 16]
    return words


def text_of(words):
    """An instruction's words as text. Words that are no instruction are shown as hex digits."""
    word, rest = words[0], words[1:]
    opcode, source, destination = word >> 10, word >> 5 & 31, word & 31
    name, _, operands = OPCODES[opcode].partition(" ")
    free = "s" in operands or re.search(r"\b[quij]\b", operands)
    whole = opcode != MOVEI or len(rest) == 2
    if opcode in NOT_BUILT or source and not free or destination and not operands or not whole:
        return " ".join(f"{w:04X}" for w in words)
    values = {"q": source, "u": source, "i": source, "j": source, "c": destination, "l": 0}
    if opcode == MOVEI:
        values["l"] = rest[1] << 16 | rest[0]
    operands = re.sub(r"\b([quijcl])\b", lambda found: OPERANDS[found[1]][1](values[found[1]]), operands)
    operands = operands.replace("Rs", f"R{source}").replace("Rd", f"R{destination}")
    return f"{name} {operands}".strip()
