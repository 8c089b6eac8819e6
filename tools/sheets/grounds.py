"""The sentences of the papers that decide what an instruction does, for the report on a row."""

import re

from mnemonics import NOT_BUILT, mnemonic
from sheets.comparison import ANSWERS
from sheets.extent import FLAGS, address_of

RESTS_ON = "Rests on"

# Sentences that hold for more than one instruction. 01 unless a number stands before.
NO_SUCH_OPCODE = '"Opcodes 39, 40, 42, 45, 46, 48, 54 and 63 are not built."'
ZERO_FIELDS = {8, 12, 19, 22, 32, 33, 38, 51, 62}, 57
FIELD_NOT_ZERO = ('"The source field must be zero for 8, 12, 19, 22, 32, 33, 38, 51 and 62, and all ten bits for 57"; '
                  '"else the word is not built (ruled)."')
SHIFTS = {"SH", "SHA", "SHLQ", "SHRQ", "SHARQ"}
SHIFTED_OUT = '"C is the old bit 0 for right, old bit 31 for left."'
FLAGS_FOLLOW = '"Z and N follow the result and an undefined C is unchanged (ruled), unless noted."'
JUMPS_WAIT = '"A taken jump makes the target pending"; "the next instruction runs, then the counter becomes the target."'
CHIP_REGISTERS = {
    0xF02100: '"F02100h gives and takes Z, C, N (bits 0, 1, 2) and bank (bit 14), other bits read 0 and are ignored."',
    0xF02114: '"F02114h reads 2001h"; "a write with bit 0 zero stops the machine after that step."',
    0xF0211C: '"F0211Ch reads the remainder"; "bit 0 of a write becomes the divide mode."',
}
A_FAULT = '"A fault is not counted as a step"'
NO_SUCH_FAULT = '"A fault is a number, other than 31, from the order for a step: here 11 to 15."'
AS_BEFORE = '"state and RAM […] before the faulty step"'
ORDER = '"For a step: 31, stopped, 12 for the first word, 11, 15, 12 for the rest, 13, 14"'
# Answers up to this one are no faults.
STOPPED = 1
WORD_NOT_BUILT = 11


def rests_on(page):
    """The sentence of each opcode, from the table in the text of docs/INSTRUCTIONS.md."""
    rows = [[cell.strip() for cell in line.split("|")[1:-1]] for line in page.split("\n") if line.startswith("|")]
    at = next(row.index(RESTS_ON) for row in rows if RESTS_ON in row)
    return {int(row[0]): row[at] for row in rows if len(row) > at and row[0].isdigit()}


def not_built(word):
    """Why a word is no instruction, or None where it is one."""
    if word >> 10 in NOT_BUILT:
        return NO_SUCH_OPCODE
    sources, whole = ZERO_FIELDS
    return FIELD_NOT_ZERO if word >> 10 in sources and word & 0x3E0 or word >> 10 == whole and word & 0x3FF else None


def of_faults(word, wanted, came, places):
    """The sentences for answers of which one is a fault: those of the numbers themselves, and what a fault leaves."""
    texts = []
    if "answer" in places:
        numbers = [number for number in (wanted, came) if number > STOPPED]
        texts += [f'"{ANSWERS[number]}"' if number in ANSWERS else NO_SUCH_FAULT for number in numbers]
        texts += [ORDER] if len(numbers) == 2 else []
    if WORD_NOT_BUILT in (wanted, came) and not_built(word):
        texts.append(not_built(word))
    if came > STOPPED and places - {"answer", "steps"}:
        texts.append(AS_BEFORE)
    return texts


class Grounds:
    """The sentences for a row."""

    def __init__(self, page):
        self.rests_on = rests_on(page)

    def of_differences(self, word, before, found, came):
        """The sentences for what differs in a row, given the answer that came. The instruction's own decides what it writes,
        but neither a fault nor what comes of a machine that had stopped."""
        places = {each.place for each in found}
        wanted = next((each.number for each in found if each.place == "answer"), came)
        texts = of_faults(word, wanted, came, places)
        if not before.read("running"):
            texts.append(ORDER)
        else:
            if came <= STOPPED and (wanted <= STOPPED or places - {"answer", "steps"}):
                texts += self.of_instruction(word, before, places)
            if "steps" in places:
                texts.append(A_FAULT)
        return [named(text) for text in dict.fromkeys(texts)]

    def of_instruction(self, word, before, places):
        """The sentences for what an instruction writes: first its own."""
        name = mnemonic(word >> 10)
        texts = [not_built(word) or self.rests_on[word >> 10]]
        if name in ("LOAD", "STORE") and address_of(word, before) in CHIP_REGISTERS:
            texts.append(CHIP_REGISTERS[address_of(word, before)])
        if "C" in places and name in SHIFTS:
            texts.append(SHIFTED_OUT)
        # A sentence that speaks of flags, or of the one that differs, decides alone.
        if any(not re.search(rf"flag|\b{flag}\b", "".join(texts)) for flag in places & set(FLAGS)):
            texts.append(FLAGS_FOLLOW)
        if places & {"counter", "pending"} and (name in ("JR", "JUMP") or before.read("pending") is not None):
            texts.append(JUMPS_WAIT)
        return texts


def named(text):
    """A sentence with its paper before it."""
    return text if text[:1].isdigit() else f"01: {text}"
