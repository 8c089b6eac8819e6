"""A model of the whole base machine, written from paper 01 and from nothing of the proved code.

What one instruction does is told by `model.effect`. Here stand the state, the address map, the step, the run and the card.
State and RAM are values: a function that changes one hands back another. So a fault, which hands back what was there before
the step, leaves nothing half done.

As a script it reads an image on standard input and prints its card: python3 tests/machine.py < IMAGE
"""

import sys
from typing import NamedTuple, Optional

from model import M, decode, effect, taken

# "Local RAM is 4,096 lent bytes at F03000h to F03FFFh".
RAM_BASE = 0xF03000
RAM_LENGTH = 4096

# The three chip registers: flags and bank, control, remainder and divide mode.
FLAGS = 0xF02100
CONTROL = 0xF02114
DIVIDE = 0xF0211C

# "The budget is 0 to 1,000,000."
BUDGET_LIMIT = 1_000_000

# "JR, JUMP, MOVEI or MOVE PC while a jump is pending" is a fault.
NOT_AFTER_A_JUMP = ("JR", "JUMP", "MOVEI", "MOVEPC")


class State(NamedTuple):
    """The state: "two banks of 32 registers of 32 bits; which bank is active; flags Z, N, C; program counter; the pending
    jump target, if any; remainder; divide mode; 32-bit accumulator; running or stopped". The values given here are those
    with which the run program begins: it "starts at F03000h, running, all else zero"."""
    banks: tuple = ((0,) * 32, (0,) * 32)
    bank: int = 0
    z: int = 0
    n: int = 0
    c: int = 0
    pc: int = RAM_BASE
    target: Optional[int] = None
    remainder: int = 0
    mode: int = 0
    acc: int = 0
    running: bool = True


START = State()


class Fault(Exception):
    """A number of the paper's table, 11 to 15, that cuts a step short."""

    def __init__(self, number):
        super().__init__(number)
        self.number = number


# Registers and flags.

def register(state, i):
    """A register of the active bank."""
    return state.banks[state.bank][i]


def with_register_of(state, bank, i, value):
    """The state with one register of one bank changed."""
    old = state.banks[bank]
    new = old[:i] + (value,) + old[i + 1:]
    return state._replace(banks=(state.banks[0], new) if bank else (new, state.banks[1]))


def with_register(state, i, value):
    """The state with one register of the active bank changed."""
    return with_register_of(state, state.bank, i, value)


def with_flags(state, z, n, c):
    """The state with the three flags changed."""
    return state._replace(z=z, n=n, c=c)


# RAM and the address map.

def in_ram(address, length):
    """Whether all the bytes from an address on lie in local RAM."""
    return RAM_BASE <= address and address + length <= RAM_BASE + RAM_LENGTH


def word_at(ram, address):
    """A word of an instruction, "high byte first". 12: "counter odd, or instruction not wholly in local RAM"."""
    if address % 2 or not in_ram(address, 2):
        raise Fault(12)
    i = address - RAM_BASE
    return ram[i] << 8 | ram[i + 1]


def check_address(address):
    """13 "address not a multiple of 4" comes before 14 "address neither in local RAM nor a built register"."""
    if address % 4:
        raise Fault(13)
    if not in_ram(address, 4) and address not in (FLAGS, CONTROL, DIVIDE):
        raise Fault(14)


def flags_value(state):
    """What F02100h holds: it "gives and takes Z, C, N (bits 0, 1, 2) and bank (bit 14), other bits read 0"."""
    return state.z | state.c << 1 | state.n << 2 | state.bank << 14


def read_long(ram, state, address):
    """What a LOAD reads. "F02114h reads 2001h"; "F0211Ch reads the remainder"; longs are "high byte first"."""
    check_address(address)
    if address == FLAGS:
        return flags_value(state)
    if address == CONTROL:
        return 0x2001
    if address == DIVIDE:
        return state.remainder
    i = address - RAM_BASE
    return int.from_bytes(ram[i:i + 4], "big")


def write_long(ram, state, address, value):
    """RAM and state after a STORE. F02100h "takes Z, C, N (bits 0, 1, 2) and bank (bit 14)"; for F02114h "a write with bit 0
    zero stops the machine after that step"; for F0211Ch "bit 0 of a write becomes the divide mode"."""
    check_address(address)
    if address == FLAGS:
        return ram, with_flags(state, value & 1, value >> 2 & 1, value >> 1 & 1)._replace(bank=value >> 14 & 1)
    if address == CONTROL:
        return ram, state._replace(running=value & 1 == 1)
    if address == DIVIDE:
        return ram, state._replace(mode=value & 1)
    i = address - RAM_BASE
    return ram[:i] + value.to_bytes(4, "big") + ram[i + 4:], state


# One function for each kind of effect. Each gives the state after it; the counter is moved afterwards, in `moved`.

def nothing(state):
    """NOP: "no flag", and no register."""
    return state


def write(state, d, result, z, n, c):
    """A result into the destination: "Z and N follow the result", and C as the instruction says."""
    return with_flags(with_register(state, d, result), z, n, c)


def divide(state, d, quotient, remainder):
    """DIV: "no flag", and the "remainder of that division kept"."""
    return with_register(state, d, quotient)._replace(remainder=remainder)


def product(state, value, z, n, c):
    """IMULTN: "the same signed product and flags, into the accumulator only"."""
    return with_flags(state, z, n, c)._replace(acc=value)


def accumulate(state, value):
    """IMACN "adds that product there", and touches no flag."""
    return state._replace(acc=value)


def to_other(state, d, value):
    """MOVETA writes the destination register of the bank that is not active."""
    return with_register_of(state, 1 - state.bank, d, value)


def from_other(state, s, d):
    """MOVEFA reads the source register of the bank that is not active."""
    return with_register(state, d, state.banks[1 - state.bank][s])


def counter(state, d):
    """MOVE PC "gives its own address (ruled)"."""
    return with_register(state, d, state.pc)


def jump(state, condition, target):
    """JR and JUMP: "a taken jump makes the target pending"."""
    return state._replace(target=target) if taken(condition, state.z, state.n, state.c) else state


WITHOUT_RAM = {
    "nothing": nothing, "write": write, "keep": with_register, "flags": with_flags, "divide": divide, "product": product,
    "accumulate": accumulate, "to other": to_other, "from other": from_other, "counter": counter, "jump": jump,
}


def immediate(ram, state, d):
    """MOVEI "is followed by the low word, then the high word"."""
    low = word_at(ram, state.pc + 2)
    high = word_at(ram, state.pc + 4)
    return with_register(state, d, high << 16 | low)


def place(state, base, offset):
    """The address of a LOAD or STORE: "in a register, or R14 or R15 plus 4 × quick n or plus a register, modulo 2^32"."""
    return (register(state, base) + offset) % M


def load(ram, state, d, base, offset):
    """LOAD: "no flag. Only longs"."""
    return with_register(state, d, read_long(ram, state, place(state, base, offset)))


def apply(ram, state, kind, told):
    """RAM and state after an effect that `model.effect` has told. Only a STORE changes RAM."""
    if kind == "immediate":
        return ram, immediate(ram, state, *told)
    if kind == "load":
        return ram, load(ram, state, *told)
    if kind == "store":
        base, offset, value = told
        return write_long(ram, state, place(state, base, offset), value)
    return ram, WITHOUT_RAM[kind](state, *told)


# The step and the run.

def operands(state, s, d):
    """All that `model.effect` may read."""
    return {
        "s": register(state, s), "d": register(state, d), "pc": state.pc, "z": state.z, "n": state.n, "c": state.c,
        "acc": state.acc, "mode": state.mode,
    }


def moved(before, after, length):
    """The state with its counter moved: "the next instruction runs, then the counter becomes the target", and without a
    pending target it goes on to the instruction behind. A stop is no exception: "the completed step still moves the
    counter"."""
    if before.target is not None:
        return after._replace(pc=before.target, target=None)
    return after._replace(pc=before.pc + length)


def execute(ram, state):
    """RAM and state after one instruction, or a fault: "12 for the first word, 11, 15, 12 for the rest, 13, 14"."""
    word = word_at(ram, state.pc)
    found = decode(word)
    if found is None:
        raise Fault(11)
    name, s, d = found
    if state.target is not None and name in NOT_AFTER_A_JUMP:
        raise Fault(15)
    kind, *told = effect(word, operands(state, s, d))
    ram, after = apply(ram, state, kind, told)
    return ram, moved(state, after, 6 if name == "MOVEI" else 2)


def ended(state):
    """The answer without a fault: 0 "budget spent, still running"; 1 "stopped by the program, or stopped already"."""
    return 0 if state.running else 1


def step(ram, state):
    """Answer, RAM and state after a step: "31, stopped", then the order of `execute`. "A step answers as a run of budget 1",
    and after a fault RAM and state are those "before the faulty step"."""
    if len(ram) != RAM_LENGTH:
        return 31, ram, state
    if not state.running:
        return 1, ram, state
    try:
        ram, state = execute(ram, state)
    except Fault as fault:
        return fault.number, ram, state
    return ended(state), ram, state


def run(ram, state, budget):
    """Answer, steps, RAM and state after a run. "A refused run has 0 steps. A fault is not counted as a step. A stop on the
    last budgeted step gives 1; a fault beyond the budget is not met. Budget 0 gives 0 or, when stopped, 1"."""
    ram = bytes(ram)
    if len(ram) != RAM_LENGTH:
        return 31, 0, ram, state
    if budget > BUDGET_LIMIT:
        return 32, 0, ram, state
    steps = 0
    while state.running and steps < budget:
        answer, ram, state = step(ram, state)
        if answer > 1:
            return answer, steps, ram, state
        steps += 1
    return ended(state), steps, ram, state


# The run program.

def card(image):
    """What the run program prints: "six key=value lines in this order: answer and steps in decimal; counter, F02100h value,
    remainder and accumulator as eight hex digits. Bad length prints answer 31 and the start state"."""
    answer, steps, _, state = run(image, START, BUDGET_LIMIT)
    return card_text(answer, steps, state)


def card_text(answer, steps, state):
    """The six lines of a card."""
    return (
        f"answer={answer}\n"
        f"steps={steps}\n"
        f"pc={state.pc:08X}\n"
        f"flags={flags_value(state):08X}\n"
        f"remain={state.remainder:08X}\n"
        f"acc={state.acc:08X}\n"
    )


if __name__ == "__main__":
    sys.stdout.write(card(sys.stdin.buffer.read()))
