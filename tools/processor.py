"""The proved processor, called for one step or for more: gpu_run of include/gpu.h.

A part of RAM or of the state is reached by the name that its column has in a table: R5, A5, Z, counter, ram F03800.
"""

import ctypes

RAM_BASE = 0xF03000
RAM_LENGTH = 4096
BLOCK_LENGTH = 276

# Where the block has its longs behind the two banks, and the bits of its last one.
LONGS = {"counter": 256, "remainder": 264, "accumulator": 268}
TARGET, STATUS = 260, 272
PENDING = 1 << 17
BITS = {"Z": 1 << 0, "C": 1 << 1, "N": 1 << 2, "bank": 1 << 14, "running": 1 << 16, "divide mode": 1 << 18}

PLACES = ([f"{bank}{i}" for bank in "RA" for i in range(32)] + list(BITS) + list(LONGS) + ["pending"]
          + [f"ram {address:X}" for address in range(RAM_BASE, RAM_BASE + RAM_LENGTH, 4)])


class Machine:
    """RAM and the state block. R0 to R31 are the bank that is active before the step, also where the step changes banks."""

    def __init__(self, bank=0):
        self.ram = bytearray(RAM_LENGTH)
        self.block = bytearray(BLOCK_LENGTH)
        self.bank = bank
        self.write("bank", bank)
        self.write("running", 1)
        self.write("counter", RAM_BASE)

    @classmethod
    def of(cls, ram, block=None):
        """The machine of these bytes; without a block one that begins, as the run program does."""
        machine = cls()
        machine.ram[:] = ram
        if block is not None:
            machine.block[:] = block
            machine.bank = machine.read("bank")
        return machine

    def copy(self):
        other = Machine(self.bank)
        other.ram[:] = self.ram
        other.block[:] = self.block
        return other

    def same(self, other):
        return self.ram == other.ram and self.block == other.block

    def place(self, name):
        """The buffer and the offset of a long."""
        if name in LONGS:
            return self.block, LONGS[name]
        if name.startswith("ram "):
            return self.ram, int(name[4:], 16) - RAM_BASE
        bank = self.bank if name[0] == "R" else 1 - self.bank
        return self.block, 128 * bank + 4 * int(name[1:])

    def status(self):
        return int.from_bytes(self.block[STATUS:], "big")

    def set_status(self, bit, value):
        status = self.status() & ~bit | (bit if value else 0)
        self.block[STATUS:] = status.to_bytes(4, "big")

    def read(self, name):
        """A number; for the pending target, None where no jump is pending."""
        if name in BITS:
            return int(self.status() & BITS[name] != 0)
        if name == "pending":
            return int.from_bytes(self.block[TARGET:TARGET + 4], "big") if self.status() & PENDING else None
        buffer, offset = self.place(name)
        return int.from_bytes(buffer[offset:offset + 4], "big")

    def write(self, name, value):
        if name in BITS:
            return self.set_status(BITS[name], value)
        if name == "pending":
            self.set_status(PENDING, value is not None)
            buffer, offset = self.block, TARGET
        else:
            buffer, offset = self.place(name)
        buffer[offset:offset + 4] = (value or 0).to_bytes(4, "big")

    def put_words(self, address, words):
        """Writes the words of an instruction, as far as they lie in RAM. At an odd address none can be fetched."""
        for i, word in enumerate(words):
            offset = address + 2 * i - RAM_BASE
            if offset % 2 == 0 and 0 <= offset < RAM_LENGTH:
                self.ram[offset:offset + 2] = word.to_bytes(2, "big")


def load(path):
    """The run of the library in a file: a function that changes a machine, by one step or by a budget of them, and gives
    answer and steps."""
    run = ctypes.CDLL(path).gpu_run
    run.restype = ctypes.c_uint64
    run.argtypes = [ctypes.c_void_p, ctypes.c_size_t, ctypes.c_void_p, ctypes.c_size_t, ctypes.c_uint64]
    ram_type, block_type = ctypes.c_ubyte * RAM_LENGTH, ctypes.c_ubyte * BLOCK_LENGTH

    def step(machine, budget=1):
        ram, block = ram_type.from_buffer(machine.ram), block_type.from_buffer(machine.block)
        reply = run(ram, RAM_LENGTH, block, BLOCK_LENGTH, budget)
        return reply % 256, reply // 256

    return step
