"""gpu show: what stands in an image file; what a run leaves in the memory; what the first steps do."""

import zlib

import home
from arguments import add_file, add_length, comments_told, take_image, whole
from files import told
from images import SAVED, WORDS
from listing import comments_of, instruction_at, items_of, target_of, warnings_of
from outcome import FAULTS, status_of
from processor import BITS, PLACES, RAM_BASE, RAM_LENGTH, Machine

SUMMARY = "show a program word by word, or with --memory or --trace what running it does"
MORE = """\
Each line has an address, the words there, the instruction and the comment that the file has for it. A line that begins with !
warns that the comment names another instruction than the word does. To find an address that a card or an answer tells, look
for it in the first column. Of a saved machine the registers come first, and > marks the next instruction.
"""

# As many steps as the run program does.
BUDGET = 1000000
BYTES_A_LINE = 16
# So many words of zeros in a row are shown one by one.
ZEROS_SHOWN = 4


def arguments(parser):
    add_file(parser, "a program file, an image or a saved machine; - is standard input (default: paper 01's card)")
    add_length(parser)
    what = parser.add_mutually_exclusive_group()
    what.add_argument("--memory", action="store_true", help="run it, and show the memory afterwards; of a saved machine, as saved")
    what.add_argument("--trace", metavar="N", type=whole(1, 100000, "a number of steps"),
                      help="run the first N steps, and show what each has changed")


def run(given):
    image = take_image(given, "show", saved=True)
    machine = Machine.of(image.ram, image.block)
    if given.trace:
        return trace(image, machine, given.trace)
    if given.memory:
        return memory(image, machine)
    if image.kind == SAVED:
        show_state(machine)
    return show_words(image, given.length if given.length is not None else image.length, machine)


# Words.

def show_words(image, length, machine):
    """Prints the listing; warnings are lines of their own below the instruction that they speak of."""
    code, data = items_of(image, length)
    print(checksum(image))
    warnings = {address: (number, what) for address, number, what in warnings_of(image, length)}
    for part, is_code in ((code, True), (data, False)):
        if part and not is_code:
            print("behind the code:")
        zeros = 0
        for item in part:
            counter = image.kind == SAVED and item.address == machine.read("counter")
            zeros = 0 if any(item.words) or item.address - RAM_BASE in image.lines or counter else zeros + 1
            if zeros < ZEROS_SHOWN:
                print_item(image, item, is_code, counter)
            elif zeros == ZEROS_SHOWN:
                print("        ...")
            if item.address in warnings:
                print("! {:X}, line {}: {}".format(item.address, *warnings[item.address]))
    if image.kind != WORDS and length is None:
        told("gpu show: instructions and data can not be told apart without the length: add --length and the number of bytes")
    if warnings:
        told(f"gpu show: {comments_told(len(warnings))}: either word or comment is wrong, and only its author can say which")
    return 0


def checksum(image):
    sum_of = f"checksum (CRC-32) {zlib.crc32(image.ram):08X}"
    return sum_of + (" of the memory as it was saved; a log has that of the image before the run" if image.kind == SAVED else "")


def print_item(image, item, is_code, is_next):
    target = target_of(item) if is_code else None
    label = item.label(is_code) + (f" = {target:X}" if target is not None else "")
    words = " ".join(f"{word:04X}" for word in item.words)
    comment = " / ".join(comments_of(image, item)[0])
    print(f"{'>' if is_next else ' '}{item.address:X}  {words:<14}  {label:<26}{comment}".rstrip())


# State.

def show_state(machine):
    """The state of a saved machine."""
    pending = machine.read("pending")
    print(f"counter {machine.read('counter'):08X}, " + ", ".join(f"{name} {machine.read(name)}" for name in BITS)
          + (f", a jump to {pending:08X} is pending" if pending is not None else ""))
    print(f"remainder {machine.read('remainder'):08X}, accumulator {machine.read('accumulator'):08X}")
    for bank in (0, 1):
        print(f"bank {bank}, R0 to R31")
        longs = [machine.block[128 * bank + 4 * i:128 * bank + 4 * i + 4].hex().upper() for i in range(32)]
        for i in range(0, 32, 8):
            print("  " + " ".join(longs[i:i + 8]))


# Memory.

def memory(image, machine):
    """Prints the memory after a run, or of a saved machine as it was saved. Lines of zeros are left out."""
    answer = 0
    if image.kind != SAVED:
        answer, steps = home.processor()(machine, BUDGET)
        told(f"gpu show: after {steps:,} steps, answer {answer}, counter {machine.read('counter'):08X}")
    left_out = False
    for offset in range(0, RAM_LENGTH, BYTES_A_LINE):
        part = machine.ram[offset:offset + BYTES_A_LINE]
        if any(part):
            if left_out:
                print("        ...")
            longs = " ".join(part[i:i + 4].hex().upper() for i in range(0, BYTES_A_LINE, 4))
            letters = "".join(chr(byte) if 32 <= byte < 127 else "." for byte in part)
            print(f" {RAM_BASE + offset:X}  {longs}  {letters}")
        left_out = not any(part)
    return status_of(answer)


# Steps.

def changed(before, after):
    """What a step has changed, as name and new content. R and A are the banks as they were before the step."""
    told_twice = {"counter"}
    for place in PLACES:
        if place in told_twice or place.startswith("ram ") and before.ram == after.ram:
            continue
        old, new = before.read(place), after.read(place)
        if old != new:
            yield f"{place} {'none' if new is None else new if place in BITS else f'{new:08X}'}"


def trace(image, machine, count):
    """Prints the first steps: address, instruction, what has changed."""
    step = home.processor()
    answer = 0
    for number in range(1, count + 1):
        counter = machine.read("counter")
        machine.bank = machine.read("bank")
        before = machine.copy()
        text = instruction_at(bytes(machine.ram), counter) or "no instruction"
        answer, steps = step(machine)
        if steps == 0:
            break
        print(f"{number:>6}  {counter:X}  {text:<26}{', '.join(changed(before, machine))}".rstrip())
        if answer != 0:
            break
    told(f"gpu show: answer {answer}, counter {machine.read('counter'):08X}" + ended(answer, count))
    return status_of(answer)


def ended(answer, count):
    if answer == 0:
        return f"; these were the first {count:,} steps, and it would go on"
    if answer == 1:
        return "; the program has stopped"
    return "; the instruction there could not be run" if answer in FAULTS else "; the saved state was refused"
