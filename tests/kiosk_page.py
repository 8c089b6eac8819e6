"""Compiles and runs the programs of docs/KIOSK.md against the archive, and holds what they do to the model.

    python3 tests/kiosk_page.py [ARCHIVE]      by default target/staticlib/libkiosk.a

The C pieces of the page are one program; its C++ piece is another, which is left out, with a word, where there is no g++.
"""

import re
import shlex
import shutil
import subprocess
import sys
import tempfile
from pathlib import Path

ROOT = Path(__file__).resolve().parent.parent
PAGE = ROOT / "docs" / "KIOSK.md"
ARCHIVE = "target/staticlib/libkiosk.a"
sys.path.insert(0, str(ROOT / "tools"))

from images import read_image
from machine import START, run

# As the page's program has them.
STEPS_PER_FRAME = 50
PICTURE, NUMBERS = 0x800, 16
SHADES = ".:-=+*%#"

RAMP_LENGTH = 68
WARNINGS = ["-Wall", "-Wextra", "-Werror"]


def fail(message):
    sys.exit(f"kiosk page: {message}")


def pieces(text, language):
    """What stands between ```language and ```."""
    fenced = re.findall(r"^```(\w*)\n(.*?)^```$", text, re.MULTILINE | re.DOTALL)
    return [body for named, body in fenced if named == language]


def block_of(state):
    """The block: "69 longs, high byte first. Bank 0, bank 1, program counter, pending target, remainder, accumulator,
    status. Status bits: 0 Z, 1 C, 2 N, 14 bank, 16 running, 17 jump pending, 18 divide mode"."""
    pending = state.target is not None
    status = (state.z | state.c << 1 | state.n << 2 | state.bank << 14 | int(state.running) << 16 | int(pending) << 17
              | state.mode << 18)
    longs = [*state.banks[0], *state.banks[1], state.pc, state.target if pending else 0, state.remainder, state.acc, status]
    return b"".join(n.to_bytes(4, "big") for n in longs)


def picture(ram):
    """The sixteen numbers of a frame as the page draws them."""
    longs = [int.from_bytes(ram[at:at + 4], "big") for at in range(PICTURE, PICTURE + 4 * NUMBERS, 4)]
    return "".join(SHADES[n // 32 % 8] for n in longs)


def frames(ram, state):
    """What the program prints of a machine, line by line, and the machine after each line but the last."""
    lines, machines, answer = [], [], 0
    while answer == 0:
        answer, _, ram, state = run(ram, state, STEPS_PER_FRAME)
        if answer <= 1:
            lines.append(picture(ram))
        machines.append((ram, state))
    if answer == 1:
        lines.append(f"stopped at {state.pc:06X}")
    else:
        lines.append(f"fault: answer {answer} at {state.pc:06X}, kept in fault.saved")
    return lines, machines


def compile_with(words):
    done = subprocess.run(words, cwd=ROOT, stderr=subprocess.PIPE, text=True)
    if done.returncode != 0:
        fail(f"{' '.join(map(str, words))}\n{done.stderr}")


def expect(folder, words, status, lines):
    """Runs a program, which must end with this status and print these lines."""
    done = subprocess.run([str(word) for word in words], cwd=folder, stdout=subprocess.PIPE, text=True, timeout=60)
    wanted = "".join(line + "\n" for line in lines)
    if (done.returncode, done.stdout) != (status, wanted):
        fail(f"{words[0].name} {' '.join(str(word) for word in words[1:])} ended with {done.returncode} and printed\n"
             f"{done.stdout}where {status} was expected, and\n{wanted}")


def check_program(text, archive, folder):
    """The page's program on a ramp, on saved machines, and on what is to be refused."""
    program, source = folder / "ramp", folder / "ramp.c"
    source.write_text("".join(pieces(text, "c")))
    compile_with(["gcc", "-std=c11", "-O2", *WARNINGS, "-Iinclude", source, archive, "-o", program])

    ramp = read_image(ROOT / "examples" / "ramp.words").ram
    image = folder / "ramp.bin"
    image.write_bytes(ramp)
    lines, machines = frames(ramp, START)
    if len(lines) < 4:
        fail("the ramp has too few frames to show anything")
    shown = [part.splitlines() for part in pieces(text, "")]
    if shown != [lines]:
        fail("the output on the page is not the model's, which is\n" + "\n".join(lines))
    expect(folder, [program, image, RAMP_LENGTH], 0, lines)

    # A saved machine goes on where it was.
    saved = folder / "machine.saved"
    for done, (ram, state) in enumerate(machines[:-1], 1):
        saved.write_bytes(ram + block_of(state))
        expect(folder, [program, saved], 0, lines[done:])

    # A fault is kept: RAM and block as before the faulty step.
    faulty = read_image(ROOT / "examples" / "fault.words").ram
    saved.write_bytes(faulty + block_of(START))
    lines, machines = frames(faulty, START)
    expect(folder, [program, saved], 1, lines)
    ram, state = machines[-1]
    if (folder / "fault.saved").read_bytes() != ram + block_of(state):
        fail("what was kept of a fault is not RAM and block before the faulty step")

    # Refusals. What fault.words says of its check stands there: rule 6 at its second STORE.
    image.write_bytes(faulty)
    expect(folder, [program, image, 28], 2, ["refused: answer 26 at F0300C"])
    expect(folder, [program, image, 27], 2, ["refused: answer 33 at 000000"])
    image.write_bytes(ramp + b"\0")
    expect(folder, [program, image, RAMP_LENGTH], 2, [f"{image} is no image of 4096 bytes"])
    saved.write_bytes(ramp + block_of(START)[:-4] + b"\x80\x01\0\0")
    expect(folder, [program, saved], 2, ["refused: answer 34"])
    saved.write_bytes(ramp)
    expect(folder, [program, saved], 2, ["there is nothing to run"])


def check_build_line(text, archive, folder):
    """The page's line for gcc builds the example, there with the warnings as errors."""
    line = re.search(rf"^    (gcc .* {re.escape(ARCHIVE)} -o )\S+$", text, re.MULTILINE)
    if line is None:
        fail("there is no line for gcc")
    words = [archive if word == ARCHIVE else word for word in shlex.split(line[1])]
    compile_with([*words, folder / "kiosk", "-Werror"])


def check_needs(archive):
    """The archive has no variables, and needs no more of the C library than the page says."""
    told = subprocess.run(["nm", archive], cwd=ROOT, stdout=subprocess.PIPE, text=True, check=True).stdout
    symbols = re.findall(r"^[0-9a-f ]{16} (\w) (\S+)$", told, re.MULTILINE)
    functions = {name for kind, name in symbols if kind == "T"}
    if not {"gpu_run", "gpu_check"} <= functions:
        fail("the archive lacks a function of the header")
    variables = [name for kind, name in symbols if kind in "bBcCdDsS"]
    needed = {name for kind, name in symbols if kind == "U"}
    if variables or not needed <= {"memset"}:
        fail(f"the archive has the variables {variables} and needs {sorted(needed)}")


def check_cpp(text, archive, folder):
    if shutil.which("g++") is None:
        print("kiosk page: g++ is not installed; the C++ piece is not compiled")
        return
    for n, piece in enumerate(pieces(text, "cpp")):
        source, program = folder / f"{n}.cpp", folder / f"{n}"
        source.write_text(piece)
        compile_with(["g++", "-std=c++11", *WARNINGS, "-Iinclude", source, archive, "-o", program])
        expect(folder, [program], 0, [])


def main():
    archive = sys.argv[1] if len(sys.argv) > 1 else ARCHIVE
    text = PAGE.read_text(encoding="utf-8")
    for language in "c", "cpp":
        if not pieces(text, language):
            fail(f"there is no piece of {language}")
    with tempfile.TemporaryDirectory() as folder:
        check_program(text, archive, Path(folder))
        check_build_line(text, archive, Path(folder))
        check_cpp(text, archive, Path(folder))
    check_needs(archive)
    print("kiosk page: its programs compile, and do what the model says")


if __name__ == "__main__":
    main()
