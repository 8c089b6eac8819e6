"""gpu show: addresses, words and comments; memory and steps as the model has them."""

import re

from gpu_typed import EXAMPLES, RAM
from machine import START, run, step


def listing(test):
    """Each instruction with its address, its words, and the file's comment; the target of a JR."""
    done = test.gpu("show", EXAMPLES / "fault.words").expect(0)
    rows = re.findall(r"^ (F03\w{3})  ((?:[0-9A-F]{4} )*[0-9A-F]{4}) +(\S.*?)  +(\S.*)$", done.out, re.MULTILINE)
    assert [int(at, 16) for at, _, _, _ in rows] == [0xF03000 + n for n in (0, 6, 8, 10, 12, 14, 20, 22, 24, 26)], rows
    assert b"".join(bytes.fromhex(words) for _, words, _, _ in rows) == test.image(EXAMPLES / "fault.words")[:28]
    assert rows[4][2] == "STORE R3,(R2)" and rows[4][3].startswith("STORE R3,(R2)        the fault"), rows[4]
    assert rows[8][2] == "JR T,#-1 = F03018", rows[8]
    three = test.file("three.words", "9801 ; MOVEI #1,R1\n0001 ; low\n0000 ; high\n")
    test.gpu("show", three).expect(0, "MOVEI #1,R1 / low / high")
    test.gpu("show", test.file("two.words", "8C00 FC00\n")).expect(0, "no instruction")
    zeros = test.file("zeros.bin", test.image(EXAMPLES / "division.words"))
    told = test.gpu("show", zeros).expect(0, "        ...\n", "--length").out
    assert told.count("\n") < 70 and "F03802  0064" in told, told


def comments(test):
    """A comment that names another instruction, or other operands, is told by every verb, and where by show."""
    text = (EXAMPLES / "fault.words").read_text()
    wrong = test.file("wrong.words", text.replace("; MOVEQ #5,R3", "; MOVEQ #6,R3").replace("; ADDQ #2,R2", "; SUBQ #2,R2"))
    told = test.gpu("show", wrong).expect(0, "2 comments do not fit their words").out
    assert "! F03006, line 8: the comment says MOVEQ #6,R3, and the word is MOVEQ #5,R3" in told, told
    assert "! F0300A, line 10: the comment says SUBQ #2,R2, and the word is ADDQ #2,R2" in told, told
    card = (EXAMPLES / "fault.card").read_text()
    test.gpu("run", wrong).expect(1, "2 comments do not fit their words: ", f"show {wrong}'", out=card)
    for path in sorted(EXAMPLES.glob("*.words")):
        assert "\n!" not in test.gpu("show", path).expect(0).out, path
    for word, comment, fits in (
        ("8C00", "moveq #0,r0", True), ("8C00", "moveq #1,r0", False), ("8C00", "start: MOVEQ #2,R0", False),
        ("8C00", "NOT an instruction but a sentence", True), ("8C00", "MOVEQ", True), ("8C00", "NOP", False),
        ("D7E0", "JR T,start", True), ("D7E0", "JUMP T,start", False), ("FC00", "NOP", False),
    ):
        done = test.gpu("show", test.file("one.words", f"{word} ; {comment}\n")).expect(0)
        assert ("\n! " in done.out) != fits, (comment, done.out)


def memory_and_steps(test):
    for name in ("division", "ramp", "fault"):
        image = test.image(EXAMPLES / f"{name}.words")
        hold_memory(test, name, image)
        hold_trace(test, name, image, 150)
    test.gpu("show", EXAMPLES / "fault.words", "--memory").expect(1)


def hold_memory(test, name, image):
    _, _, ram, _ = run(image, START, 1000000)
    shown = bytearray(RAM)
    told = test.gpu("show", EXAMPLES / f"{name}.words", "--memory").out
    for at, longs in re.findall(r"^ (F03\w{3})  ((?:[0-9A-F]{8} ){4})", told, re.MULTILINE):
        at = int(at, 16) - 0xF03000
        shown[at:at + 16] = bytes.fromhex(longs)
    assert bytes(shown) == ram, f"--memory of {name} is not the model's"


def hold_trace(test, name, image, count):
    """Every register, flag and long that a step of the model changes is told, and nothing else."""
    lines = test.gpu("show", EXAMPLES / f"{name}.words", "--trace", count).out.splitlines()
    ram, state = image, START
    for number, line in enumerate(lines, 1):
        found = re.fullmatch(r" *(\d+)  (F03\w{3})  (.{26})?(.*)", line.ljust(42))
        assert found and (int(found[1]), int(found[2], 16)) == (number, state.pc), line
        answer, ram_after, after = step(ram, state)
        told = dict(part.rsplit(" ", 1) for part in found[4].strip().split(", ") if part)
        wanted = model_changes(ram, state, ram_after, after)
        assert told == wanted, (name, line, wanted)
        ram, state = ram_after, after
    assert lines and (len(lines) == count or step(ram, state)[0] != 0), f"the trace of {name} ends early"


def model_changes(ram, before, ram_after, after):
    """What a step of the model has changed, by the names that the trace has."""
    told = {}
    for name, bank in (("R", before.bank), ("A", 1 - before.bank)):
        for i in range(32):
            if before.banks[bank][i] != after.banks[bank][i]:
                told[f"{name}{i}"] = f"{after.banks[bank][i]:08X}"
    for name, old, new in (("Z", before.z, after.z), ("C", before.c, after.c), ("N", before.n, after.n),
                           ("bank", before.bank, after.bank), ("running", int(before.running), int(after.running)),
                           ("divide mode", before.mode, after.mode)):
        if old != new:
            told[name] = str(new)
    for name, old, new in (("remainder", before.remainder, after.remainder), ("accumulator", before.acc, after.acc),
                           ("pending", before.target, after.target)):
        if old != new:
            told[name] = "none" if new is None else f"{new:08X}"
    for at in range(0, RAM, 4):
        if ram[at:at + 4] != ram_after[at:at + 4]:
            told[f"ram {0xF03000 + at:X}"] = ram_after[at:at + 4].hex().upper()
    return told


TESTS = [listing, comments, memory_and_steps]
