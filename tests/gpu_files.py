"""gpu and files: lengths that are stated or given, files that can not be read, the kinds of image files.

Every wrong file must get its sentence from every verb that reads one, print nothing on standard output, and end with 2.
"""

import os
import random
import sys

from gpu_typed import EXAMPLES, RAM

READERS = [["run"], ["check"], ["show"], ["explain"], ["kiosk"], ["check", "--length", "8"], ["show", "--trace", "3"],
           ["show", "--memory"]]

# The answers of the check for the examples that it refuses, as their files tell them.
ANSWERS = {"fault": (26, 0xF0300C)}
ENDLESS = "D7E0 E400\n"


def lengths(test):
    """A length is the file's own or is given; where there is neither, and where words and length differ, nothing is done."""
    for path in sorted(EXAMPLES.glob("*.words")):
        answer, address = ANSWERS.get(path.stem, (0, 0))
        test.gpu("check", path).expect(1 if answer else 0, path.name, out=f"answer={answer}\naddress={address:08X}\n")
    words = (EXAMPLES / "ramp.words").read_text()
    bare = test.file("bare.words", words.replace("; length: 68 bytes\n", ""))
    test.gpu("check", bare).expect(2, "does not state", f"check {bare} --length 68'", out="")
    image = test.file("bare.bin", test.image(bare))
    test.gpu("check", image).expect(2, "does not state", "--length' and the number", out="")
    test.gpu("explain", bare, "--check").expect(2, "does not state", out="")
    test.gpu("check", bare, "--length", 68).expect(0, out="answer=0\naddress=00000000\n")
    test.gpu("check", EXAMPLES / "card.words", "--length", 12).expect(1, "states 16 bytes", out="answer=25\naddress=00F0300A\n")
    test.gpu("check", EXAMPLES / "card.words", "--length", 15).expect(2, out="answer=33\naddress=00000000\n")
    number = words.split("\n").index("; length: 68 bytes") + 1
    for text, line, part in (
        (words.replace("length: 68", "length: 16"), number, "states 16 bytes of code, and its words have 68"),
        (words.replace("8C28 ", "E400 8C28 "), number, "have 70"),
        (words.replace("length: 68", "length: 6B"), number, "is not a length"),
        (words + "; length: 68 bytes\n", words.count("\n") + 1, "above the first word"),
        (words.replace("; length: 68 bytes\n", "; length: 68 bytes\n; Length = 68\n"), number + 1, "states a length already"),
    ):
        path = test.file("stale.words", text)
        for verb in ("run", "check"):
            test.gpu(verb, path).expect(2, f"stale.words, line {line}:", part, out="")
    # A remark on another length is none, and @F03000 above the first word moves nothing.
    for text in (words + "; length = 16 longs of ramp\n", words.replace("9802 FFA0", "@F03000\n9802 FFA0")):
        test.gpu("check", test.file("good.words", text)).expect(0, "68 bytes of code")
    # Data that a line @ADDRESS sets apart is no code.
    test.gpu("check", test.file("data.words", "; length: 4\n" + ENDLESS + "@F03800\n1234 5678\n")).expect(0)


def unreadable(test):
    """What can not be read is told with file and line by every verb."""
    good = "8C00 8C00\n"
    for name, content, part in (
        ("no-such.words", None, "there is no such file"),
        ("empty.words", b"", "the file is empty"),
        ("comments.words", b"; nothing\n\n", "there is no word in it"),
        ("mistyped.words", good + "8C0O\n",
         "mistyped.words, line 2: '8C0O' is not a word of four hex digits, 0 to 9 and A to F: is it 8C00?"),
        ("short.words", good + "8C0\n", "line 2: '8C0' is not a word"),
        ("place.words", "@F03001\n" + good, "line 1: F03001 is odd"),
        ("outside.words", "@F04000\n" + good, "line 1: F04000 is outside the memory"),
        ("notplace.words", "@x\n" + good, "line 1: '@x' is not an address"),
        ("twice.words", good + "@F03002\n1234\n", "line 3: '1234' would stand at F03002, which line 1 has filled"),
        ("long.words", "@F03FFE\n1234\n1234\n", "line 3: '1234' does not fit"),
        ("short.bin", b"\0" * 4095, "has 4,095 bytes, and an image has 4,096"),
        ("long.bin", b"\0" * 4097, "has 4,097 bytes, and an image has 4,096"),
        ("state.saved", b"\0" * 4371, "has 4,371 bytes, and a saved machine has 4,372"),
        ("noise", bytes(range(256)) * 9, "has 2,304 bytes and is no text"),
        ("both", b"8C00 " * 819 + b"\n", "can be read both as text and as an image"),
        ("huge.words", b"8C00\n" * 1000000, "more than 4,194,304 bytes"),
    ):
        path = test.folder / name
        if content is not None:
            test.file(name, content)
        # Every verb goes through the one reader, which is seen of three files; it is tried on all of them through one verb.
        for words in READERS if name in ("no-such.words", "mistyped.words", "long.bin") else READERS[:1]:
            test.gpu(words[0], path, *words[1:]).expect(2, name, part, out="")
    for words in READERS:
        test.gpu(words[0], test.folder, *words[1:]).expect(2, "this is a folder", out="")
        test.gpu(words[0], "", *words[1:]).expect(2, out="")
    test.gpu("run", EXAMPLES / "ramp.wrds").expect(2, "is it " + str(EXAMPLES / "ramp.words"))
    test.gpu("run", test.file("card.words", "answer=1\nsteps=3\n")).expect(2, "is a card or an answer of the check")
    test.gpu("run", test.file("log.txt", "2026-11-17T10:00:00.000+01:00\timage=x\n")).expect(2, "is a firing log")
    told = test.gpu("run", test.file("wild.words", "\033[2J" + "x" * 100000)).expect(2)
    assert len(told.err) < 400 and "\033" not in told.err, told.err[:400]
    if os.geteuid() != 0:
        locked = test.file("locked.words", good)
        locked.chmod(0)
        test.gpu("run", locked).expect(2, "can not be read", out="")


def kinds(test):
    """Each form of the same program is read as the same, and is told for what it was taken."""
    text = (EXAMPLES / "loop.words").read_text()
    wanted = (EXAMPLES / "loop.card").read_text()
    image = test.image(EXAMPLES / "loop.words")
    for name, content, kind in (
        ("a.words", text, "a program file of 26 words, 52 bytes of code"),
        ("A.WORDS", text.upper(), "a program file of 26 words, 52 bytes of code"),
        ("a.txt", text, "a program file"),
        ("a", text, "a program file"),
        ("a.bak", "\ufeff" + text, "a program file"),
        ("crlf.words", text.replace("\n", "\r\n"), "52 bytes of code"),
        ("utf16.txt", text.encode("utf-16"), "52 bytes of code"),
        ("latin.words", text.replace("; A ", "; \xe9 ").encode("latin-1"), "52 bytes of code"),
        ("lower.words", text.lower(), "52 bytes of code"),
        ("noend.words", text.rstrip("\n"), "52 bytes of code"),
        ("a.bin", image, "an image of 4,096 bytes"),
        ("b", image, "an image of 4,096 bytes"),
    ):
        test.gpu("run", test.file(name, content)).expect(0, f"{name}: ", kind, out=wanted)
    test.gpu("run", "-", given=image).expect(0, "standard input: an image", out=wanted)
    test.gpu("run", "-", given=text.encode()).expect(0, "standard input: a program file", out=wanted)
    test.gpu("run").expect(0, "since no file was named", out=(EXAMPLES / "card.card").read_text())


def images(test):
    """gpu image writes what the model's reader would: the words high byte first, the rest zero."""
    words = "; length: 4\n" + ENDLESS + "@F03FFE\nBEEF\n"
    out = test.folder / "made.bin"
    test.gpu("image", test.file("made.words", words), "-o", out).expect(0, "4 bytes of code", out="")
    assert out.read_bytes() == bytes.fromhex("D7E0E400") + bytes(RAM - 6) + bytes.fromhex("BEEF")
    test.gpu("image", "made.words", "-o", test.folder / "no" / "where").expect(2, "can not be written", out="")


def noise(test):
    """Whatever a file holds, each verb says a sentence or does its work."""
    dice = random.Random(7)
    for k in range(12):
        size = dice.choice((1, 2, 10, 300, 4096, 4372))
        letters = bytes(range(256)) if k % 2 else b"0123 ABF;@\n\r\t=nq"
        data = bytes(dice.choice(letters) for _ in range(size))
        path = test.file(f"noise{k}" + dice.choice(("", ".words", ".bin", ".saved", ".txt")), data)
        for words in (["run"], ["show"], ["explain"], ["check", "--length", "16"]):
            done = test.gpu(words[0], path, *words[1:])
            done.expect(done.status if done.status in (0, 1, 2) else 0)
            if not done.out and not done.err:
                sys.exit(f"gpu: {done.words} says nothing")


TESTS = [lengths, unreadable, kinds, images, noise]
