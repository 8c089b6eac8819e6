"""Holds docs/REFUSALS.md and the program that explains a number to each other, its examples to the loading check, and the ways to 12
to the run program.

    python3 tests/refusals.py --explain PROGRAM --check PROGRAM --run PROGRAM

The sentences and the examples are the page's; which numbers there are, and which text has which number, is paper 01's.
"""

import argparse
import random
import re
import subprocess
import sys
from pathlib import Path

ROOT = Path(__file__).resolve().parent.parent
sys.path.insert(0, str(ROOT / "tools"))

from images import image_of

# 01, "Numbers that come back": a run ends so, the check answers so, and a call is refused so.
RUN = [0, 1, 11, 12, 13, 14, 15]
CHECK = [0, 21, 22, 23, 24, 25, 26]
CALL = [31, 32, 33, 34, 35]
RULES = CHECK[1:]

LABELS = ["What happened", "Where to look", "What to do"]


class Entry:
    """What the page says of a number: its lines as they are to be read aloud, and its example."""

    def __init__(self, text):
        title, rest = re.fullmatch(r"\*\*(.*?)\*\*\n(.*)", text, re.S).groups()
        bullets = re.split(r"^- ", rest, flags=re.M)[1:]
        spoken, self.example = bullets[:3], bullets[3:]
        self.lines = [title] + [" ".join(line.split()) for line in spoken]
        number = re.match(r"(\d+): ", title)
        self.number = int(number.group(1)) if number else None
        for label, line in zip(LABELS, self.lines[1:], strict=True):
            if not line.startswith(label + ": ") or not line.endswith("."):
                raise ValueError(f"'{title}' has the line '{line[:40]}' where '{label}' is due")
        if re.search(r"[.!?] ", self.lines[1]):
            raise ValueError(f"'{title}' tells what happened in more than one sentence")

    def said(self, address=0, steps=0, line=0):
        text = "\n".join(self.lines) + "\n"
        return text.replace("ADDRESS", f"{address:08X}").replace("STEPS", str(steps)).replace("LINE", str(line))

    def codes(self):
        """The address told, and the texts of the refused program and of its mend."""
        (example,) = self.example
        head = re.match(rf"Example, refused with {self.number} at ([0-9A-F]+):\n", example)
        blocks = re.findall(r"(?:^ {6}.*\n)+", example, re.M)
        if len(blocks) != 2 or any(len(block.splitlines()) != 3 for block in blocks):
            raise ValueError(f"the example of {self.number} is not three lines and their mend")
        return int(head.group(1), 16), blocks


class Page:
    """The page, by its headings."""

    def __init__(self, text):
        parts = {}
        for section in text.split("\n## ")[1:]:
            heading, body = section.split("\n", 1)
            parts[heading] = [Entry(entry + "\n") for entry in re.split(r"\n\n(?=\*\*)", "\n" + body.rstrip())[1:]]
        ended, broken, check, call, other = parts.values()
        self.run = {entry.number: entry for entry in ended + broken}
        self.check = {entry.number: entry for entry in check}
        self.call = {entry.number: entry for entry in call}
        self.unknown, self.damaged, self.no_card = other
        for numbers, entries in ((RUN, self.run), (CHECK, self.check), (CALL, self.call)):
            if list(entries) != numbers:
                raise ValueError(f"the page has {list(entries)} where 01 has {numbers}")

    def of_card(self, answer, steps, pc):
        return (self.run | self.call).get(answer, self.unknown).said(pc, steps)

    def of_check(self, answer, address):
        return (self.check | self.call).get(answer, self.unknown).said(address)

    def of_text(self, text):
        """What is to be said of any text: the first line at fault decides."""
        decimal, digits = rb"(\d{1,10})", rb"([0-9A-F]{8})"
        lines = re.findall(rb"[^\n]*\n|[^\n]+\Z", text)

        def values(forms):
            """The numbers of the lines, up to the first that has not its form."""
            found = []
            for line, (key, form, base) in zip(lines, forms):
                match = re.fullmatch(key + b"=" + form + rb"\n", line)
                if match is None or int(match.group(1), base) >= 2**32:
                    break
                found.append(int(match.group(1), base))
            return found

        card = [(b"answer", decimal, 10), (b"steps", decimal, 10)]
        card += [(key, digits, 16) for key in (b"pc", b"flags", b"remain", b"acc")]
        check = [card[0], (b"address", digits, 16)]
        if not values(card[:1]):
            return self.no_card.said()
        form = card if len(values(card)) > 1 else check
        found = values(form)
        if len(found) < len(form) or len(lines) > len(form):
            return self.damaged.said(line=len(found) + 1)
        return self.of_card(*found[:3]) if form is card else self.of_check(*found)


def card_text(answer, steps, pc, flags=0x4007, remainder=42, accumulator=0xFFFFFFFF):
    lines = f"answer={answer}\nsteps={steps}\npc={pc:08X}\nflags={flags:08X}\nremain={remainder:08X}\nacc={accumulator:08X}\n"
    return lines.encode()


def check_text(answer, address):
    return f"answer={answer}\naddress={address:08X}\n".encode()


def output_of(program, given):
    done = subprocess.run([program], input=given, stdout=subprocess.PIPE, timeout=60)
    if done.returncode != 0:
        raise ValueError(f"{program} ended with {done.returncode} on {given[:60]!r}")
    return done.stdout


class Test:
    def __init__(self, programs, page):
        self.explain, self.check, self.run, self.page = programs.explain, programs.check, programs.run, page
        self.texts = self.checks = 0

    def hold(self, text, wanted):
        got = output_of(self.explain, text).decode("ascii")
        self.texts += 1
        if got != wanted:
            raise ValueError(f"{text[:120]!r} is explained by\n{got}where the page has\n{wanted}")

    def hold_check(self, image, length, wanted):
        """The check's answer to an image and a length is so printed, and so explained."""
        got = output_of(self.check, image + length)
        self.checks += 1
        if got != check_text(*wanted):
            raise ValueError(f"the check of {image[:12].hex()}.. with the length {length!r} prints {got!r}, not {wanted}")
        self.hold(got, self.page.of_check(*wanted))

    def hold_run(self, words, wanted):
        """The card of an image is so printed, and explained by the sentences of 12."""
        got = output_of(self.run, image_of(words))
        if got != wanted:
            raise ValueError(f"the run of {words!r} prints {got!r}, not {wanted!r}")
        self.hold(got, self.page.of_text(wanted))

    def numbers(self):
        """Every number, in the text of a run and in that of the check, with its address and its steps filled in."""
        for answer in range(64):
            # The last makes the longest sentences that a number can have.
            for address, steps in ((0xF0300A, 3), (0, 0), (0xFFFFFFFF, 1000000), (0xFFFFFFFF, 4294967295)):
                self.hold(card_text(answer, steps, address), self.page.of_card(answer, steps, address))
                self.hold(check_text(answer, address), self.page.of_check(answer, address))
        for path in sorted((ROOT / "examples").glob("*.card")):
            card = dict(line.split("=") for line in path.read_text().splitlines())
            self.hold(path.read_bytes(), self.page.of_card(int(card["answer"]), int(card["steps"]), int(card["pc"], 16)))

    def examples(self):
        """The page's examples are refused as it says, and their mends are admitted."""
        for number in RULES:
            address, codes = self.page.check[number].codes()
            for code, wanted in zip(codes, ((number, address), (0, 0)), strict=True):
                words = sum(len(line.split(";")[0].split()) for line in code.splitlines())
                self.hold_check(image_of(code), str(2 * words).encode(), wanted)

    def lengths(self):
        """The check's refusals 31 and 33."""
        image = image_of("D7E0 E400")
        for length in (0, 1, 4000, 4090):
            self.hold_check(image[:length], b"16\n", (31, 0))
        for length in (b"0", b"2", b"3", b"6", b"4097", b"4100\n", b"99999999999999999999", b"-4", b"four", b""):
            self.hold_check(image, length, (33, 0))
        # What is no number of at most ten digits and 32 bits counts as 0.
        for length in (b" 4", b"4 \n", b"+4", b"4\r\n", b"4:", b"A", b"\n4", b"00000000004", b"4294967300", b"0" * 15 + b"40"):
            self.hold_check(image, length, (33, 0))
        for length in (b"4", b"4\n", b"0000000004", b"4\n\n", b"4\nwhat stands behind the line is not read"):
            self.hold_check(image, length, (0, 0))

    def check_buffers(self):
        """The check reads 4,096 bytes, and then 16: inputs around both lengths, and twice as long."""
        image = image_of("D7E0 E400")
        self.hold_check(image[:4095], b"", (31, 0))
        self.hold_check(image, b"", (33, 0))
        self.hold_check(image, b"4", (0, 0))
        self.hold_check(image, image, (33, 0))
        for count in (15, 16, 17, 32):
            # A line with a length, and something behind it; a length with too many digits; and one that is no number.
            self.hold_check(image, b"4\n" + b"7" * (count - 2), (0, 0))
            self.hold_check(image, b"4".rjust(count, b"0"), (33, 0))
            self.hold_check(image, b"4".ljust(count), (33, 0))
        # Ten digits are the most: nine, ten and eleven.
        for count, wanted in ((9, 0), (10, 0), (11, 33)):
            for end in (b"", b"\n", b"\n4"):
                self.hold_check(image, b"4".rjust(count, b"0") + end, (wanted, 0))

    def text_buffers(self):
        """No card is longer than 91 bytes, and explain reads 128: texts around both lengths, and twice as long."""
        longest = card_text(4294967295, 4294967295, 0xFFFFFFFF)
        if len(longest) != 91:
            raise ValueError(f"the longest card has {len(longest)} bytes")
        shorter = card_text(4294967295, 429496729, 0xFFFFFFFF)
        self.hold(longest, self.page.unknown.said())
        self.hold(longest.replace(b"=4294967295\nsteps", b"=0000000012\nsteps"), self.page.of_card(12, 4294967295, 0xFFFFFFFF))
        for text in (longest, shorter):
            self.hold(text[:-1], self.page.damaged.said(line=6))
            for more in (b"\n", b"x", b"x\n", b"acc=00000000\n"):
                self.hold(text + more, self.page.damaged.said(line=7))
            for count in (90, 91, 92, 127, 128, 129, 182, 256):
                behind = (text + b"\n" * count)[:count]
                if len(text) < count:
                    self.hold(behind, self.page.damaged.said(line=7))
                self.hold(b"x" * count, self.page.no_card.said())
                self.hold(b"answer=12\n" + b"x" * (count - 10), self.page.damaged.said(line=2))

    def counters(self):
        """Each way to the number 12: a counter that is odd, one outside the memory, and a MOVEI that the end cuts off."""
        for place in (0xF03101, 0xF03FFF, 0xF04001, 0xF02FFF, 0xF02FFE, 0xF04000, 0, 0xFFFFFFFE, 0xFFFFFFFF):
            # MOVEI #place,R1; JUMP (R1); NOP
            self.hold_run(f"9801 {place & 0xFFFF:04X} {place >> 16:04X} D020 E400", card_text(12, 3, place, 0, 0, 0))
        for place in (0xF03FFC, 0xF03FFE):
            code = f"9801 {place & 0xFFFF:04X} 00F0 D020 E400\n@{place:X}\n9802"
            self.hold_run(code, card_text(12, 3, place, 0, 0, 0))
        # A MOVEI that ends with the memory is whole; so is a NOP at its end. The counter is behind the memory then.
        self.hold_run("9801 3FFA 00F0 D020 E400\n@F03FFA\n9802 0000 0000", card_text(12, 4, 0xF04000, 0, 0, 0))
        self.hold_run("9801 3FFE 00F0 D020 E400\n@F03FFE\nE400", card_text(12, 4, 0xF04000, 0, 0, 0))

    def damaged(self):
        """Any other text gets its sentences too."""
        whole = [card_text(11, 3, 0xF0300A), check_text(24, 0xF03002)]
        texts = [text[:end] for text in whole for end in range(len(text))]
        texts += [text + more for text in whole for more in (b"\n", b"x", b"\0", text)]
        texts += [text.replace(b"\n", b"\r\n") for text in whole]
        texts += [text.replace(b"00F03", b"00f03") for text in whole]
        texts += [bytes(range(256)), b"\n", b"answer=1", b"\xff" * 1024, b"answer=11\n" * 100000, b"0" * 1048576]
        texts += [whole[0] + b"\n" * 1048576]
        texts += [f"answer={n}\naddress=00F03000\n".encode() for n in (4294967295, 4294967296, 10**10, "", " 1", "+1", "007")]
        rng = random.Random(1)
        for _ in range(500):
            text = bytearray(rng.choice(whole))
            for _ in range(rng.randint(1, 2)):
                text[rng.randrange(len(text))] = rng.choice(b"\n=09AFacns:@#\0\xff")
            texts.append(bytes(text))
        for text in texts:
            self.hold(text, self.page.of_text(text))


def main():
    parser = argparse.ArgumentParser(description="Holds docs/REFUSALS.md and the program explain to each other.")
    parser.add_argument("--explain", required=True, metavar="PROGRAM")
    parser.add_argument("--check", required=True, metavar="PROGRAM")
    parser.add_argument("--run", required=True, metavar="PROGRAM")
    given = parser.parse_args()
    try:
        test = Test(given, Page((ROOT / "docs" / "REFUSALS.md").read_text()))
        crate = ROOT / "crates" / "explain"
        if test.page.of_text((crate / "stdin").read_bytes()) != (crate / "stdout").read_text():
            raise ValueError("crates/explain/stdout is not what the page says of its stdin")
        test.numbers()
        test.examples()
        test.lengths()
        test.check_buffers()
        test.text_buffers()
        test.counters()
        test.damaged()
    except ValueError as fault:
        sys.exit(f"tests: refusals: {fault}")
    print(f"tests: {test.texts} texts are explained as the page of numbers has it, and {test.checks} checks answer so")


if __name__ == "__main__":
    main()
