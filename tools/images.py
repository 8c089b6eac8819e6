"""The one reader of image files: what stands in local RAM, 4,096 bytes, at the start.

There are three kinds, told apart by the name's ending or, where that says nothing, by what the file holds:

A program file (.words, .txt) is text. A line holds words of four hex digits with spaces between. A semicolon begins a
comment, which goes on to the end of the line. The words stand one behind the other from F03000h on, high byte first; a line
@ADDRESS, with an even hex address from F03000 to F03FFF, moves the place of the next word. Every byte that is not named is
zero. A comment line `; length: N bytes` above the first word states how many bytes the code has: as many as the words have
that stand before the first @ADDRESS, else the file is refused.

An image (.bin) is the 4,096 bytes themselves. A saved machine (.saved) is an image and the state block behind it.
"""

import re
from pathlib import Path
from typing import NamedTuple, Optional

from files import STANDARD_INPUT, Unusable, decoded, is_text, read_bytes
from home import typed
from processor import BLOCK_LENGTH, RAM_BASE, RAM_LENGTH
from texts import counted, cut, printable

WORDS, BYTES, SAVED = "program file", "image", "saved machine"
ENDINGS = {".words": WORDS, ".txt": WORDS, ".bin": BYTES, ".saved": SAVED}
SIZES = {BYTES: RAM_LENGTH, SAVED: RAM_LENGTH + BLOCK_LENGTH}

# More than any program file has: 2,048 words with a screenful of comment each.
MOST_BYTES = 1 << 22

LENGTH_LINE = re.compile(r";\s*length\s*[:=]\s*(.*)", re.IGNORECASE)
# Texts that people also keep, by a line that they have, and the verb that takes them.
OTHER_TEXTS = [(r"^answer=\d+\s*$", "a card or an answer of the check", "explain"),
               (r"^\d{4}-\d\d-\d\dT\S+\timage=", "a firing log", "log")]
# Letters that are typed for digits.
MISTYPED = str.maketrans("OoIlSsZz", "00115522")


class Line(NamedTuple):
    """A line of a program file: its number, and the comment without its semicolon."""
    number: int
    text: str
    comment: str


class Image(NamedTuple):
    """What a file says. `length` is that of the code, if it is stated. Of a program file `code` is how many bytes its words have
    up to the first @ADDRESS, and `lines` has the line of each word by its offset."""
    path: str
    kind: str
    ram: bytes
    length: Optional[int] = None
    code: Optional[int] = None
    lines: dict = {}
    block: Optional[bytes] = None

    def described(self):
        """What the file was taken for."""
        if self.kind == SAVED:
            return f"a saved machine: {RAM_LENGTH:,} bytes of RAM and the state"
        if self.kind == BYTES:
            return f"an image of {RAM_LENGTH:,} bytes"
        stated = "no length stated" if self.length is None else f"{self.length} bytes of code"
        return f"a program file of {counted(len(self.lines), 'word')}, {stated}"

    def line_at(self, address):
        """The line that names the word at an address, or None."""
        return self.lines.get(address - RAM_BASE & ~1) if 0 <= address - RAM_BASE < RAM_LENGTH else None


class Reader:
    """A program file on its way, line by line."""

    def __init__(self, path):
        self.path = path
        self.ram = bytearray(RAM_LENGTH)
        self.lines = {}
        self.place = 0
        self.moved = False
        self.stated = None
        self.code = 0

    def refuse(self, line, what):
        raise Unusable(f"{self.path}, line {line}: {printable(what)}")

    def read(self, text):
        for number, content in enumerate(text.split("\n"), 1):
            words, _, comment = content.partition(";")
            words = words.strip()
            if not words:
                self.take_comment(number, content.strip())
            elif words.startswith("@"):
                self.move(number, words)
            else:
                line = Line(number, printable(content).strip(), printable(comment).strip())
                for item in words.split():
                    self.put(line, item)
        if not self.lines:
            raise Unusable(f"{self.path}: there is no word in it, only comments or empty lines: copy it again, or name another")
        if self.stated:
            self.hold_length(*self.stated)

    def take_comment(self, number, content):
        found = LENGTH_LINE.fullmatch(content)
        if found is None:
            return
        length = re.fullmatch(r"([0-9]{1,9})(?:\s+bytes)?\.?", found[1], re.IGNORECASE)
        if self.lines:
            if length is not None:
                self.refuse(number, "the length stands behind words: write it above the first word")
            return  # a remark on something else
        if self.stated:
            self.refuse(number, f"line {self.stated[0]} states a length already: leave one of them out")
        if length is None:
            self.refuse(number, f"'{cut(found[1])}' is not a length: write '; length: 68 bytes', with the number of your program")
        self.stated = number, int(length[1])

    def move(self, number, item):
        """A line @ADDRESS."""
        if not re.fullmatch(r"@[0-9A-Fa-f]{1,8}", item):
            self.refuse(number, f"'{cut(item)}' is not an address: write @ and a hex number, such as @F03800, alone on the line")
        address = int(item[1:], 16)
        if not RAM_BASE <= address < RAM_BASE + RAM_LENGTH:
            self.refuse(number, f"{address:X} is outside the memory: write an address from F03000 to F03FFE")
        if address % 2:
            self.refuse(number, f"{address:X} is odd, and words stand at even addresses: write {address - 1:X} or {address + 1:X}")
        self.place = address - RAM_BASE
        # Above the first word @F03000 says what holds without it.
        self.moved = self.moved or bool(self.lines) or self.place != 0

    def put(self, line, item):
        """One word, at the place that is due."""
        if not re.fullmatch(r"[0-9A-Fa-f]{4}", item):
            mended = item.translate(MISTYPED)
            is_it = f": is it {mended}?" if re.fullmatch(r"[0-9A-Fa-f]{4}", mended) else ""
            self.refuse(line.number, f"'{cut(item)}' is not a word of four hex digits, 0 to 9 and A to F{is_it or '.'} "
                                     "Compare the line with the original, or copy the file again")
        if self.place == RAM_LENGTH:
            self.refuse(line.number, f"'{item}' does not fit: the memory ends at F03FFF")
        if self.place in self.lines:
            self.refuse(line.number, f"'{item}' would stand at {RAM_BASE + self.place:X}, which line "
                                     f"{self.lines[self.place].number} has filled: move one of the two")
        self.ram[self.place:self.place + 2] = bytes.fromhex(item)
        self.lines[self.place] = line
        self.place += 2
        if not self.moved:
            self.code = self.place

    def hold_length(self, number, stated):
        if stated != self.code:
            self.refuse(number, f"the file states {stated} bytes of code, and its words have {self.code} up to the first line "
                                "with @ or the end. Either words are missing or added, or the number was not changed with "
                                "them: copy the file again, or ask its author")


def kind_of(path, data):
    """The kind of a file, by its ending or else by what it holds."""
    kind = ENDINGS.get(Path(path).suffix.lower())
    if kind:
        return kind
    text = is_text(data)
    for kind, size in SIZES.items():
        if len(data) == size:
            if text:
                raise Unusable(f"{path}: can be read both as text and as {'an' if kind == BYTES else 'a'} {kind}: give its name "
                               f"the ending .words or {'.bin' if kind == BYTES else '.saved'}")
            return kind
    if text:
        return WORDS
    raise Unusable(f"{path}: has {len(data):,} bytes and is no text. An image has {RAM_LENGTH:,} bytes, a saved machine "
                   f"{SIZES[SAVED]:,}: see that the name is right, or copy the file again")


def image_in(path, data):
    """The image in the bytes of a file."""
    kind = kind_of(path, data)
    if kind == WORDS:
        text = decoded(data)
        for form, what, verb in OTHER_TEXTS:
            if re.search(form, text, re.MULTILINE):
                raise Unusable(f"{path}: is {what} and no program: {typed(verb, path)} is for that")
        reader = Reader(path)
        reader.read(text)
        return Image(path, kind, bytes(reader.ram), reader.stated and reader.stated[1], reader.code, reader.lines)
    if len(data) != SIZES[kind]:
        raise Unusable(f"{path}: has {len(data):,} bytes, and {'an' if kind == BYTES else 'a'} {kind} has {SIZES[kind]:,}: see "
                       "that the name is right, or copy the file again")
    return Image(path, kind, data[:RAM_LENGTH], block=data[RAM_LENGTH:] or None)


def read_image(path):
    """The image of a file."""
    if not str(path):
        raise Unusable("no file is named: name a program file or an image")
    path = str(path)
    return image_in("standard input" if path == STANDARD_INPUT else path, read_bytes(path, MOST_BYTES))


def image_of(text):
    """The 4,096 bytes of a text of words."""
    reader = Reader("text")
    reader.read(text)
    return bytes(reader.ram)
