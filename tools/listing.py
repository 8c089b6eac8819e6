"""The words of an image, each with its address, its instruction and the file's own comment."""

import re
from typing import NamedTuple, Optional

import mnemonics
from images import WORDS
from numerals import Unreadable
from processor import RAM_BASE, RAM_LENGTH


class Item(NamedTuple):
    """What stands at an address: its words, and the instruction as text, or None for data and for words that are none."""
    address: int
    words: list
    text: Optional[str]

    def label(self, is_code):
        return self.text or ("no instruction" if is_code else "")


def word_at(ram, offset):
    return ram[offset] << 8 | ram[offset + 1]


def item_at(ram, offset, end):
    """The instruction at an offset, whose words end before `end`."""
    count = 3 if word_at(ram, offset) >> 10 == mnemonics.MOVEI and offset + 6 <= end else 1
    words = [word_at(ram, offset + 2 * i) for i in range(count)]
    text = mnemonics.text_of(words)
    is_none = re.fullmatch(r"[0-9A-F]{4}", text)
    return Item(RAM_BASE + offset, words, None if is_none else text)


def instruction_at(ram, address):
    """The instruction at an address, as text; None where the memory has none there."""
    offset = address - RAM_BASE
    if offset % 2 or not 0 <= offset < RAM_LENGTH:
        return None
    return item_at(ram, offset, RAM_LENGTH).text


def target_of(item):
    """The target of a JR, which a person would have to reckon."""
    word = item.words[0]
    if item.text is None or mnemonics.mnemonic(word >> 10) != "JR":
        return None
    field = word >> 5 & 31
    return item.address + 2 + 2 * (field - 32 if field > 15 else field)


def code_end(image, length):
    """Where the code ends: at the length; else where a program file's first words end, or an image's last word but zeros."""
    if length is not None:
        return min(length, RAM_LENGTH) & ~1
    return image.code if image.kind == WORDS else len(image.ram.rstrip(b"\0")) + 1 & ~1


def items_of(image, length):
    """The items of the code, and behind it the words that a program file names or, in an image, that are not zero."""
    end = code_end(image, length)
    code, offset = [], 0
    while offset < end:
        item = item_at(image.ram, offset, end)
        code.append(item)
        offset += 2 * len(item.words)
    behind = [at for at in range(end, RAM_LENGTH, 2) if at in image.lines or not image.lines and word_at(image.ram, at)]
    return code, [Item(RAM_BASE + at, [word_at(image.ram, at)], None) for at in behind]


def comment_warning(item, comment):
    """What is wrong with the comment of an instruction: it names another, or other operands. None if nothing is seen."""
    said = re.sub(r"^\w+:\s+", "", re.split(r"\s{2,}|;", comment)[0])
    word = "is no instruction" if item.text is None else f"is {item.text}"
    try:
        is_other = mnemonics.words_of(said, item.address) != item.words
    except Unreadable:
        # With a label as an operand the mnemonics alone can be compared; a sentence that begins with one is none.
        named = re.match(r"([A-Z0-9]+)(?:$| +[^ ]*[,#()])", said)
        if not named or named[1] not in mnemonics.BY_MNEMONIC:
            return None
        is_other = item.text is None or named[1] != item.text.split()[0]
    return f"the comment says {said}, and the word {word}" if is_other else None


def comments_of(image, item):
    """The comments of an item's lines, each once, and the number of the first."""
    comments, number = [], None
    for offset in range(item.address - RAM_BASE, item.address - RAM_BASE + 2 * len(item.words), 2):
        line = image.lines.get(offset)
        # A line of several words has its comment at the first of them.
        if line is not None and image.lines.get(offset - 2) is not line:
            number = number or line.number
            comments += [line.comment] if line.comment else []
    return comments, number


def warnings_of(image, length):
    """The comments that do not fit their words, as address, line and what is wrong."""
    for item in items_of(image, length)[0]:
        comments, number = comments_of(image, item)
        warning = comments and comment_warning(item, comments[0])
        if warning:
            yield item.address, number, warning
