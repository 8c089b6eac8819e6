"""Numbers as a spreadsheet's cell or an instruction's operand has them.

0x1F, $1F and 1Fh are hexadecimal, in capitals or small letters; digits alone are decimal, with a minus sign or without.
"""

import re

from texts import cut

# More digits than any column takes are no number.
MARKED = re.compile(r"(?:0x|\$)([0-9a-f]{1,16})|([0-9a-f]{1,16})h", re.IGNORECASE)


class Unreadable(Exception):
    """A text that can not be read; the message says what is expected, and what to do."""


def number_of(text, plain_hex=False):
    """The number that a text stands for. With plain_hex, hex digits need no mark."""
    text = text.strip().replace("\u2212", "-")
    marked = MARKED.fullmatch(text)
    if marked:
        return int(marked[1] or marked[2], 16)
    if plain_hex and re.fullmatch(r"[+-]?[0-9A-Fa-f]{1,16}", text):
        return int(text, 16)
    if re.fullmatch(r"[+-]?[0-9]{1,20}", text):
        return int(text)
    if re.fullmatch(r"[+-]?[0-9]+([.,][0-9]+)?[Ee][+-]?[0-9]+", text):
        raise Unreadable(f"'{cut(text)}' is what a spreadsheet makes of a long number: set the column's format to Text and "
                         "write the number again")
    if re.fullmatch(r"[0-9A-Fa-f]{1,16}", text):
        raise Unreadable(f"'{text}' has hex letters and no mark: write 0x{text}, ${text} or {text}h")
    raise Unreadable(f"'{cut(text)}' is not a number: write a decimal number such as 31 or -1, or a hexadecimal one such as "
                     "0x1F, $1F or 1Fh")


def in_range(number, low, high, what):
    """The number, if it lies between two ends."""
    if not low <= number <= high:
        raise Unreadable(f"{number} is out of range: {what} is {low} to {high}")
    return number


def long_of(text, plain_hex=False):
    """32 bits: 0 to 2^32 - 1, or a negative decimal number down to -2^31, which counts modulo 2^32."""
    return in_range(number_of(text, plain_hex), -2 ** 31, 2 ** 32 - 1, "a long") % 2 ** 32
