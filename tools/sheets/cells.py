"""A row's cells to a case: a machine before the step, and what is expected after it. Nothing here runs an instruction."""

import difflib
import re
from typing import NamedTuple, Optional

import mnemonics
from numerals import Unreadable, in_range, long_of, number_of
from processor import BITS, RAM_BASE, Machine
from sheets.columns import EXPECT, INSTRUCTION, NOTES, ONLY_EXPECTED, BadCell
from texts import cut

# A spreadsheet's own words for a flag, and the signs for one that stays: the hyphen, the dashes, the minus sign.
TRUTH = {"0": 0, "1": 1, "true": 1, "false": 0}
DASHES = set("-\u2010\u2011\u2012\u2013\u2014\u2015\u2212")
UNCHANGED = "unchanged"

# No instruction is longer, with whatever spaces.
LONGEST = 120
# Digits alone that may have been meant as hexadecimal: no long has more hex digits, and fewer are mostly decimal.
MAYBE_HEX = re.compile(r"[0-9]{7,8}")
HEX_WORD = re.compile(r"(?:0x|\$)?([0-9A-Fa-f]{4})h?", re.IGNORECASE)


class Cell(NamedTuple):
    """A filled cell: its column without `expect`, the place that it names in this row, and the number. `unchanged`: that is
    the number before the step."""
    name: str
    place: str
    number: Optional[int]
    unchanged: bool = False


class Case(NamedTuple):
    """A row that can be run: the machine before, and the cells that are given and expected."""
    before: Machine
    given: list
    expected: list


class Row(NamedTuple):
    """A row as it was read: the words of its instruction, and its case, or None; the instruction as the report shows it; the
    opcodes that the row counts for; the cells that could not be read."""
    words: Optional[list]
    case: Optional[Case]
    text: str
    opcodes: list
    problems: list


# The instruction's cell.

def words_of(text, address):
    """The words of an instruction's cell: hex words, or a mnemonic with operands."""
    if len(text) > LONGEST:
        raise Unreadable(f"'{cut(text)}' is too long for an instruction")
    if text.split()[0].upper() in mnemonics.BY_MNEMONIC:
        return mnemonics.words_of(text, address)
    words = [HEX_WORD.fullmatch(item) for item in text.split()]
    if all(words):
        words = [int(word[1], 16) for word in words]
        if len(words) == 1 or len(words) == 3 and words[0] >> 10 == mnemonics.MOVEI:
            return words
        raise Unreadable("has more than one word: only MOVEI has three, its low word before its high word")
    if re.fullmatch(r"[0-9][0-9A-Fa-f.,+]*", text):
        raise Unreadable(f"'{text}' is not a word of four hex digits. A spreadsheet changes 0022 to 22 and 5E41 to a power "
                         "of ten: set the column's format to Text, or write 0x before the word")
    try:
        return mnemonics.words_of(text, address)
    except Unreadable as told:
        raise Unreadable(f"{told}{suggestion(text)}")


def suggestion(text):
    """A mnemonic that is nearly the first word of a text."""
    near = difflib.get_close_matches(first_word(text), mnemonics.BY_MNEMONIC, 1, 0.7)
    return f"; is it {near[0]}?" if near and near[0] != first_word(text) else ""


def first_word(text):
    return re.match(r"\w*", text)[0].upper()


def opcodes_of(text):
    """The opcodes that an instruction's cell may mean, also where the whole of it can not be read: all of a mnemonic, or
    that of the first of several words."""
    if first_word(text) in mnemonics.BY_MNEMONIC:
        return mnemonics.BY_MNEMONIC[first_word(text)]
    words = [HEX_WORD.fullmatch(item) for item in text.split()]
    return [int(words[0][1], 16) >> 10] if words and all(words) else []


# The other cells.

def bit_of(column, text):
    """A flag or another single bit: 0, 1, TRUE, FALSE, and where it is expected a dash for unchanged."""
    if text.lower() in TRUTH:
        return TRUTH[text.lower()]
    if text in DASHES and column.expected:
        return UNCHANGED
    if text in DASHES:
        raise Unreadable(f"'{text}' means unchanged, and belongs under '{EXPECT}{column.name}': write 0 or 1 here, or leave "
                         "the cell empty")
    try:
        return in_range(number_of(text), 0, 1, column.name)
    except Unreadable:
        raise Unreadable(f"'{cut(text)}' is neither 0 nor 1: write one of them, or TRUE or FALSE"
                         + (", or – for unchanged" if column.expected else ""))


def value_of(column, text, plain_hex):
    """The number in a cell; None for no pending jump, UNCHANGED for a flag that stays."""
    if column.place in BITS:
        return bit_of(column, text)
    if text in DASHES:
        raise Unreadable(f"'{text}' may stand only under an expected flag, for unchanged: write a number, or leave the cell "
                         "empty")
    if column.place == "pending" and text.lower() == "none":
        return None
    if column.place in ONLY_EXPECTED:
        return in_range(number_of(text), 0, 255, column.place)
    try:
        return long_of(text, plain_hex)
    except Unreadable as told:
        advice = "; if all numbers of the table are hexadecimal, run with --hex" if "no mark" in str(told) else ""
        raise Unreadable(f"{told}{advice}")


def named_place(column, words):
    """A column's place, with the register's name in the place of s or d."""
    if column.place not in ("s", "d"):
        return column.place
    register = mnemonics.registers(words[0])[column.place == "d"]
    if register is None:
        field = "destination" if column.place == "d" else "source"
        raise BadCell(column.name, f"the {field} field of this instruction names no register: leave the cell empty")
    return register


# The row.

def read_row(columns, cells, plain_hex=False):
    """A row, of which as much is read as can be."""
    name, text = next((column.name, cell.strip()) for column, cell in zip(columns, cells + [""] * len(columns))
                      if column.place == INSTRUCTION)
    if any(cell.strip() for cell in cells[len(columns):]):
        more = BadCell(name, "the row has more cells than the header. If an instruction has a comma, the file must have it "
                             'in quotation marks: "ADD R1,R2"')
        return Row(None, None, cut(text), opcodes_of(text), [more])
    problems, values = [], {}
    filled = [(i, column, cell.strip()) for i, (column, cell) in enumerate(zip(columns, cells), 1) if cell and cell.strip()]
    for i, column, cell in filled:
        if not column.name:
            problems.append(BadCell(f"number {i}", "has no name in the first row: give it one, which may begin with #"))
        elif column.place and column.place != INSTRUCTION:
            try:
                values[column] = value_of(column, cell, plain_hex)
            except Unreadable as told:
                problems.append(BadCell(column.name, str(told)))
    before = {column.place: value for column, value in values.items() if not column.expected}
    counter = before.get("counter", RAM_BASE)
    words = case = None
    try:
        words = instruction_of(name, text, counter)
        if not problems:
            case = case_of(words, counter, before.get("bank", 0), values)
    except BadCell as bad:
        problems.append(bad)
    if words is None:
        return Row(None, None, cut(text), opcodes_of(text), problems)
    return Row(words, case, shown(words, text), [words[0] >> 10], problems)


def shown(words, text):
    """An instruction as it was understood; words that are none, as the cell has them."""
    understood = mnemonics.text_of(words)
    return cut(text) if understood.startswith(f"{words[0]:04X}") else understood


def instruction_of(name, text, counter):
    """The words of a row's instruction."""
    if not text:
        raise BadCell(name, "is empty: fill it, or clear the whole row")
    try:
        return words_of(text, counter)
    except Unreadable as told:
        raise BadCell(name, str(told))


def case_of(words, counter, bank, values):
    """The case of an instruction and the numbers of its columns."""
    before, given, expected, named = Machine(bank), [], [], {}
    for column, value in values.items():
        place = named_place(column, words)
        key = place, column.expected
        if key in named and named[key][1] != value:
            raise BadCell(column.name, f"is the same register as the column '{named[key][0]}' in this row, and has another "
                                       "number: leave one of the two cells empty")
        named[key] = column.name, value
        if column.expected:
            expected.append(Cell(column.name[len(EXPECT):], place, value))
            continue
        if place.startswith("ram ") and -4 < int(place[4:], 16) - counter < 2 * len(words):
            raise BadCell(column.name, f"the instruction itself stands there, at {counter:X}h: leave the cell empty, or set "
                                       "the counter to another address")
        given.append(Cell(column.name, place, value))
        before.write(place, value)
    before.put_words(counter, words)
    if not expected:
        raise BadCell(EXPECT.strip(), "no cell of an expected column is filled, so there is nothing to compare: fill one")
    # Only now is all that was before the step known.
    expected = [cell._replace(number=before.read(cell.place), unchanged=True) if cell.number is UNCHANGED else cell
                for cell in expected]
    return Case(before, given, expected)


def maybe_hex(columns, cells, differing):
    """What is said of numbers that may have been meant as hexadecimal, before the step or at a place that differs."""
    longs = [(column, cell.strip()) for column, cell in zip(columns, cells)
             if column.place and column.place not in BITS and column.place not in ONLY_EXPECTED]
    texts = [text for column, text in longs if MAYBE_HEX.fullmatch(text)
             and (not column.expected or column.name[len(EXPECT):] in differing)]
    return [f"{text} was read as decimal; write 0x{text} if it is hexadecimal" for text in dict.fromkeys(texts)]


def note_of(columns, cells):
    """A row's own note, from all its columns of that kind, on one line."""
    notes = (" ".join(cell.split()) for column, cell in zip(columns, cells) if column.name.lower() in NOTES)
    return "; ".join(note for note in notes if note)
