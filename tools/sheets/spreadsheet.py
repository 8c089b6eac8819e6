"""The rows of a table as spreadsheets save it: CSV with commas, semicolons or tabs, in one of several codes of letters."""

import csv
import io
import re
from pathlib import Path
from typing import Iterator, NamedTuple

from files import STANDARD_INPUT, Unusable, decoded, read_bytes
from sheets import columns

MOST_BYTES = 256 << 20
# As many columns as are told of where they can not be used.
MOST_PROBLEMS = 20
SEPARATORS = {",": "commas", ";": "semicolons", "\t": "tabs"}

# A spreadsheet's own files, by the ending or by how they begin: as a zip archive, or as one of Microsoft's older documents.
OWN_ENDINGS = {".xlsx", ".xlsm", ".xlsb", ".xls", ".ods", ".numbers"}
OWN_BEGINNINGS = b"PK\x03\x04", b"\xd0\xcf\x11\xe0"
SAVE_AS = "in the spreadsheet choose 'Save as' or 'Download', take CSV, and name that file"


class Table(NamedTuple):
    """A table whose columns are understood. The rows are read as they are asked for, each with its number."""
    separators: str
    columns: list
    rows: Iterator


def is_own(path):
    """Whether a file that is there has the name of a spreadsheet's own. One of Numbers may be a folder."""
    return Path(path).suffix.lower() in OWN_ENDINGS and Path(path).exists()


def text_in(path, name):
    """The text of a table's file."""
    own = f"{name}: this is a spreadsheet's own file: {SAVE_AS}"
    if is_own(path):
        raise Unusable(own)
    data = read_bytes(path, MOST_BYTES)
    if data.startswith(OWN_BEGINNINGS):
        raise Unusable(own)
    text = decoded(data)
    if "\0" in text[:512]:
        raise Unusable(f"{name}: this is no text, and so no table: {SAVE_AS}")
    return text


def separator_of(text):
    """The separator is the one that the names have most of."""
    names = re.search(r"^.*\w.*$", text, re.MULTILINE)
    return max(SEPARATORS, key=names[0].count) if names else ","


def rows_of(text, separator, name):
    """The rows of a table, each with its number in the spreadsheet."""
    # Text that was copied from a page may have blanks before a quotation mark.
    reader = csv.reader(io.StringIO(text, newline=""), delimiter=separator, strict=True, skipinitialspace=True)
    number = 0
    while True:
        number += 1
        try:
            yield number, next(reader)
        except StopIteration:
            return
        except csv.Error as error:
            raise Unusable(f"{name}: row {number}: the table can not be read from here on ({error}): look for a quotation "
                           "mark that is not closed, and save the table again as CSV")


def is_blank(row):
    return not any(cell.strip() for cell in row)


def columns_in(rows, name):
    """The columns, from the first row that is not blank."""
    for number, row in rows:
        if not is_blank(row):
            found, problems = columns.columns_of(row)
            if problems:
                lines = [f"  row {number}, {bad.line}" for bad in problems[:MOST_PROBLEMS]]
                if len(problems) > MOST_PROBLEMS:
                    lines.append(f"  and {len(problems) - MOST_PROBLEMS:,} more")
                raise Unusable("\n".join([f"{name}: nothing was run: mend the columns first", *lines, f"  {columns.NAMES}"]))
            return found
    raise Unusable(f"{name}: the table is empty: it has neither names nor rows")


def read_table(path):
    """The table of a file; `-` is standard input."""
    name = "standard input" if path == STANDARD_INPUT else path
    text = text_in(path, name)
    if text[:4].lower() == "sep=":
        text = text.partition("\n")[2]
    separator = separator_of(text)
    rows = rows_of(text, separator, name)
    return Table(SEPARATORS[separator], columns_in(rows, name), rows)
