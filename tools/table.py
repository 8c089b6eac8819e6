#!/usr/bin/env python3
"""gpu table: each instruction of a table against the proved processor, one step a row.

It is a script too, with the same words: tools/table.py FILE.csv. docs/INSTRUCTIONS.md says how a table is written.
"""

import sys
import time
from datetime import datetime

import command
import home
from files import STANDARD_INPUT, Unusable, told
from sheets import page
from sheets.findings import Judge
from sheets.grounds import Grounds
from sheets.kept import Kept
from sheets.pagefile import PageFile
from sheets.printed import print_columns, print_row, print_summary
from sheets.spreadsheet import is_blank, read_table
from sheets.tallies import Tallies

SUMMARY = "run each instruction of a spreadsheet's table, and tell the rows that differ"
MORE = """\
A table is saved as CSV: one instruction a row, what is there before it, and what is expected after it. docs/INSTRUCTIONS.md
says how it is written. Ends with 0 if all rows agree, 1 if a row differs, 2 if a row was not run, the table has none, or it
could not be read, 3 if the processor is missing.
"""

BASE = home.DOCS / "vectors" / "base.csv"


def arguments(parser):
    parser.add_argument("table", metavar="FILE.csv", nargs="?",
                        help="a table saved as CSV; - is standard input (default: docs/vectors/base.csv)")
    parser.add_argument("--quiet", action="store_true", help="print only the rows that differ or are not run")
    parser.add_argument("--page", metavar="FILE.html", help="draw the 64 opcodes and the rows to look at there")
    parser.add_argument("--hex", action="store_true", help="contents and addresses are all hexadecimal, marked or not")
    parser.add_argument("--whole", action="store_true", help="what a row expects nothing of must stay as it was")
    parser.add_argument("--library", metavar="FILE.so", help="the processor, where another than libgpu.so.0 is meant")


def name_of(path):
    """A table's name as people have it."""
    if path is None:
        return "docs/vectors/base.csv"
    return "standard input" if path == STANDARD_INPUT else path


def facts_of(given):
    now = datetime.now().astimezone()
    options = " ".join(name for name, chosen in (("--hex", given.hex), ("--whole", given.whole)) if chosen)
    return page.Facts(name_of(given.table), f"{now.day} {now:%B %Y, %H:%M %Z}",
                      f"version {home.version()}, made from {home.made_from()}", options)


class Progress:
    """Says now and then how far it is, for a table that takes long."""

    def __init__(self):
        self.last = time.monotonic()

    def at(self, number):
        if time.monotonic() - self.last > 2:
            self.last = time.monotonic()
            told(f"gpu table: {number:,} rows done")


def run_table(given, kept):
    """Runs a whole table and prints its report. The rows for a page are kept, if there is to be one."""
    if given.table == "":
        raise Unusable("no table is named: name one that is saved as CSV")
    table = read_table(str(BASE) if given.table is None else given.table)
    told(f"gpu table: {name_of(given.table)}{', since no table was named' if given.table is None else ''}: "
         + ("1 column" if len(table.columns) == 1 else f"{len(table.columns)} columns with {table.separators} between"))
    step, grounds = home.processor(given.library), Grounds(home.page("INSTRUCTIONS.md"))
    judge = Judge(table.columns, step, grounds, given.hex, given.whole)
    print_columns(table.columns)
    tallies, progress = Tallies(given.whole), Progress()
    for number, row in table.rows:
        progress.at(number)
        if not is_blank(row):
            finding = judge.finding(number, row)
            tallies.count(finding)
            print_row(finding, given.quiet)
            if kept:
                kept.take(finding)
    print_summary(tallies)
    return tallies


def run(given):
    """The status of a whole table."""
    if not given.page:
        return run_table(given, None).status()
    file, kept = PageFile(given.page, given.table or BASE), Kept()
    try:
        tallies = run_table(given, kept)
    except (Unusable, home.NotWhole) as what:
        write_failure(file, given, str(what))
        raise
    file.write(page.page_of(facts_of(given), tallies, kept))
    print(f"the page is {given.page}")
    return tallies.status()


def write_failure(file, given, sentence):
    """A page with the sentence, so that a browser that shows the page of an earlier run shows this one now."""
    try:
        file.write(page.failed_page(facts_of(given), sentence))
    except Unusable:
        # The first trouble is told.
        pass


if __name__ == "__main__":
    sys.exit(command.main(["table", *sys.argv[1:]]))
