"""The table runner, tools/table.py, called as a script by the tests of it: a table goes in, a report and a page come out."""

import csv
import io
import re
import subprocess
import sys
import tempfile
from pathlib import Path

ROOT = Path(__file__).resolve().parent.parent
BASE = ROOT / "docs" / "vectors" / "base.csv"
LIBRARY = ROOT / "target" / "libgpu.so.0"
sys.path.append(str(ROOT / "tools"))

import mnemonics
from sheets import comparison, grounds

SCRIPT = [sys.executable, str(ROOT / "tools" / "table.py"), "--library", str(LIBRARY)]

HEADER = "instruction,s,d,C,expect result,expect Z,expect N,expect C\n"
GOOD = '"ADD R1,R2",1,0xFFFFFFFF,0,0,1,0,1\n'


class Told:
    """What the runner says of a table, given as text or bytes, under a name; None names no table. A page of an earlier run
    is there when it begins."""

    def __init__(self, table, *words, name="table.csv"):
        with tempfile.TemporaryDirectory() as folder:
            path, page = Path(folder) / name, Path(folder) / "page.html"
            page.write_text("the page of an earlier run")
            if table is not None:
                path.write_bytes(table if isinstance(table, bytes) else table.encode())
                words = (str(path), *words)
            done = subprocess.run([*SCRIPT, "--page", str(page), *words], stdout=subprocess.PIPE, stderr=subprocess.PIPE,
                                  timeout=60)
            self.page = page.read_text("utf-8") if page.exists() else ""
            self.files = sorted(each.name for each in Path(folder).iterdir())
        self.status, self.out, self.errors = done.returncode, done.stdout.decode(), done.stderr.decode()
        self.text = self.out + self.errors

    def expect(self, status, *parts):
        """Fails unless the runner ended with a status, without a traceback, and its report has each part."""
        assert self.status == status, f"ended with {self.status} and not {status}:\n{self.text[-2000:]}"
        for part in parts:
            assert part in self.text, f"'{part}' is not in:\n{self.text[-2000:]}"
        assert "Traceback" not in self.text, self.text[-2000:]
        return self

    def rows(self):
        """The report's text on each row, by the row's number."""
        rows = re.split(r"^(?=row \d)", self.out.partition("\n\nopcode")[0], flags=re.MULTILINE)[1:]
        return {int(row.split()[1]): row.rstrip("\n") for row in rows}

    def counts(self):
        """The numbers of the summary by opcode: run, agreed, in part, differed, not run."""
        lines = (line.split() for line in self.out.partition("\n\nopcode")[2].split("\n") if line.startswith(" "))
        return {int(words[0]): [int(word.replace(",", "")) for word in words[-5:]] for words in lines if words[0].isdigit()}


def table_of(columns, rows):
    """A table as a spreadsheet writes it: names with commas between, and the filled cells of each row by their names."""
    text = io.StringIO()
    out = csv.DictWriter(text, columns.split(","), lineterminator="\n")
    out.writeheader()
    for row in rows:
        out.writerow(row)
    return text.getvalue()


def base_rows():
    """The names and the rows of base.csv, as lists of cells."""
    return list(csv.reader(io.StringIO(BASE.read_text("utf-8"))))


def as_csv(rows):
    text = io.StringIO()
    csv.writer(text, lineterminator="\n").writerows(rows)
    return text.getvalue()
