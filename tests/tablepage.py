"""Tests of the page of a table: what each box and block says, where the boxes lead, and that no old page stays."""

import re
import subprocess
import tempfile
import time
from html import unescape
from pathlib import Path

from tablerun import GOOD, HEADER, ROOT, SCRIPT, Told

NUMBER = re.compile(r"<small>(\d+)</small>")


class Page:
    """A page's boxes by opcode, and its sections by their anchors."""

    def __init__(self, html):
        self.html = html
        found = re.findall(r'<(div|a) class="box (\w+)"(?: href="#(\w+)")?>(.*?)</\1>', html, re.DOTALL)
        assert len(found) == 64, len(found)
        self.boxes = {}
        for tag, kind, to, body in found:
            assert (tag == "a") == bool(to), body
            states = [unescape(state) for state in re.findall(r'<span class="state">(.*?)</span>', body)]
            self.boxes[int(NUMBER.search(body)[1])] = kind, to or None, states
        self.sections = dict(re.findall(r'<section id="(\w+)">(.*?)</section>', html, re.DOTALL))
        self.whole()

    def whole(self):
        """Every link leads to a place of the page, and nothing else is needed to show it."""
        targets = re.findall(r'href="(.*?)"', self.html)
        assert all(target.startswith("#") and f'id="{target[1:]}"' in self.html for target in targets), targets
        for absent in ("<script", "http:", "https:", "src=", "url(", "@import"):
            assert absent not in self.html, absent
        places = re.findall(r'id="(.*?)"', self.html)
        assert len(places) == len(set(places)), places

    def verdict(self):
        return unescape(re.search(r"<h1 class=\"\w+\">(.*?)</h1>", self.html)[1])

    def fact(self, name):
        return unescape(re.search(rf"<dt>{name}</dt><dd>(.*?)</dd>", self.html)[1])

    def articles(self, anchor):
        """The texts of a section's blocks, without their marks."""
        blocks = re.findall(r'<article class="\w+">(.*?)</article>', self.sections[anchor], re.DOTALL)
        return [" ".join(unescape(re.sub(r"<[^>]*>", " ", block)).split()) for block in blocks]


def all_agree(html, rows):
    """The page of a table in which every row agrees: nothing leads anywhere."""
    page = Page(html)
    kinds = [kind for kind, to, _ in page.boxes.values() if to is None]
    assert kinds.count("agree") == 56 and kinds.count("absent") == 8, kinds
    assert page.verdict() == f"All {rows:,} rows agree." and not page.sections


def unread_are_told(html):
    """Rows that can not be read, at the opcodes that they name: the table of `unread_rows_count_for_their_mnemonic`."""
    page = Page(html)
    assert page.boxes[0] == ("unread", "op0", ["! 2 not run", "✓ 1 agrees"]), page.boxes[0]
    for opcode in (41, 43, 44, 58, 59):
        assert page.boxes[opcode] == ("unread", "LOAD", ["! 1 row LOAD … not run"]), page.boxes[opcode]
    assert page.boxes[38] == ("unread", "op38", ["! 1 not run"]), page.boxes[38]
    assert '<a href="#nameless">2 rows name no instruction, and count for no opcode.</a>' in html
    assert len(page.articles("nameless")) == 2 and len(page.articles("LOAD")) == 1 and len(page.articles("op0")) == 2
    assert page.verdict() == "6 of 7 rows could not be run. The other one agrees.", page.verdict()


def states_and_blocks():
    """A box for each opcode with its states in words, and each row to look at in a block of its own."""
    note = "a <b>long</b> note & " + "more of it " * 40
    rows = (f',{GOOD}{note},"SUB R1,R2",1,1,,5,1,0,0\n,"SUB R1,R2",1,1,,0,1,0,0\n,"SUB R1,R2",1,1,,0,,,\n'
            ',"AND R1,R2",x,1,,1,,,\n,"OR R1,R2",,1,,1,,,\n,"OR R1,R2",,2,,2,,,\n,"OR R1,R2",,2,,2,0,,\n'
            ',"OR R1,R2",,2,,2,,,\n,"SHLQ #4,R2",,1,,0x10000000,0,0,0\n,LOADB R1,,,,1,,,\n'
            ',"STORE R2,(R1)",0xF03800,1,,,-,-,-\n,"STORE R2,R1",,1,,,1,,\n')
    told = Told("note," + HEADER + rows, "--hex").expect(2)
    page = Page(told.page)
    boxes = {
        0: ("agree", None, ["✓ 1 agrees"]),
        4: ("differ", "op4", ["✗ 1 of 3 differs", "◐ 1 in part", "✓ 1 agrees"]),
        9: ("unread", "op9", ["! 1 not run"]),
        10: ("part", "op10", ["◐ 4 in part"]),
        11: ("none", None, ["– no row yet"]),
        24: ("differ", "op24", ["✗ 1 of 1 differs"]),
        39: ("unread", "op39", ["! 1 not run", "not built"]),
        47: ("unread", "op47", ["! 1 row STORE … not run", "◐ 1 in part"]),
        49: ("unread", "STORE", ["! 1 row STORE … not run"]),
        63: ("absent", None, ["not built"]),
    }
    for opcode, box in boxes.items():
        assert page.boxes[opcode] == box, (opcode, page.boxes[opcode])
    assert page.verdict() == "2 of 13 rows differ, and 3 could not be run.", page.verdict()
    # Rows that differ come first, then those not run, then those in part.
    assert list(page.sections) == ["op4", "op24", "op9", "op39", "STORE", "op10", "op47"], list(page.sections)
    differing, in_part = page.articles("op4")
    assert differing == (f"✗ Row 3 differs: SUB R1,R2 “{note.strip()}” Place Expected Came result 00000005 00000000 "
                         'Before the step: s 00000001, d 00000001 01: "SUB d−s, SUBC d−s−C, SUBQ: C is borrow."'), differing
    assert in_part == "◐ 1 row in part Row 5: what is compared agrees. Not compared: Z, N, C.", in_part
    assert "01: " in page.articles("op24")[0] and "Virtual Jaguar is known to differ here" in page.articles("op24")[0]
    unread = page.articles("op9")[0]
    assert unread.startswith("! Row 6 was not run: AND R1,R2 Column 's': 'x' is not a number"), unread
    assert page.articles("op10") == ["◐ 3 rows in part Rows 7 to 8, 10: what is compared agrees. Not compared: Z, N, C.",
                                     "◐ 1 row in part Row 9: what is compared agrees. Not compared: N, C."]
    assert '1 row more: see <a href="#STORE">' in page.sections["op47"]
    version = (ROOT / "VERSION").read_text().strip()
    assert f"version {version}, made from " in page.fact("Processor") and page.fact("Table").endswith("table.csv")
    assert re.fullmatch(r"\d{1,2} [A-Z][a-z]+ 20\d\d, \d\d:\d\d .*", page.fact("Run")), page.fact("Run")
    assert page.fact("Options") == "--hex" and page.fact("Compared") == "25 cells", page.fact("Compared")
    for state in ("✗ 2 rows differ", "! 3 rows not run", "◐ 6 rows in part", "✓ 2 rows agree"):
        assert f"<b>{state}</b>" in told.page, state
    assert "not run</b> <small>A cell can not be used, or is missing.</small>" in told.page


def verdicts():
    """The first line of a page, which the report has as its last, says how it stands, also of a single row and of none."""
    agrees, in_part, differs, unread = GOOD, '"NEG R2",,1,,-1,,,\n', '"NEG R2",,1,,1,,,\n', "NEG,,1,,1,,,\n"
    for rows, status, verdict in (
        (agrees, 0, "The one row agrees."),
        (differs, 1, "The one row differs."),
        ('"NEG R2",,1,,,,,\n', 2, "The one row could not be run."),
        ("", 2, "No row was run: the table has none below its names."),
        (unread, 2, "The one row could not be run."),
        (unread * 2, 2, "None of the 2 rows could be run."),
        (agrees * 2 + in_part, 0, "All 3 rows agree; 1 of them compares only a part."),
        (agrees + in_part * 2 + unread, 2, "1 of 4 rows could not be run. The other 3 agree; 2 of them compare only a part."),
        (agrees + differs, 1, "1 of 2 rows differs."),
    ):
        told = Told(HEADER + rows).expect(status)
        assert Page(told.page).verdict() == verdict and f"\n{verdict}\nthe page is " in told.out, told.out


def many_rows():
    """A page shows 1,000 rows at most, some of each opcode, and says how many more there are."""
    wrong = "".join(f'"{name} R1,R2",1,{i},,7777,,,\n' for i in range(800) for name in ("ADD", "SUB"))
    wrong += '"NEG R2",,1,,1,,,\n'
    page = Page(Told(HEADER + wrong + '"OR R1,R2",,1,,1,,,\n"OR R1,R2",,1,,1,0,,\n' * 60, "--quiet").expect(1).page)
    counts = {anchor: len(page.articles(anchor)) for anchor in page.sections}
    assert counts == {"op0": 499, "op4": 499, "op8": 1, "op10": 2}, counts
    assert "… and 301 rows more" in page.sections["op0"] and "more" not in page.sections["op8"]
    in_part = page.articles("op10")[0]
    assert in_part.startswith("◐ 60 rows in part Rows 1603, 1605, ") and " and 10 more: " in in_part, in_part


def no_old_page_stays():
    """The page of an earlier run goes before the table is read. One that can not be used leaves a page that says so."""
    for table, sentence in ((HEADER.replace("s,", "colour,"), "mend the columns first"), ("", "the file is empty"),
                            (HEADER + GOOD + '"ADD', "row 3: the table can not be read from here on")):
        told = Told(table).expect(2, sentence)
        assert sentence in re.search(r"<h1 .*</h1>", told.page)[0] and "earlier run" not in told.page, told.page
        assert told.files == ["page.html", "table.csv"], told.files
    with tempfile.TemporaryDirectory() as folder:
        # No table is removed for a page.
        for name, sentence in (("table.csv", b"ends in .html"), ("table.html", b"this is the table itself")):
            page = Path(folder) / name
            page.write_text(HEADER + GOOD)
            done = subprocess.run([*SCRIPT, str(page), "--page", f"{folder}/./{name}"], stdout=subprocess.PIPE,
                                  stderr=subprocess.PIPE)
            assert done.returncode == 2 and sentence in done.stderr and page.read_text() == HEADER + GOOD, done
        # A folder of that name stays, and nothing is left beside it.
        taken = Path(folder) / "taken.html"
        taken.mkdir()
        done = subprocess.run([*SCRIPT, str(page), "--page", str(taken)], stdout=subprocess.PIPE, stderr=subprocess.PIPE)
        assert (done.returncode, done.stdout) == (2, b"") and b"taken.html: the page can not be written there" in done.stderr
        assert sorted(each.name for each in Path(folder).iterdir()) == ["table.csv", "table.html", "taken.html"]
        # A run that is broken off while it waits for its table.
        with subprocess.Popen([*SCRIPT, "-", "--page", str(page)], stdin=subprocess.PIPE, stdout=subprocess.PIPE,
                              stderr=subprocess.PIPE) as running:
            until = time.monotonic() + 30
            while page.exists() and time.monotonic() < until:
                time.sleep(0.005)
            running.kill()
        assert not page.exists(), "the old page stands while the table is read"


TESTS = states_and_blocks, verdicts, many_rows, no_old_page_stays
