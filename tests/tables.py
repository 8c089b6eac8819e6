"""Tests of the table runner, tools/table.py: what it says of good, wrong and unreadable tables.

    python3 tests/tables.py

That docs/vectors/base.csv is what the model says is tested beside this, by tests/basetable.py. What is told of a row is
tested in tests/tablereport.py, and the page in tests/tablepage.py; both are called from here.
"""

import random
import subprocess
from concurrent.futures import ThreadPoolExecutor

import tablepage
import tablereport
from basetable import spelt
from model import ROWS, decode
from tablerun import BASE, GOOD, HEADER, SCRIPT, Told, as_csv, base_rows, mnemonics, table_of

# Cells that no column takes, or not every one.
NASTY = ["", " ", "x", "-1", "4294967296", "0x", "$", "h", "1.5", "1e9", "FFFF", "=A1+1", "#NAME?", "\u2212", "é", "–",
         "TRUE", "0x1FFFFFFFF", "none", "ADD", "ADD R1", "JR NZ,", "LOAD (R14+),R1", "MOVEI #,R1", "9801 0000", "R1,R2", "(",
         "9" * 5000, "0x" + "F" * 5000, "two\nlines"]


# Tables that can be run.

def base_agrees():
    """Every row of base.csv agrees and compares all, and nothing changes that a row does not name. Each built opcode has 20
    rows or more. It is the table that is run where none is named."""
    names, *rows = base_rows()
    cells = sum(1 for row in rows for name, cell in zip(names, row) if name.startswith("expect ") and cell)
    told = Told(None, "--quiet").expect(0, f"{len(rows):,} rows run: {len(rows):,} agreed, 0 differed; 0 not run",
                                        f"compared: {cells:,} cells\n", f"All {len(rows):,} rows agree.")
    assert "docs/vectors/base.csv, since no table was named" in told.errors, told.errors
    counts = told.counts()
    assert all(counts[opcode][0] >= 20 for opcode in ROWS), counts
    tablepage.all_agree(told.page, len(rows))
    Told(BASE.read_text("utf-8"), "--quiet", "--whole").expect(0, "agreed, 0 differed; 0 not run", "whether all else stayed")
    return len(rows)


def each_wrong_cell_is_found():
    """One wrong number in each expected column: that row and that column are named, and no other."""
    rows = base_rows()
    header = rows[0]
    wanted = [i for i, name in enumerate(header) if name.startswith("expect ")]
    wrong = {}
    for column in wanted:
        at = next(i for i in range(1, len(rows)) if rows[i][column] and i not in wrong)
        old = rows[at][column]
        rows[at][column] = {"0": "1", "1": "0", "none": "5"}.get(old, "3")
        wrong[at] = header[column][len("expect "):]
    told = Told(as_csv(rows), "--quiet").expect(1, f" {len(wrong)} differed; 0 not run")
    found = told.rows()
    assert list(found) == sorted(at + 1 for at in wrong), found.keys()
    for at, name in wrong.items():
        told = found[at + 1]
        assert told.startswith(f"row {at + 1:<6} DIFFERS") and f"{name}: expected" in told, told


def whole_sees_other_changes():
    """A row that names only the result agrees in part; with --whole the flags and the counter, which change too, are told.
    With --whole a row compares all, whatever it names."""
    table = "instruction,s,d,expect result\n" + '"ADD R1,R2",1,0xFFFFFFFF,0\n'
    Told(table).expect(0, "compared: result; not compared: Z, N, C", "The one row agrees in the part that it compares.")
    Told(table, "--whole").expect(1, "Z: expected 0 as before, got 1", "counter: expected 00F03000 as before, got 00F03002")
    Told("instruction,expect counter\nNOP,0xF03002\n", "--whole").expect(0, "1 row run: 1 agreed, 0 differed")


def formats():
    """The ways in which spreadsheets save the same table, and the ways to write a number."""
    table = HEADER + GOOD
    semicolons = ('Instruction;S;D;c;EXPECT Result;expect z;Expect N;expect C;;\r\n'
                  '"ADD R1,R2";1;$ffffffff;0;0h;1;0;1;;\r\n'
                  ';;;;;;;;;\r\n'
                  '\r\n')
    for data in (
        table.encode(),
        table.replace("\n", "\r").encode(),
        b"\xef\xbb\xbf" + semicolons.encode(),
        b"sep=;\r\n" + semicolons.encode(),
        ("\r\n" + semicolons.replace(";", "\t")).encode("utf-16"),
        b"note,instruction,d,expect result,expect Z,expect N,expect C\nqualit\xe9,NEG R3,-1,1,0,0,1\n",
        b'expect result,note,d,#mine,word,expect Z,expect N,expect C\n0xFFFFFFFE,"two\nlines",1,x,0x3003,0,1,-\n',
    ):
        Told(data).expect(0, "1 row run: 1 agreed")
    bare = "word,s,d,expect result\n0022,FF,1,100\n0022,-10,20,0x10\n"
    Told(bare, "--hex").expect(0, "2 rows run: 0 agreed, 2 agreed in part")
    # Blanks before a quotation mark, as in text that was copied from a page; and a table of one column.
    blanks = HEADER.replace(",", ", ") + GOOD.replace(",1", ", 1")
    blanks = "".join(f"    {line}\n" for line in blanks.split("\n"))
    Told(blanks).expect(0, "1 row run: 1 agreed", "8 columns with commas between")
    Told("instruction\nNOP\n").expect(2, "table.csv: 1 column\n", "there is nothing to compare")
    Told("word,s,d,expect result\n5E41,1,-3,-2\n" "67Eh,,,\n").expect(2, "row 3", "'word'")


# Flags.

def flags_in_words():
    """TRUE, FALSE, and a dash for unchanged under an expected flag; before the step a dash is told to belong there."""
    columns = "instruction,s,d,Z,C,running,bank,expect result,expect Z,expect N,expect C,expect bank"
    adds = {"instruction": "ADD R1,R2", "s": 1, "d": -1, "expect result": 0}
    good = [{**adds, "Z": "FALSE", "expect Z": "TRUE", "expect N": "false", "expect C": "True"},
            {**adds, "bank": "TRUE", "running": "TRUE", "expect Z": 1, "expect N": "–", "expect C": 1, "expect bank": "TRUE"}]
    for dash in "-\u2010\u2011\u2012–—\u2015\u2212":
        good.append({"instruction": "AND R1,R2", "C": "TRUE", "s": 1, "d": 1, "expect result": 1, "expect Z": dash,
                     "expect N": dash, "expect C": dash, "expect bank": dash})
    Told(table_of(columns, good)).expect(0, f"{len(good)} rows run: {len(good)} agreed, 0 differed")
    bad = [({**adds, "C": "–", "expect Z": 1}, "column 'C': '–' means unchanged, and belongs under 'expect C'"),
           ({**adds, "expect Z": "–"}, "Z: expected 0 as before, got 1"),
           ({**adds, "expect C": "–", "C": "TRUE", "expect Z": "FALSE"}, "Z: expected 0, got 1"),
           ({**adds, "expect Z": "WAHR"}, "column 'expect Z': 'WAHR' is neither 0 nor 1"),
           ({**adds, "Z": "2"}, "column 'Z': '2' is neither 0 nor 1"),
           ({**adds, "expect result": "–"}, "column 'expect result': '–' may stand only under an expected flag"),
           ({**adds, "d": "TRUE"}, "column 'd': 'TRUE' is not a number")]
    rows = Told(table_of(columns, [row for row, _ in bad])).expect(2).rows()
    for number, (_, part) in enumerate(bad, 2):
        assert part in rows[number], (part, rows[number])


# Rows that can not be read.

def bad_cells():
    """A cell that can not be read is told by row and column, and the other rows are run."""
    bad = (
        ('"ADD R1,R2",1,FFFF,0,0,1,0,1', "d"),
        ('"ADD R1,R2",1,1,2,0,1,0,1', "C"),
        ('"ADD R1,R2",1,1,0,4294967296,0,0,0', "expect result"),
        ('"ADD R1,R2",1,1,0,,,,', "expect"),
        ('"ADD R1",1,1,0,2,0,0,0', "instruction"),
        ("ADD R1,R2,1,1,0,2,0,0,0", "instruction"),
        ("41,1,1,0,2,0,0,0", "instruction"),
        (",1,1,0,2,0,0,0", "instruction"),
        (f"{'9' * 5000},1,1,0,2,0,0,0", "instruction"),
        ('"ADDQ #1,R2",1,1,0,2,0,0,0', "s"),
        ('"ADD R2,R2",1,2,0,2,0,0,0', "d"),
    )
    told = Told(HEADER + GOOD + "".join(cells + "\n" for cells, _ in bad) + GOOD)
    rows = told.expect(2, "2 rows run: 2 agreed", f"{len(bad)} not run",
                       f"{len(bad)} of {len(bad) + 2} rows could not be run. The other 2 agree.").rows()
    for number, (_, column) in enumerate(bad, 3):
        assert rows[number].startswith(f"row {number:<6} NOT RUN") and f"column '{column}'" in rows[number], rows[number]
        assert len(rows[number]) < 500, rows[number]
    # The last of them: what to do with two numbers for one register.
    assert "column 's' in this row, and has another number: leave one of the two cells empty" in rows[len(bad) + 2], rows
    Told("instruction,ram F03000,expect counter\nNOP,1,0xF03002\n").expect(2, "row 2", "column 'ram F03000'")
    Told("instruction,,expect counter\nNOP,1,0xF03002\n").expect(2, "row 2", "column 'number 2'")


def unread_rows_count_for_their_mnemonic():
    """A row that can not be read counts as not run for the opcode or the mnemonic that it names; what names none is counted
    apart, and a mnemonic that is nearly right is only suggested."""
    rows = (GOOD + '"ADD R1",1,1,,2,,,\n' + '"add R1,R2",x,1,,2,,,\n'
            + '"LOAD (R14+,R2",,,,1,,,\n' + '"9801 0000",,,,1,,,\n' + '"ADDD R1,R2",1,1,,2,,,\n' + "22,1,1,,2,,,\n")
    told = Told(HEADER + rows).expect(
        2, "1 row run: 1 agreed, 0 differed; 6 not run", "2 rows name no instruction, and count for no opcode",
        "1 row LOAD … not run, whose opcode can not be told: counted for each of 41, 43, 44, 58, 59", "; is it ADD?")
    counts = told.counts()
    assert counts[0] == [1, 1, 0, 0, 2], counts
    assert counts[mnemonics.MOVEI] == [0, 0, 0, 0, 1], counts
    assert all(counts[opcode] == [0, 0, 0, 0, 1] for opcode in (41, 43, 44, 58, 59)), counts
    assert len(counts) == 7, counts
    absent = told.out.partition("no row yet for the opcodes ")[2].partition("\n")[0].split()
    assert not {"0", "38", "41", "59"} & set(absent) and "4" in absent, absent
    tablepage.unread_are_told(told.page)


def bad_columns():
    """Each column that is not known is told by its name, and nothing is run."""
    bad = (("colour", "no column has this name"), ("expect rsult", "is it 'expect result'?"),
           ("result", "call the column 'expect result'"), ("R32", "no column"), ("ram F03802", "multiple of 4"),
           ("ram F04000", "multiple of 4"), ("S", "the same as the column 's'"), ("expect word", "no column"),
           ("x" * 5000, "no column"))
    told = Told(HEADER.replace("\n", "".join(f",{name}" for name, _ in bad) + "\n") + GOOD)
    lines = told.expect(2, "nothing was run", "begins with #").errors.split("\n")
    assert told.out == "" and len(lines) == len(bad) + 3, lines
    for (name, advice), line in zip(bad, lines[1:]):
        assert f"row 1, column '{name[:40]}" in line and advice in line and len(line) < 200, line
    Told("s,d,expect result\n1,2,3\n").expect(2, "'instruction'")
    Told("\n,,\n").expect(2, "empty")


def spreadsheets_own_files():
    """A file that is no CSV is told so, by its name or by what it holds; CSV under any other name is read."""
    advice = "is a spreadsheet's own file: in the spreadsheet choose 'Save as' or 'Download', take CSV, and name that file"
    for name, data in (("mine.XLSX", HEADER.encode()), ("mine.ods", HEADER.encode()), ("mine.csv", b"PK\x03\x04\x14\x00"),
                       ("mine.csv", b"\xd0\xcf\x11\xe0\xa1\xb1")):
        told = Told(data, name=name).expect(2, name, advice)
        assert advice.replace("'", "&#x27;") in told.page, told.page
    Told(HEADER + GOOD, name="mine.xlsx.txt").expect(0)
    Told((HEADER + GOOD).encode("utf-16-le")).expect(2, "this is no text", "take CSV")


def nothing_confuses_it():
    """Whatever stands in the cells, every row is told of, without a traceback."""
    dice = random.Random(1)
    header = ["instruction", "s", "d", "R5", "A7", "Z", "bank", "counter", "pending", "ram F03800", "expect result",
              "expect pending", "expect answer", "expect s", "expect ram F03FFC", "expect Z", "comment"]
    rows = [[dice.choice(NASTY + ["NOP", "0022", "JR Z,$F03010"] * 9)] + [dice.choice(NASTY) for _ in header[1:]]
            for _ in range(500)]
    filled = sum(1 for row in rows if any(cell.strip() for cell in row))
    told = Told(as_csv([header] + rows))
    assert told.status == 2 and len(told.rows()) == filled, (told.status, len(told.rows()), filled)
    told.expect(2, " run:", "not run")
    noise = bytes(dice.randrange(256) for _ in range(5000))
    for data in (noise, b"\x00" * 100, b"\xff\xfe\x00", HEADER.encode() + b"\x00,1\n", HEADER.encode() + noise):
        Told(data).expect(2)


# The program.

def other_failures():
    """What is missing is told, and by its status."""
    missing = Told(HEADER + GOOD, "--library", "/nowhere/libgpu.so").expect(3, "gpu table: /nowhere/libgpu.so: the processor")
    assert "the processor is not there" in missing.page
    Told(HEADER + GOOD, "--page", "/nowhere/page.html").expect(2, "/nowhere/page.html")
    done = subprocess.run([*SCRIPT, "/nowhere/table.csv"], stdout=subprocess.PIPE, stderr=subprocess.PIPE, text=True)
    assert (done.returncode, done.stdout) == (2, "") and "gpu table: /nowhere/table.csv: there is no such file" in done.stderr
    with subprocess.Popen([*SCRIPT, "-"], stdin=subprocess.PIPE, stdout=subprocess.PIPE, stderr=subprocess.PIPE) as running:
        running.stdout.close()
        running.stdin.write(BASE.read_bytes())
        running.stdin.close()
        errors = running.stderr.read().decode()
        assert running.wait(60) == 2 and errors.count("\n") == 1 and "standard input" in errors, errors


def mnemonics_both_ways():
    """Each built word, spelt by the model's table, is read as that word and written as that text."""
    words = [[w] + [0x5678, 0x1234] * (ROWS[w >> 10][0] == "MOVEI") for w in range(65536) if decode(w)]
    for each in words:
        text = spelt(each)
        assert mnemonics.words_of(text, 0xF03000) == each and mnemonics.text_of(each) == text, text
    # Document 001, section 3.2.6.1, and a jump without a condition; then a JR by the address of its target.
    vectors = {"CC,": 0b00100, "CS,": 0b01000, "EQ,": 0b00010, "mi,": 0b11000, "NE, ": 0b00001, "PL,": 0b10100,
               "HI,": 0b00101, "T,": 0b00000, "": 0b00000}
    for name, bits in vectors.items():
        assert mnemonics.words_of(f"jump {name}(R5)", 0) == [52 << 10 | 5 << 5 | bits], name
    assert mnemonics.words_of("JR NE,$F0300A", 0xF03000) == [53 << 10 | 4 << 5 | 1]
    return len(words)


def main():
    tests = (base_agrees, mnemonics_both_ways, each_wrong_cell_is_found, whole_sees_other_changes, formats, flags_in_words,
             bad_cells, unread_rows_count_for_their_mnemonic, bad_columns, spreadsheets_own_files, nothing_confuses_it,
             other_failures, *tablereport.TESTS, *tablepage.TESTS)
    # Nearly all of the time is that of starting the runner.
    with ThreadPoolExecutor(4) as pool:
        rows, words, *_ = pool.map(lambda test: test(), tests)
    print(f"tables: {rows:,} rows of docs/vectors/base.csv agree and compare all; {words:,} words are read and written "
          "alike; wrong, unreadable and partial rows are told, on the page too")


if __name__ == "__main__":
    main()
