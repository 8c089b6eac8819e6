"""Tests of what the table runner says of a row: what it does not compare, the papers' sentences, its note, the hints."""

import re

from model import ROWS
from tablerun import GOOD, HEADER, ROOT, Told, as_csv, base_rows, comparison, grounds, mnemonics, table_of

DOCUMENT = (ROOT / "docs" / "INSTRUCTIONS.md").read_text("utf-8")


def examples_of_the_document():
    """The tables that docs/INSTRUCTIONS.md shows, whose rows all compare all, also with the blanks that they have there; and
    the report that it shows."""
    shown = [block for block in DOCUMENT.split("\n\n") if block.startswith("    ")]
    blocks = [block.replace("\n    ", "\n").strip() for block in shown]
    tables = [block + "\n" for block in shown + blocks if block.lstrip().startswith("instruction,")]
    assert len(tables) == 4, tables
    for table in tables:
        rows = table.count("\n") - 1
        Told(table).expect(0, f"{rows} row{'s' if rows > 1 else ''} run: {rows} agreed, 0 differed")
    report = next(block for block in blocks if block.startswith("row "))
    told = Told(f'note,{HEADER},{GOOD},"ADD R1,R2",1,2,,3,,,\nthe highest bit goes out,"SHLQ #1,R2",,80000000,,0,1,0,1\n')
    assert report == "\n".join(told.expect(1).rows().values()), told.out


# Rows that compare only a part.

PLACES = ("instruction,s,d,R14,pending,running,accumulator,ram F03800,expect result,expect R2,expect A2,expect Z,expect N,"
          "expect C,expect remainder,expect accumulator,expect pending,expect counter,expect answer,expect steps,expect bank,"
          "expect running,expect divide mode,expect ram F03800,expect ram F03804")
FLAGS = {"expect Z": "-", "expect N": "-", "expect C": "-"}


def parts_are_told():
    """For each kind of instruction a row that names all that it writes, and one that leaves each of these out."""
    rows, wanted = [], []

    def row(left_out, instruction, expected, **before):
        before = {name.replace("_", " "): cell for name, cell in before.items()}
        rows.append({"instruction": instruction, **before, **expected})
        wanted.append(left_out)

    def both(instruction, expected, **before):
        """All of it; then without each of the expected cells; then without the flags."""
        row([], instruction, {**expected, **FLAGS}, **before)
        for name in expected:
            others = {each: cell for each, cell in expected.items() if each != name}
            place = re.sub(r"^[RA]2$", "result", name[len("expect "):])
            row([place], instruction, {**others, **FLAGS}, **before)
        if expected:
            row(["Z", "N", "C"], instruction, expected, **before)

    for name in ("MOVE R1,R2", "MOVEFA R1,R2"):
        both(name, {"expect result": 7}, s=7)
    both("MOVE R1,R2", {"expect R2": 7}, s=7)
    both("MOVETA R1,R2", {"expect A2": 7}, s=7)
    both("RESMAC R2", {"expect result": 7}, accumulator=7)
    both("DIV R1,R2", {"expect result": 2, "expect remainder": 1}, s=3, d=7)
    both("IMACN R1,R2", {"expect accumulator": 21}, s=3, d=7)
    both("JR T,#4", {"expect pending": "0xF0300A"})
    both("JUMP (R1)", {"expect pending": "0xF03800"}, s="0xF03800")
    both("NOP", {"expect counter": "0xF03800"}, pending="0xF03800")
    both("NOP", {})
    both("BTST #0,R2", {}, d=1)
    both("LOAD (R1),R2", {"expect result": 5}, s="0xF03800", ram_F03800=5)
    both("STORE R2,(R1)", {"expect ram F03800": 5}, s="0xF03800", d=5)
    both("STORE R2,(R14+1)", {"expect ram F03804": 5}, R14="0xF03800", d=5)
    both("STORE R2,(R14+32)", {"expect ram F03800": 5}, R14="0xF03780", d=5)
    both("STORE R2,(R14+R1)", {"expect ram F03804": 5}, s=4, R14="0xF03800", d=5)
    both("STORE R2,(R1)", {"expect divide mode": 1}, s="0xF0211C", d=1)
    both("STORE R2,(R1)", {"expect running": 0}, s="0xF02114")
    # The bank, and flags that are stored: those that change must be named, and so must the others.
    row([], "STORE R2,(R1)", {"expect bank": 1, "expect Z": 1, "expect N": 0, "expect C": 0}, s="0xF02100", d="0x4001")
    row(["bank"], "STORE R2,(R1)", {"expect Z": 1, "expect N": 0, "expect C": 0}, s="0xF02100", d="0x4001")
    row(["bank", "Z", "N", "C"], "STORE R2,(R1)", {"expect result": "0x4000"}, s="0xF02100", d="0x4000")
    # What is stored is there already.
    row([], "STORE R2,(R1)", FLAGS, s="0xF03800", d=5, ram_F03800=5)
    row([], "STORE R2,(R1)", FLAGS, s="0xF02114", d=1)
    # A fault and a stopped machine leave everything; a stop by this step does not.
    row([], "LOAD (R1),R2", {"expect answer": 13}, s="0xF03801")
    row([], "LOADB (R1),R2", {"expect answer": 11}, s="0xF03801")
    row([], "ADD R1,R2", {"expect answer": 1}, running=0)
    row(["result", "Z", "N", "C"], "ADD R1,R2", {"expect steps": 0}, running=0)
    row(["running", "Z", "N", "C"], "STORE R2,(R1)", {"expect answer": 1}, s="0xF02114")

    table = table_of(PLACES, rows)
    whole = wanted.count([])
    told = Told(table).expect(0, f"{len(rows)} rows run: {whole} agreed, {len(rows) - whole} agreed in part, 0 differed")
    for number, (left_out, text) in enumerate(zip(wanted, told.rows().values()), 2):
        state = f"row {number:<6} {'part' if left_out else 'ok':<8} "
        assert text.startswith(state), (left_out, text)
        assert text.partition("not compared: ")[2] == ", ".join(left_out), (left_out, text)
    assert "part" not in Told(table, "--quiet").expect(0).out.partition("\n\nopcode")[0]


# What is told of a row that differs.

def sentences_are_told():
    """A row of each opcode that differs is told with its own note and with the sentence that the document has for it. A fault
    of a built one is decided by other sentences."""
    names, *rows = base_rows()
    wrong, counter, answer = {}, names.index("expect counter"), names.index("expect answer")
    for row in rows:
        text = row[names.index("instruction")]
        word = int(text.split()[0], 16) if text.startswith("0x") else mnemonics.words_of(text, 0xF03000)[0]
        opcode = word >> 10
        if opcode not in wrong and row[counter] and (opcode not in ROWS or row[answer] in ("", "0", "1")):
            wrong[opcode] = [*row[:counter], 3, *row[counter + 1:]]
    told = Told(as_csv([names, *wrong.values()]), "--quiet").expect(1, f"{len(wrong)} of {len(wrong)} rows differ.")
    lines = ([cell.strip() for cell in line.split("|")] for line in DOCUMENT.split("\n"))
    rests_on = {int(cells[1]): cells[8] for cells in lines if len(cells) == 11 and cells[1].isdigit()}
    assert rests_on.keys() == ROWS.keys() and wrong.keys() == set(range(64)), (wrong.keys(), rests_on.keys())
    for (opcode, row), text in zip(wrong.items(), told.rows().values()):
        assert f"\n             note: {row[names.index('note')]}\n" in text, text
        sentence = rests_on.get(opcode, '"Opcodes 39, 40, 42, 45, 46, 48, 54 and 63 are not built."')
        paper = "" if sentence.startswith("000: ") else "01: "
        assert f"\n             {paper}{sentence}" in text, text


def further_sentences():
    """Where the instruction's own sentence does not decide, another one does; a fault's number is explained."""
    columns = "remark,instruction,s,d,pending,comment,expect result,expect Z,expect C,expect counter,expect answer"
    chip = grounds.CHIP_REGISTERS
    cases = (
        ({"instruction": "NOP", "expect answer": 15}, "15 (JR, JUMP, MOVEI or MOVE PC while a jump is pending), got 0"),
        ({"instruction": "AND R1,R2", "expect Z": 0}, grounds.FLAGS_FOLLOW),
        ({"instruction": "SHRQ #1,R2", "d": 1, "expect C": 0}, grounds.SHIFTED_OUT),
        ({"instruction": "JR T,#4", "expect counter": "0xF0300A"}, grounds.JUMPS_WAIT),
        ({"instruction": "NOP", "pending": "0xF03800", "expect counter": "0xF03002"}, grounds.JUMPS_WAIT),
        ({"instruction": "STORE R2,(R1)", "s": "0xF02100", "d": 1, "expect Z": 0}, chip[0xF02100]),
        ({"instruction": "LOAD (R1),R2", "s": "0xF02114", "expect result": 0}, chip[0xF02114]),
        ({"instruction": "0x2022", "d": 1, "expect result": -1}, grounds.FIELD_NOT_ZERO),
        ({"instruction": "ADD R1,R2", "remark": "mine", "comment": "and\nmine", "expect result": 5}, "note: mine; and mine\n"),
        ({"instruction": "ADD R1", "remark": "not run", "expect result": 5}, "note: not run\n"),
    )
    rows = Told(table_of(columns, [row for row, _ in cases])).expect(2).rows()
    for number, (_, part) in enumerate(cases, 2):
        assert part in rows[number], (part, rows[number])
    # Only where it is needed: SUB's own sentence decides its C.
    told = Told(HEADER + '"SUB R1,R2",2,1,0,-1,0,1,0\n').expect(1, "C is borrow.")
    assert told.text.count("01: ") == 1, told.text


def faults_sentences():
    """Where the answer differs, the sentences of its numbers are told, and the instruction's own only if it has written
    something. A row that is not run has none."""
    columns = ("instruction,counter,s,d,pending,running,expect result,expect counter,expect pending,expect answer,"
               "expect steps")
    fault = {number: f'"{meaning}"' for number, meaning in comparison.ANSWERS.items()}
    own = '"LOAD, STORE: address in a register"; "no flag. Only longs."'
    load = {"instruction": "LOAD (R1),R2", "s": "0xF03800"}
    cases = (
        ({**load, "s": "0xF03801", "expect result": 0}, [fault[13]]),
        ({"instruction": "STORE R2,(R1)", "s": "0xF04000", "expect steps": 1}, [fault[14], grounds.A_FAULT]),
        ({"instruction": "STORE R2,(R14+1)", "expect result": 5}, [fault[14], grounds.AS_BEFORE]),
        ({"instruction": "NOP", "counter": "0xF04000", "expect counter": "0xF04002"}, [fault[12], grounds.AS_BEFORE]),
        ({"instruction": "0x9801", "counter": "0xF03FFE", "expect answer": 0}, [fault[12]]),
        ({"instruction": "MOVE PC,R2", "pending": "0xF03800", "expect answer": 0}, [fault[15]]),
        ({"instruction": "JR NZ,#1", "pending": "0xF03800", "expect pending": "none"}, [fault[15], grounds.AS_BEFORE]),
        ({**load, "s": "0xF04001", "expect answer": 14}, [fault[14], fault[13], grounds.ORDER]),
        ({**load, "expect answer": 13}, [fault[13]]),
        ({**load, "expect answer": 99}, [grounds.NO_SUCH_FAULT]),
        ({**load, "expect answer": 13, "expect result": 5}, [fault[13], own]),
        ({"instruction": "LOADB (R1),R2", "expect answer": 0}, [fault[11], grounds.NO_SUCH_OPCODE]),
        ({"instruction": "0x2022", "d": 1, "expect result": -1}, [fault[11], grounds.FIELD_NOT_ZERO, grounds.AS_BEFORE]),
        ({"instruction": "ADD R1,R2", "running": 0, "expect answer": 0, "expect steps": 1}, [grounds.ORDER]),
        ({"instruction": "STORE R2,(R1)", "s": "0xF02114", "expect answer": 0},
         [own, grounds.CHIP_REGISTERS[0xF02114]]),
        ({"instruction": "ADD R1,R32", "expect result": 5}, []),
        ({"instruction": "ADD R1,R2"}, []),
    )
    told = Told(table_of(columns, [row for row, _ in cases])).expect(2)
    rows = told.rows()
    for number, (row, sentences) in enumerate(cases, 2):
        got = re.findall(r"^ +01: (.*)$", rows[number], re.MULTILINE)
        assert got == sentences, (row, got, rows[number])
    assert "answer: expected no fault, got 13 (address not a multiple of 4)" in rows[2], rows[2]
    unread = re.findall(r'<article class="unread">.*?</article>', told.page, re.DOTALL)
    assert len(unread) == 2 and "01:" not in "".join(unread), unread


def sentences_are_the_papers():
    """What grounds.py has in quotation marks stands in docs/quotations.txt, which is held to the papers; so do the faults'
    meanings."""
    known = (ROOT / "docs" / "quotations.txt").read_text("utf-8")
    told = [grounds.NO_SUCH_OPCODE, grounds.FIELD_NOT_ZERO, grounds.FLAGS_FOLLOW, grounds.SHIFTED_OUT, grounds.JUMPS_WAIT,
            grounds.A_FAULT, grounds.NO_SUCH_FAULT, grounds.AS_BEFORE, grounds.ORDER, *grounds.CHIP_REGISTERS.values()]
    faults = [meaning for number, meaning in comparison.ANSWERS.items() if number > 1]
    for quotation in re.findall(r'"([^"]*)"', " ".join(told)) + faults:
        assert quotation in known, quotation


def hints():
    """A difference that is Virtual Jaguar's is named as one; another is not."""
    hint = "Virtual Jaguar is known to differ"
    header = "instruction,s,d,C,expect result,expect Z,expect N,expect C,expect remainder\n"
    theirs = ('"SHLQ #4,R2",,1,,0x10000000,0,0,0,', '"ADDC R1,R2",1,-1,1,1,0,0,0,', '"MULT R1,R2",1,1,,1,0,1,,',
              '"DIV R1,R2",2,7,,3,,,,0xFFFFFFFF', '"DIV R1,R2",0,7,,7,,,,', '"SHRQ #32,R2",,1,,1,0,0,1,')
    others = ('"SHLQ #4,R2",,1,,0x20000000,0,0,0,', '"ADDC R1,R2",1,1,1,4,0,0,0,', '"ADD R1,R2",1,1,,3,,,,',
              '"DIV R1,R2",2,7,,4,,,,1')
    rows = list(Told(header + "\n".join(theirs + others) + "\n").expect(1, " 10 differed").rows().values())
    assert [hint in row for row in rows] == [True] * len(theirs) + [False] * len(others), rows


def decimal_numbers():
    """Seven or eight digits without a mark, before the step or where a row differs, may have been meant as hexadecimal."""
    said = "80000000 was read as decimal; write 0x80000000 if it is hexadecimal"
    columns = "instruction,s,d,counter,note,#mine,expect result,expect R5,expect answer,expect Z"
    shift = {"instruction": "SHLQ #1,R2", "expect result": 0}
    rows = (
        ({**shift, "d": "80000000"}, [said]),
        ({**shift, "d": 1, "expect result": "80000000"}, [said]),
        ({"instruction": "ADD R1,R2", "s": "80000000", "d": " 80000000 ", "expect result": "1000000"},
         [said, said.replace("80000000", "1000000")]),
        # It is marked, has too few or too many digits for one, is no number of the table, or stands where the row agrees.
        ({**shift, "d": "0x80000000", "expect result": 3}, []),
        ({**shift, "d": "800000"}, []),
        ({**shift, "d": "2147483649"}, []),
        ({**shift, "d": "-80000000"}, []),
        ({**shift, "d": 1, "note": "80000000", "#mine": "80000000", "expect answer": "00000013"}, []),
        ({"instruction": "MOVEI #80000000,R5", "expect R5": "80000000", "expect Z": 1}, []),
    )
    table = table_of(columns, [row for row, _ in rows])
    told = Told(table).expect(1, f" {len(rows)} differed; 0 not run")
    for text, (row, wanted) in zip(told.rows().values(), rows):
        assert re.findall(r"^ +(\d+ was read as .*)$", text, re.MULTILINE) == wanted, (row, text)
    assert told.page.count(said) == 3, told.page
    assert "read as decimal" not in Told(table, "--hex").text


TESTS = (examples_of_the_document, parts_are_told, sentences_are_told, further_sentences, faults_sentences,
         sentences_are_the_papers, hints, decimal_numbers)
