"""What is printed of a table: its columns, a line or more for each row, and the sums."""

import mnemonics
from sheets.columns import EXPECT
from sheets.findings import DIFFERS, NOT_RUN, PART

INDENT = "\n             "


def print_columns(columns):
    print("given: " + ", ".join(column.name for column in columns if column.place and not column.expected))
    print("expected: " + ", ".join(column.name[len(EXPECT):] for column in columns if column.expected))


def lines_of(finding):
    """The lines below a row's first."""
    lines = [f"note: {finding.note}"] if finding.note else []
    lines += [bad.line for bad in finding.problems] + [each.line for each in finding.differences]
    if finding.state == DIFFERS:
        lines.append(f"before: {finding.before}")
        if finding.left_out:
            lines.append("not compared: " + ", ".join(finding.left_out))
    return [*lines, *finding.sentences, *finding.hints]


def print_row(finding, quiet):
    """A row; with `quiet` only one that differs or is not run."""
    if quiet and finding.state not in (DIFFERS, NOT_RUN):
        return
    what = finding.instruction
    if finding.state == PART:
        what = f"{what:<20} compared: {', '.join(finding.compared)}; not compared: {', '.join(finding.left_out)}"
    first = f"row {finding.number:<6} {finding.state:<8} {what}".rstrip()
    print(first + "".join(INDENT + line for line in lines_of(finding)))


def print_summary(tallies):
    """A line for each instruction that the table has, then the sums, then the verdict."""
    print(f"\n{'opcode':>6}  {'instruction':<18}{'run':>8}{'agreed':>8}{'in part':>9}{'differed':>10}{'not run':>9}")
    for opcode, tally in enumerate(tallies.opcodes):
        if tally.any:
            print(f"{opcode:>6}  {mnemonics.form(opcode):<18}{tally.run:>8,}{tally.agreed:>8,}{tally.part:>9,}"
                  f"{tally.differed:>10,}{tally.unread + tally.unsure:>9,}")
    absent = tallies.without_rows()
    if absent:
        print("no row yet for the opcodes " + " ".join(map(str, absent)))
    for _, line in tallies.unassigned():
        print(line)
    print(tallies.sums())
    print(f"compared: {tallies.compared()}")
    print(tallies.verdict())
