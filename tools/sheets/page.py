"""The page of a table: the verdict, the 64 opcodes as boxes, and the rows to look at. One file that needs nothing else."""

from html import escape
from typing import NamedTuple

from mnemonics import NOT_BUILT, form, mnemonic
from sheets.findings import DIFFERS, NOT_RUN, OK, PART
from sheets.pagerows import anchor, section
from sheets.pagestyle import ABSENT, AGREE, DIFFER, IN_PART, NO_ROW, STYLE, UNREAD
from texts import counted


class Facts(NamedTuple):
    """What was run: the table's name, when, the processor's version, and the options that change what is compared."""
    table: str
    when: str
    version: str
    options: str


# The boxes.

def states_of(opcode, tally):
    """What a box tells of its rows, as kinds and texts, the first of which gives the box its kind."""
    states = []
    if tally.differed:
        states.append((DIFFER, f"✗ {tally.differed:,} of {tally.run:,} {'differs' if tally.differed == 1 else 'differ'}"))
    if tally.unread:
        states.append((UNREAD, f"! {tally.unread:,} not run"))
    if tally.unsure:
        states.append((UNREAD, f"! {counted(tally.unsure, 'row')} {mnemonic(opcode)} … not run"))
    if opcode in NOT_BUILT:
        states.append((ABSENT, "not built"))
    if tally.part:
        states.append((IN_PART, f"◐ {tally.part:,} in part"))
    if tally.agreed:
        states.append((AGREE, f"✓ {tally.agreed:,} {'agrees' if tally.agreed == 1 else 'agree'}"))
    return states or [(NO_ROW, "– no row yet")]


def box(opcode, tally, keys):
    """An opcode. It leads to its rows, if there are any to look at."""
    states = states_of(opcode, tally)
    name = escape(form(opcode)).replace(",", ",<wbr>")
    text = "\n".join(f'<span class="state">{escape(text)}</span>' for _, text in states)
    key = next((key for key in (opcode, mnemonic(opcode)) if key in keys), None)
    tag, to = ("div", "") if key is None else ("a", f' href="#{anchor(key)}"')
    return f'<{tag} class="box {states[0][0]}"{to}><small>{opcode}</small>\n<b>{name}</b>\n{text}</{tag}>'


# The page.

def sums_of(tallies):
    """The rows by their states, which explains the marks as well."""
    kinds = (
        (DIFFERS, DIFFER, "✗", "differ", "Something else came than was expected."),
        (NOT_RUN, UNREAD, "!", "not run", "A cell can not be used, or is missing."),
        (PART, IN_PART, "◐", "in part", "What is compared agrees; not all that the instruction writes is compared."),
        (OK, AGREE, "✓", "agree", "All that the instruction writes is compared."),
    )
    items = []
    for state, kind, mark, text, why in kinds:
        number = tallies.states[state]
        verb = text + "s" * (number == 1 and text in ("differ", "agree"))
        what = f"<b>{mark} {counted(number, 'row')} {verb}</b> <small>{why}</small>"
        items.append(f'<li class="{kind if number else NO_ROW}">{what}</li>')
    return '<ul class="sums">\n' + "\n".join(items) + "\n</ul>"


def facts_of(facts, compared):
    items = [("Table", facts.table), ("Run", facts.when), ("Processor", facts.version)]
    items += [("Options", facts.options)] if facts.options else []
    items += [("Compared", compared)] if compared else []
    return '<dl class="facts">\n' + "\n".join(f"<dt>{name}</dt><dd>{escape(text)}</dd>" for name, text in items) + "\n</dl>"


def document(facts, kind, verdict, body, compared=""):
    """A whole page around its body."""
    return f"""<!DOCTYPE html>
<html lang="en">
<head>
<meta charset="utf-8">
<meta name="viewport" content="width=device-width, initial-scale=1">
<title>{escape(verdict)} {escape(facts.table)}</title>
<style>{STYLE}</style>
</head>
<body>
<h1 class="{kind}">{escape(verdict)}</h1>
{facts_of(facts, compared)}
{body}
</body>
</html>
"""


def page_of(facts, tallies, kept):
    """The page of a table that was run."""
    boxes = "\n".join(box(opcode, tally, kept.groups) for opcode, tally in enumerate(tallies.opcodes))
    most = kept.most_a_group()
    sections = "\n".join(section(key, group, tallies, most) for key, group in kept.in_order())
    unassigned = "".join(f'<p><a href="#{anchor(key)}">{escape(line)}.</a></p>\n' for key, line in tallies.unassigned())
    leads = '<p class="screen">A box with underlined text leads to its rows.</p>\n' if sections else ""
    body = f"""{sums_of(tallies)}
{unassigned}<h2>The 64 opcodes</h2>
{leads}<div class="boxes" id="boxes">
{boxes}
</div>
""" + (f'<h2 class="looked-at">Rows to look at</h2>\n{sections}' if sections else "")
    kind = (AGREE, DIFFER, UNREAD)[tallies.status()]
    return document(facts, DIFFER if tallies.states[DIFFERS] else kind, tallies.verdict(), body, tallies.compared())


def failed_page(facts, sentence):
    """The page of a table that could not be used at all."""
    verdict, *more = sentence.split("\n")
    return document(facts, UNREAD, verdict, "\n".join(f"<p>{escape(line.strip())}</p>" for line in more))
