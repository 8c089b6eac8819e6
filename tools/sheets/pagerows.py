"""The rows to look at on the page of a table: a section for each opcode, in which each row is a block."""

from html import escape

from mnemonics import form, mnemonic
from sheets.findings import DIFFERS
from sheets.pagestyle import DIFFER, IN_PART, UNREAD
from texts import counted


def anchor(key):
    """The name of a group's place on the page."""
    return "nameless" if key is None else f"op{key}" if isinstance(key, int) else key


def table_of(differences):
    """What was expected, and what came."""
    lines = "\n".join(f'<tr><th scope="row">{escape(each.name)}</th><td>{escape(each.expected)}</td>'
                      f"<td>{escape(each.came)}</td></tr>" for each in differences)
    names = "<thead><tr><th>Place</th><th>Expected</th><th>Came</th></tr></thead>"
    return f"<table>\n{names}\n<tbody>\n{lines}\n</tbody>\n</table>\n"


def article(finding):
    """A row that differs or was not run."""
    differs = finding.state == DIFFERS
    note = f'<p class="note">“{escape(finding.note)}”</p>\n' if finding.note else ""
    facts = [f"Column{escape(bad.line[len('column'):])}" for bad in finding.problems]
    if differs:
        facts.append(f"Before the step: {escape(finding.before)}")
        if finding.left_out:
            facts.append(f"Not compared: {escape(', '.join(finding.left_out))}")
    reasons = [escape(text) for text in (*finding.sentences, *finding.hints)]
    return f"""<article class="{DIFFER if differs else UNREAD}">
<h4>{'✗' if differs else '!'} Row {finding.number} {'differs' if differs else 'was not run'}: \
<code>{escape(finding.instruction or 'no instruction')}</code></h4>
{note}<div class="halves">
{half((table_of(finding.differences) if differs else '') + paragraphs(facts))}{half(paragraphs(reasons))}</div>
</article>"""


def paragraphs(texts):
    return "\n".join(f"<p>{text}</p>" for text in texts)


def half(content):
    """One side of a block, if there is anything on it."""
    return f"<div>\n{content}\n</div>\n" if content else ""


def part_article(missing, numbers):
    """The rows of an opcode that leave the same places out."""
    return (f'<article class="{IN_PART}">\n<h4>◐ {counted(numbers.count, "row")} in part</h4>\n'
            f"<p>{'Row' if numbers.count == 1 else 'Rows'} {escape(numbers.text())}: what is compared agrees. "
            f"Not compared: {escape(', '.join(missing))}.</p>\n</article>")


def title_of(key):
    if key is None:
        return "Rows that name no instruction"
    return f"{key} &nbsp;{escape(form(key))}" if isinstance(key, int) else f"{key} …, whose opcode can not be told"


def section(key, group, tallies, most):
    """The rows to look at of an opcode."""
    articles = [article(finding) for finding in group.findings[:most]]
    more = group.count - len(articles)
    articles += [part_article(missing, numbers) for missing, numbers in group.parts.items()]
    lines = []
    if isinstance(key, int) and tallies.opcodes[key].unsure:
        name = mnemonic(key)
        lines.append(f'<p>{counted(tallies.opcodes[key].unsure, "row")} more: see <a href="#{name}">{name} …</a></p>')
    if more:
        lines.append(f"<p>… and {counted(more, 'row')} more</p>")
    return (f'<section id="{anchor(key)}">\n<h3>{title_of(key)} <a class="back" href="#boxes">to the boxes</a></h3>\n'
            + "\n".join(articles + lines) + "\n</section>")
