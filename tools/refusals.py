"""The entries of docs/REFUSALS.md by their numbers."""

import re
import textwrap


def entries_of(text, number):
    """What the page says of a number, each entry below the heading that it stands under: 0 is both a run's and the check's."""
    found = []
    for section in text.split("\n## ")[1:]:
        heading, _, body = section.partition("\n")
        for entry in re.split(r"\n\n(?=\*\*)", "\n" + body.rstrip())[1:]:
            if entry.startswith(f"**{number}: "):
                found.append(f"{heading}\n\n{spoken(entry)}\n")
    return found


def spoken(entry):
    """An entry without the page's marks, its paragraphs in lines of their own."""
    title, _, rest = entry.partition("\n")
    lines = [title.strip("*")]
    for bullet in re.split(r"^- ", rest, flags=re.MULTILINE)[1:]:
        if bullet.startswith("Example"):
            lines += ["", textwrap.dedent("  " + bullet).rstrip()]
        else:
            lines.append(" ".join(bullet.split()))
    return "\n".join(lines)
