#!/usr/bin/env python3
"""Brings the texts of must-fail edits to the spelling of today's Rattle, as port.py leaves them alone. Run after respell.py.

    tools/port/edits.py        rewrites the edits, and names those whose old text does not stand in its file once
"""

import re
from pathlib import Path

ROOT = Path(__file__).resolve().parent.parent.parent


def tight(text):
    """Projections without blanks, and without brackets where they are then one word."""
    text = re.sub(r"(?<=[\w)]) \.(?=[a-z])", ".", text)
    return re.sub(r"(?<=[ (])\((\w+(?:\.[\w]+)+)\)", r"\1", text)


def snake(text):
    return re.sub(r"(?<![\w.'])[a-z]\w*", lambda found: re.sub(r"(?<=[a-z0-9])([A-Z])", lambda big: "_" + big[1].lower(), found[0]), text)


def spelled(text):
    text = re.sub(r"Rattle·(\w+)·(specs|proofs)\.\2", r"Rattle.\1.\2", text)
    text = re.sub(r"Rattle·(\w+)", r"Rattle.\1", text).replace("the-variants", "TheVariants")
    text = re.sub(r"(?<=[{ ])_([-+*/%^<≤≡])_(?=[,}])", r"◌\1◌", text)
    return tight(snake(text))


def stands(path, lines):
    """Whether each old text stands once in what the pairs before it made."""
    crate = path.parent.parent
    body, old = "", ""
    for line in lines:
        if line.startswith("file: "):
            body = (crate / line[6:]).read_text(encoding="utf-8")
        elif line.startswith("old: "):
            old = line[5:]
            if body.count(old) != 1:
                yield old
        elif line.startswith("new: "):
            body = body.replace(old, line[5:], 1)


def main():
    for path in sorted(ROOT.glob("crates/*/must-fail/*.edit")):
        lines = path.read_text(encoding="utf-8").split("\n")
        if not any(line.startswith("file: src/") for line in lines):
            lines = [line[:5] + spelled(line[5:]) if line.startswith(("old: ", "new: ")) else line for line in lines]
            path.write_text("\n".join(lines), encoding="utf-8")
        for old in stands(path, lines):
            print(f"look: {path.relative_to(ROOT)}: does not stand: {old}")


if __name__ == "__main__":
    main()
