#!/usr/bin/env python3
"""Brings the repository's own definitions and lemmas to the spelling of today's Rattle. Run once, right after port.py, at the top.

    tools/port/respell.py            rewrites the files
    tools/port/respell.py --show     prints the names, old and new

The crate `core` becomes `gpu_core`, as a library of the kit has the old name; port.py had taken its modules for the kit's.

Definitions, fields, constructors and lemmas are written in snake case: what had capitals inside, or dashes. Functions of src/,
types and modules keep their names. A lemma that would then have the name of what it is about gets `_lem` behind it. The names of
proofs of functions end in `_spec`. Texts in comments follow where a name stands there, and so do the must-fail edits and the pages.
"""

import re
import subprocess
import sys
from collections import defaultdict
from pathlib import Path

ROOT = Path(__file__).resolve().parent.parent.parent
# What a name may consist of, beside letters and digits.
INNER = r"[\w'\-+≢≡≤⊥→]"
NAME = rf"(?<!{INNER})([a-z][\w'\-]*)(?!{INNER})"
DECLARED = re.compile(r"\s*(?:abbrev |unfoldable )?(?:pub )?(?:record )?(\+?[a-zμ][\w'\-+]*) +:(?= )(.*)")
# Of a goal that the prover names, and of nothing else.
GOAL = re.compile(r"\s*(?:tie|goal)\.")
# Names bound inside a definition or a lemma.
BOUND = "noSource noDestination not-built same-instruction zero-first none-held is-jump slot-breaker if-zero if-not".split()
# The modules of the crate `core`.
CORE = r"(?:specs\.(?:Core|Machine|Types|declared\.(?:Core|Pending|Activity)|contracts\.Pending)|proofs\.Bytes)\b"
# By the file, what else would fall together.
RENAMED = {"rules/proofs/Reflect.antt": {"inRam": "is_in_ram"}, "rules/proofs/Step.antt": {"is-jump": "is_jump_here"}}
# Lemmas, by the file that declares them: names that would fall together with what they are about.
LEMMAS = {
    "laws/proofs/Core.antt": ["with_mode", "with-flag-register"],
    "reading/proofs/Offsets.antt": ["item-at"],
    "reading/proofs/Marking.antt": ["mark-at"],
    "accesses/proofs/Turn.antt": ["shape-in"],
    "rules/proofs/Exact.antt": ["rule-of"],
    "rules/proofs/Examples.antt": ["start-state"],
    "rules/proofs/Reflect.antt": ["target-of"],
    "block/proofs/Restored.antt": ["activity-bit", "pending-in", "activity-in", "state-from"],
    "passes/proofs/Lowest.antt": ["lowest-from", "lowest-of"],
}


def snake(name):
    """The name in snake case. `getD` is today's `get_or`."""
    name = name.replace("getD", "get_or")
    name = re.sub(r"(?<=[a-z0-9])([A-Z])", lambda found: "_" + found[1].lower(), name)
    return name.replace("-", "_")


def antt_files():
    return sorted(path for folder in ("specs", "proofs") for path in ROOT.glob(f"crates/*/{folder}/**/*.antt"))


def declared():
    """The names to be respelled, each with its new spelling."""
    found = {name: snake(name) for name in BOUND}
    for path in antt_files():
        for line in path.read_text(encoding="utf-8").splitlines():
            match = DECLARED.match(line)
            if match and not GOAL.match(match[2]) and snake(match[1]) != match[1] and match[1][0] != "μ":
                found[match[1]] = snake(match[1])
    return found


def place(path):
    return path.relative_to(ROOT / "crates").as_posix()


def lemmas_of(path, text):
    """The lemmas with `_lem` that a file declares or brings in."""
    found = {}
    for source, names in LEMMAS.items():
        crate, _, module = source.removesuffix(".antt").split("/")
        if place(path) == source:
            found.update({name: snake(name) + "_lem" for name in names})
        for brought in re.findall(rf"use Rattle\.{crate}\.proofs\.{module}\.\{{([^}}]*)\}}", text):
            brought = [name.strip() for name in brought.split(",")]
            found.update({name: snake(name) + "_lem" for name in names if name in brought})
    return found


def respell(text, names, comments):
    """The text with its names respelled. In comments only names with capitals, as other words may have dashes there."""
    pattern = re.compile(NAME)

    def one(found):
        return names.get(found[1], found[1])

    lines = []
    for line in text.split("\n"):
        code, mark, comment = line, "", ""
        match = re.search(comments, line) if comments else None
        if match:
            code, mark, comment = line[: match.start()], match[0], line[match.end() :]
        code = pattern.sub(one, code)
        comment = pattern.sub(lambda found: one(found) if re.search("[A-Z]", found[1]) else found[1], comment)
        lines.append(code + mark + comment)
    return "\n".join(lines)


def falls_together(path, text, names):
    """The names of a file that were two and would be one."""
    words = set(re.findall(NAME, text))
    became = defaultdict(set)
    for word in words:
        became[names.get(word, word)].add(word)
    return [(place(path), old) for old in became.values() if len(old) > 1]


def clauses_of(text, names):
    """Rust's side: names of clauses stand in `ghost use` lines, in what braces hold after requires, ensures and ghost, and in comments."""
    camel = {old: new for old, new in names.items() if re.search("[A-Z]", old)}
    text = respell(text, camel, None)
    dashed = {old: new for old, new in names.items() if old not in camel}

    def inside(found):
        return respell(found[0], dashed, r"//.*")

    text = re.sub(r"(?m)^\s*ghost use .*$", inside, text)
    return re.sub(r"(?ms)^\s*(?:requires|ensures)\*?(?: \w+)? \{.*?\}$", inside, text)


def rename_core():
    """The crate `core` under its new name, in its folder, in crates.txt, and where it is named."""
    subprocess.run(["git", "mv", "crates/core", "crates/gpu_core"], cwd=ROOT, check=True)
    for path in [*ROOT.glob("crates/*/**/*.antt"), *ROOT.glob("crates/*/src/**/*.rt"), *ROOT.glob("crates/*/must-fail/*.edit")]:
        text = path.read_text(encoding="utf-8")
        text = re.sub(rf"\bRattle\.std\.(?={CORE})", "Rattle.gpu_core.", text)
        text = re.sub(r"\bRattle\.core\.", "Rattle.gpu_core.", text)
        text = re.sub(r"(?m)^use core::", "use gpu_core::", text)
        path.write_text(text, encoding="utf-8")
    path = ROOT / "crates.txt"
    lines = path.read_text(encoding="utf-8").splitlines(keepends=True)
    path.write_text("".join(line if line.startswith("#") else re.sub(r"\bcore\b", "gpu_core", line) for line in lines), encoding="utf-8")


def main():
    names = declared()
    if "--show" in sys.argv:
        for old, new in sorted(names.items()):
            print(old, new)
        return
    rename_core()
    faults = []
    for path in antt_files():
        text = path.read_text(encoding="utf-8")
        own = names | lemmas_of(path, text) | RENAMED.get(place(path), {})
        faults += falls_together(path, text, own)
        path.write_text(respell(text, own, r"(?<!\S)-- "), encoding="utf-8")
    for path in sorted(ROOT.glob("crates/*/src/**/*.rt")):
        path.write_text(clauses_of(path.read_text(encoding="utf-8"), names), encoding="utf-8")
    for path in sorted(ROOT.glob("crates/*/must-fail/*.edit")):
        text = path.read_text(encoding="utf-8")
        rust = re.search(r"(?m)^file: src/", text)
        path.write_text(clauses_of(text, names) if rust else respell(text, names, None), encoding="utf-8")
    for path in [ROOT / "README.md", ROOT / "CONTRIBUTING.md", *sorted((ROOT / "docs").glob("*.md"))]:
        text = path.read_text(encoding="utf-8")
        path.write_text(re.sub(r"`[^`\n]+`", lambda found: respell(found[0], names, None), text), encoding="utf-8")
    for path in sorted(ROOT.glob("crates/*/src")):
        subprocess.run(["rt", "fmt"], cwd=path.parent, check=True)
    for where, old in faults:
        print(f"look: {where}: {', '.join(sorted(old))} fall together")


if __name__ == "__main__":
    main()
