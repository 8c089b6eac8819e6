"""Holds scripts/quotations to what it says of itself, on a small repository of its own.

    python3 tests/quotations.py
"""

import shutil
import subprocess
import sys
import tempfile
from pathlib import Path

ROOT = Path(__file__).resolve().parent.parent

PAPER = """\
# A paper

A stop gives 1; a fault is not met. **Budget 0** gives
0 or, when stopped, 1. "Quick n" means a field.

| no. | meaning |
|---|---|
| 31 | RAM length |

It starts again.

1. The first rule.
2. The other rule.
- An item.
"""

# A file of specs/ and the lines of the list, with which all is well.
GOOD = [
    ('-- "A stop gives 1"', ["A stop gives 1"]),
    ('-- "Budget 0 gives 0\n-- or, when stopped, 1."', ["Budget 0 gives 0 or, when stopped, 1."]),
    ('-- "A stop […] when stopped, 1."', ["A stop […] when stopped, 1."]),
    ('-- "31 […] RAM length" and "\'Quick n\' means"', ["31 […] RAM length", "'Quick n' means"]),
    ('key = bytes "a -- \\" -- "A stop gives 1"', ["A stop gives 1"]),
    ("-- none\nkey = bytes \"answer=\"", []),
]
# The same, and what is told first: a made-up quotation, one that no longer stands in specs/, one that is listed twice, and one
# that does not end.
WRONG = [
    ('-- "A stop gives 2"', ["A stop gives 1"], "crates/a/specs/A.antt:1: 'A stop gives 2' is no line of docs/quotations.txt"),
    ('-- plain\n--\n-- words "A stop\n-- gives 2"', [], "crates/a/specs/A.antt:3: 'A stop gives 2' is no line of docs/quotations.txt"),
    ("-- none", ["A stop gives 1"], "docs/quotations.txt:3: 'A stop gives 1' is quoted nowhere"),
    ('-- "A stop"', ["A stop", "A stop"], "docs/quotations.txt:4: 'A stop' is listed twice"),
    ('-- "A stop\nkey = 1\n-- gives 1"', ["A stop"], "crates/a/specs/A.antt:1: a quotation does not end"),
]
# These are listed, and the paper does not have them: other words, a part of a word, the wrong order, two paragraphs, two rules, a
# rule and an item.
UNTRUE = ["A stop gives 2", "A stop gives 1.", "a stop gives 1", "fault is not me", "tarts again", "a fault […] A stop", "A stop […] RAM length"]
UNTRUE += ["The first […] other rule.", "The other […] item."]


def tell(fault):
    sys.exit(f"tests: quotations: {fault}")


class Repository:
    """A repository with one file of specs/ and the list."""

    def __init__(self, root):
        self.root = Path(root)
        for folder in ("scripts", "docs", "crates/a/specs"):
            (self.root / folder).mkdir(parents=True)
        shutil.copy(ROOT / "scripts" / "quotations", self.root / "scripts")
        (self.root / "paper").write_text(PAPER, encoding="utf-8")

    def holds(self, comment, lines, *words):
        """Writes the comment and the list and runs the tool: whether it finds all well, and what it says."""
        (self.root / "crates/a/specs/A.antt").write_text(comment + "\n", encoding="utf-8")
        (self.root / "docs/quotations.txt").write_text("".join(line + "\n" for line in ["# a list", "[paper A]"] + lines), encoding="utf-8")
        return self.run(*words)

    def run(self, *words):
        done = subprocess.run([self.root / "scripts/quotations", *words], stdout=subprocess.PIPE, stderr=subprocess.PIPE, text=True, timeout=60)
        if done.returncode not in (0, 1):
            tell(f"{words} ends with {done.returncode}: {done.stderr}")
        return done.returncode == 0, done.stderr


def main():
    count = 0
    with tempfile.TemporaryDirectory() as root:
        repository = Repository(root)
        paper = f"paper A={root}/paper"
        for comment, lines in GOOD:
            for words in ([], [paper]):
                good, said = repository.holds(comment, lines, *words)
                if not good:
                    tell(f"{comment!r} is refused: {said}")
                count += 1
            # The list that the tool writes itself is one that it finds well.
            if not repository.run("--write", paper)[0] or not repository.run(paper)[0]:
                tell(f"{comment!r}: the list written is refused")
            count += 1
        for comment, lines, wanted in WRONG:
            good, said = repository.holds(comment, lines)
            if good or said.splitlines()[0] != f"quotations: {wanted}":
                tell(f"{comment!r} with {lines} gives {said!r}, not {wanted!r}")
            count += 1
        for line in UNTRUE:
            good, said = repository.holds(f'-- "{line}"', [line], paper)
            if good or said != f"quotations: docs/quotations.txt:3: '{line}' does not stand in paper A\n":
                tell(f"{line!r} gives {said!r}")
            good, said = repository.run("--write", paper)
            if good or said != f"quotations: crates/a/specs/A.antt:1: '{line}' stands in none of the papers given\n":
                tell(f"{line!r} is written: {said!r}")
            count += 2
        good, said = repository.holds('-- "A stop"', ["A stop"], f"paper B={root}/paper")
        if good or "paper A is not among the papers given" not in said:
            tell(f"a list whose paper is not given: {said!r}")
    print(f"tests: {count + 1} quotations, true and false ones, are told apart")


if __name__ == "__main__":
    main()
