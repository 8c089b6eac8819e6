"""Holds docs/map.svg to crates.txt, docs/ARCHITECTURE.md to both, and scripts/map to what it says of itself.

    python3 tests/map.py
"""

import re
import shutil
import subprocess
import sys
import tempfile
import xml.etree.ElementTree as ElementTree
from pathlib import Path

ROOT = Path(__file__).resolve().parent.parent
SVG = "{http://www.w3.org/2000/svg}"
TOOLCHAIN = {"arrayvec", "io"}

# A small repository: lone uses nothing, top is a program, bare has no code, and that top uses low follows from others.
SMALL = """\
# what stands below
low:
lone:

# what stands
# above it: "two" < three
left: low
bare: low
right: low left

# a program
top staticlib: low right bare io
"""
# What is changed in it, and what scripts/map says then.
WRONG = [
    ("bare: low", "bare: low top", "bare uses top, which does not stand above it"),
    ("# a program\n", "", "the group of top has no comment"),
]
CHANGED = [("bare: low", "bare: low left"), ("top staticlib: low right bare io", "top: low right io"), ("lone:", "other:"),
           ("# a program\n", "# the program\n"), ("\n# a program\n", "")]


def tell(fault):
    sys.exit(f"tests: map: {fault}")


class Listed:
    """crates.txt, read by itself: the comment and the crates of each group, and what each crate reaches."""

    def __init__(self, text):
        self.groups = []
        used = {}
        for block in text.split("\n\n"):
            comments = [line[1:].strip() for line in block.splitlines() if line[:1] == "#"]
            crates = [line.split(":") for line in block.splitlines() if line and line[0] != "#"]
            crates = [(head.split()[0], uses) for head, uses in crates]
            if crates:
                self.groups.append((" ".join(comments), [name for name, _ in crates]))
            used.update((name, set(uses.split()) - TOOLCHAIN) for name, uses in crates)
        self.names = list(used)
        self.reach = closure((name, other) for name, others in used.items() for other in others)


def closure(pairs):
    """The pairs, and all that follow from them."""
    found = set(pairs)
    names = {name for pair in found for name in pair}
    for between in names:
        before = [one for one, other in found if other == between]
        after = [other for one, other in found if one == between]
        found |= {(one, other) for one in before for other in after}
    return found


class Box:
    def __init__(self, rectangle):
        self.left, self.top, width, height = (float(rectangle.get(key)) for key in ("x", "y", "width", "height"))
        self.right, self.bottom = self.left + width, self.top + height

    def meets(self, left, top, right, bottom):
        return left < self.right and right > self.left and top < self.bottom and bottom > self.top


class Drawn:
    """A picture, read by itself: the boxes with their kinds, the arrows with the points that they pass, the bands."""

    def __init__(self, path):
        root = ElementTree.parse(path).getroot()
        self.boxes, self.kinds, self.arrows, self.bands = {}, {}, {}, []
        for group in root.iter(SVG + "g"):
            name = group.get("data-crate")
            if name is None:
                continue
            if name in self.boxes or group.findtext(SVG + "text") != name:
                tell(f"{name} has two boxes, or one with another name in it")
            self.boxes[name] = Box(group.find(SVG + "rect"))
            self.kinds[name] = group.get("class")
        for arrow in root.iter(SVG + "path"):
            if arrow.get("data-from"):
                numbers = [float(number) for number in re.findall(r"[\d.]+", arrow.get("d"))]
                self.arrows[arrow.get("data-from"), arrow.get("data-to")] = list(zip(numbers[::2], numbers[1::2]))
        for band in root.findall(f".//{SVG}g[@class='band']"):
            top = float(re.match(r"M\d+ (\d+)H", band.find(SVG + "path").get("d"))[1])
            self.bands.append((top, " ".join(text.text for text in band.findall(SVG + "text"))))


def hold(root):
    """Holds a repository's picture to its crates.txt. Gives both."""
    listed, drawn = Listed((root / "crates.txt").read_text("utf-8")), Drawn(root / "docs" / "map.svg")
    if sorted(drawn.boxes) != sorted(listed.names):
        tell(f"a box for one of {set(drawn.boxes) ^ set(listed.names)} is missing, or is one too many")
    if closure((user, used) for used, user in drawn.arrows) != listed.reach:
        tell("the arrows lead elsewhere than crates.txt")
    for arrow in drawn.arrows:
        if closure(drawn.arrows.keys() - {arrow}) == closure(drawn.arrows):
            tell(f"the arrow {arrow} follows from others")
    if [comment for _, comment in drawn.bands] != [comment for comment, _ in listed.groups] or "" in dict(listed.groups):
        tell("a group has no comment, or its band another one")
    ends = [top for top, _ in drawn.bands[1:]] + [float("inf")]
    for (top, _), end, (_, names) in zip(drawn.bands, ends, listed.groups):
        for name in names:
            if not top < drawn.boxes[name].top < drawn.boxes[name].bottom < end:
                tell(f"{name} does not stand in its band")
    for arrow, points in drawn.arrows.items():
        follow(drawn.boxes, arrow, points)
    for name, box in drawn.boxes.items():
        others = [other for other in drawn.boxes.values() if other is not box]
        if any(box.meets(other.left, other.top, other.right, other.bottom) for other in others):
            tell(f"the box of {name} lies on another")
    return listed, drawn


def follow(boxes, arrow, points):
    """An arrow begins at the lower side of its first box, ends at the upper side of its second, and crosses no box."""
    used, user = boxes[arrow[0]], boxes[arrow[1]]
    (first, start), (last, end) = points[0], points[-1]
    if not (used.left < first < used.right and start == used.bottom and user.left < last < user.right and end == user.top):
        tell(f"the arrow {arrow} does not lead from the one box to the other")
    for (one_x, one_y), (other_x, other_y) in zip(points, points[1:]):
        if one_x != other_x and one_y != other_y:
            tell(f"the arrow {arrow} goes aslant")
        span = min(one_x, other_x), min(one_y, other_y), max(one_x, other_x), max(one_y, other_y)
        for name, box in boxes.items():
            if box.meets(*span):
                tell(f"the arrow {arrow} passes through {name}")


def page_agrees(listed, drawn):
    """The page shows the picture and names no other crates; its table has each once, with the kind that is drawn."""
    page = (ROOT / "docs" / "ARCHITECTURE.md").read_text("utf-8")
    if not re.search(r"^!\[[^]]+\]\(map\.svg\)$", page, re.MULTILINE):
        tell("docs/ARCHITECTURE.md does not show map.svg")
    ways = re.findall(r"^- .*(?:\n  .*)*", page[:page.index("| Crate |")], re.MULTILINE)
    for name in re.findall(r"`(\w+)`", "".join(ways)):
        if name not in listed.names:
            tell(f"docs/ARCHITECTURE.md leads by {name}, which crates.txt has not")
    table = re.search(r"\| Crate \| What it holds \|\n\|---\|---\|\n((?:\|.*\n)+)", page)[1]
    rows = [row.split("|")[1:3] for row in table.splitlines()]
    names = [name for cell, _ in rows for name in re.findall(r"`(\w+)`", cell)]
    if sorted(names) != sorted(listed.names):
        tell("the table of docs/ARCHITECTURE.md has not each crate of crates.txt, once")
    for kind, words in {"bare": "no code:", "program": "programs:"}.items():
        said = {name for cell, text in rows if text.strip().startswith(words) for name in re.findall(r"`(\w+)`", cell)}
        if said != {name for name in drawn.kinds if drawn.kinds[name] == kind}:
            tell(f"the table says '{words}' of other crates than the picture")


def run(root, *words):
    done = subprocess.run([root / "scripts" / "map", *words], stdout=subprocess.PIPE, stderr=subprocess.PIPE, text=True,
                          timeout=60)
    if done.returncode not in (0, 1) or "Traceback" in done.stderr:
        tell(f"scripts/map ends with {done.returncode}: {done.stderr}")
    return done.returncode == 0, done.stdout + done.stderr


class Small:
    """A small repository, with scripts/map in it."""

    def __init__(self, root):
        self.root = root
        for folder in ("scripts", "docs"):
            (root / folder).mkdir()
        for name in ("map", "layout.py"):
            shutil.copy(ROOT / "scripts" / name, root / "scripts")
        for name in ("low", "lone", "left", "bare", "right", "top", "other"):
            source = root / "crates" / name / "src"
            source.mkdir(parents=True)
            code = "// no fn here\n" if name == "bare" else "// a function\npub fn f() {}\n"
            (source / ("main.rt" if name == "top" else "lib.rt")).write_text(code, "utf-8")

    def run(self, text, *words):
        (self.root / "crates.txt").write_text(text, "utf-8")
        return run(self.root, *words)

    def hold(self):
        """What it draws is right, what has changed is told, and so is a fault."""
        for old, new in CHANGED:
            self.run(SMALL)
            if not self.run(SMALL, "--check")[0]:
                tell("a picture just drawn is refused")
            changed = SMALL.replace(old, new)
            good, said = self.run(changed, "--check")
            if good or said != "map: docs/map.svg is not the picture of crates.txt: scripts/map draws it anew\n":
                tell(f"with '{new}' for '{old}' the old picture gives {said!r}")
            self.run(changed)
            hold(self.root)
        for old, new, wanted in WRONG:
            good, said = self.run(SMALL.replace(old, new))
            if good or said != f"map: crates.txt: {wanted}\n":
                tell(f"with '{new}' for '{old}' scripts/map says {said!r}")
        self.run(SMALL)
        _, drawn = hold(self.root)
        if set(drawn.arrows) != {("low", "left"), ("low", "bare"), ("left", "right"), ("right", "top"), ("bare", "top")}:
            tell(f"the small repository's arrows are {sorted(drawn.arrows)}")
        if drawn.kinds != {**dict.fromkeys(("low", "lone", "left", "right"), "library"), "bare": "bare", "top": "program"}:
            tell(f"the small repository's kinds are {drawn.kinds}")


def main():
    good, said = run(ROOT, "--check")
    if not good:
        tell(said.strip())
    listed, drawn = hold(ROOT)
    page_agrees(listed, drawn)
    with tempfile.TemporaryDirectory() as folder:
        Small(Path(folder)).hold()
    count = len(drawn.arrows)
    print(f"tests: the map has the {len(drawn.boxes)} crates of crates.txt, and {count} arrows that all others follow from")


if __name__ == "__main__":
    main()
