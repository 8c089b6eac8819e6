"""Holds scripts/prove and scripts/follow to what they say of themselves, with an rt that only prints.

    python3 tests/progress.py
"""

import os
import re
import shutil
import subprocess
import sys
import tempfile
from pathlib import Path

ROOT = Path(__file__).resolve().parent.parent

CRATES = """\
# a comment
low:
beside: low

middle: low io
library staticlib: middle
program: beside middle io
"""

# What rt prints and writes in a crate's folder, as far as scripts/prove asks. A crate in the file `broken` is not proved, one in
# `slow` takes two seconds, and one in `changed` is proved again.
RT = '''\
#!/usr/bin/env python3
import sys, time
from pathlib import Path
order = ["low", "beside", "middle", "library", "program"]
uses = {"low": [], "beside": ["low"], "middle": ["low"], "library": ["middle"], "program": ["beside", "middle"]}
root, here = (Path("."), None) if sys.argv[1] == "all" else (Path("../.."), Path.cwd().name)
listed = lambda name: (root / name).read_text().split() if (root / name).exists() else []
with open(root / "calls", "a") as calls:
    print(here, *sys.argv[1:], file=calls)
said = sys.stderr if sys.argv[1] == "run" else sys.stdout
wanted = set(order) if here is None else {here}
for name in reversed(order):
    wanted |= {used for used in uses[name] if name in wanted}
for name in order:
    out = root / "crates" / name / "out"
    if name not in wanted:
        continue
    if out.exists() and name not in listed("changed"):
        print(f"crate {name}: modules loaded=5 checked=0", "logic=proved functions=1", sep="\\n", file=said, flush=True)
        continue
    time.sleep(2 * (name in listed("slow")))
    if name in listed("broken"):
        print(f"fn {name}::f: not proved", f"crate {name}: modules loaded=0 checked=5", "logic=not-proved", sep="\\n", file=said)
        sys.exit(1)
    print(f"fn {name}::f: proved", "library std: modules loaded=9 checked=0", f"crate {name}: modules loaded=0 checked=5",
          "logic=proved functions=1", sep="\\n", file=said, flush=True)
    out.mkdir(parents=True, exist_ok=True)
if sys.argv[1] == "run":
    print("what the program writes")
if here:
    (root / "crates" / here / "out" / (here if sys.argv[1] == "run" else f"lib{here}.a")).write_text(here)
'''

FIRST = "proving 4 crates before the first use: about a minute\n"


def tell(fault):
    sys.exit(f"tests: progress: {fault}")


class Repository:
    """A repository of five crates, with the scripts and that rt."""

    def __init__(self, root):
        self.root = root
        shutil.copytree(ROOT / "scripts", root / "scripts")
        (root / "crates.txt").write_text(CRATES, "ascii")
        (root / "tools").mkdir()
        (root / "tools" / "rt").write_text(RT, "ascii")
        (root / "tools" / "rt").chmod(0o755)
        for line in CRATES.splitlines():
            if re.match("[a-z]", line):
                (root / "crates" / line.split(":")[0].split()[0]).mkdir(parents=True)

    def expect(self, words, status, wanted, changed="", broken="", slow=""):
        """Runs scripts/prove, which must end so and say this."""
        for name, crates in (("changed", changed), ("broken", broken), ("slow", slow)):
            (self.root / name).write_text(crates, "ascii")
        environment = dict(os.environ, PATH=f"{self.root}/tools:{os.environ['PATH']}", FOLLOW_SECONDS="1" if slow else "20")
        done = subprocess.run([self.root / "scripts" / "prove", *words], env=environment, stdout=subprocess.PIPE,
                              stderr=subprocess.PIPE, text=True, timeout=60)
        if (done.returncode, done.stdout, timeless(done.stderr)) != (status, "", wanted):
            tell(f"{words} ends with {done.returncode} and says {done.stdout}{done.stderr}and not {wanted}")


def timeless(text):
    """What was said, with the time left out, and only once where it was told several times over."""
    return re.sub(r"(\.\.\. )0:\d\d (minutes.*\n)(?:\.\.\. .*\n)*", r"\1\2", text)


def follow(command, *words):
    """What scripts/follow passes on, and what it says."""
    done = subprocess.run(["bash", "-c", f"({command}) | FOLLOW_SECONDS=1 {ROOT}/scripts/follow {' '.join(words)}"],
                          stdout=subprocess.PIPE, stderr=subprocess.PIPE, text=True, timeout=60)
    return done.stdout, timeless(done.stderr)


def main():
    with tempfile.TemporaryDirectory() as folder:
        repository = Repository(Path(folder))
        program = ["check", "program"]
        names = ["low", "beside", "middle", "program"]
        lines = [f"[{number} of 4] {name} is proved\n" for number, name in enumerate(names, 1)]
        said = "".join(["crate low: modules loaded=5 checked=0\n", "logic=proved functions=1\n", "fn beside::f: not proved\n",
                        "crate beside: modules loaded=0 checked=5\n", "logic=not-proved\n"])
        repository.expect(program, 1, FIRST + lines[0] + said, broken="beside")
        # Several are proved side by side, and then the program is built.
        if not re.fullmatch(r"None all check --jobs [1-8]\nprogram run\n", (repository.root / "calls").read_text("ascii")):
            tell("several crates are proved otherwise")
        # Some is proved by now; and no line comes for a second.
        rest = "proving 3 crates before the first use: less than a minute\n"
        repository.expect(program, 0, rest + lines[1] + "... minutes\n" + "".join(lines[2:]), slow="middle")
        if (repository.root / "target" / "bin" / "program").read_text("ascii") != "program":
            tell("the program is not in target/bin")
        repository.expect(program, 0, "")
        # Of a crate that was proved before there is no word, but it counts.
        changed = "proving what has changed, at most 2 crates: less than a minute\n"
        repository.expect(program, 0, changed + lines[2], changed="middle")
        # A static library is built by `rt lib`.
        (repository.root / "calls").unlink()
        shutil.rmtree(repository.root / "crates" / "library" / "out")
        one = "proving 1 crate before the first use: less than a minute\n"
        repository.expect(["staticlib", "library"], 0, one + "[3 of 3] library is proved\n")
        if (repository.root / "calls").read_text("ascii") != "library lib\n":
            tell("a static library is built otherwise")
        if (repository.root / "target" / "staticlib" / "liblibrary.a").read_text("ascii") != "library":
            tell("the static library is not in target/staticlib")
        changed = "proving what has changed, at most 3 crates: less than a minute\n"
        repository.expect(["staticlib", "library"], 0, changed + "[1 of 3] low is proved\n", changed="low")
    passed, said = follow("printf 'rt: a\\nother\\nrt: b\\npart'; sleep 1.5; printf ' of a line\\nlast'", "5")
    if (passed, said) != ("rt: a\nother\nrt: b\npart of a line\nlast", "... minutes, 2 of 5 done\n"):
        tell(f"scripts/follow passes on {passed!r} and says {said!r}")
    print("tests: scripts/prove says how many crates are done of how many, and nothing where all are")


if __name__ == "__main__":
    main()
