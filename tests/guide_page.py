"""Types each command that docs/GUIDE.md shows behind a $, and holds what a person sees to the lines that the page shows.

    python3 tests/guide_page.py [FOLDER]      in a clone, by default this one, or in the folder of a release

A last line of three dots stands for whatever else comes.
"""

import re
import shlex
import subprocess
import sys
import textwrap
from pathlib import Path

ROOT = Path(__file__).resolve().parent.parent
def shown(text):
    """The commands of the page, each with the lines that should be seen."""
    for body in re.findall(r"^ *```\n(.*?)^ *```$", text, re.MULTILINE | re.DOTALL):
        command, *lines = textwrap.dedent(body).splitlines()
        if not command.startswith("$ ./gpu "):
            sys.exit(f"guide: '{command}' is no command of gpu")
        yield command[2:], lines


def mentioned(text):
    """The commands that stand within a sentence."""
    return [command for command in re.findall(r"`(\./gpu [^`]*)`", " ".join(text.split())) if "FILE" not in command]


def typed(command, folder):
    """What a person sees who types a command: both streams, in the order in which they come."""
    return subprocess.run(shlex.split(command), cwd=folder, stdin=subprocess.DEVNULL, stdout=subprocess.PIPE,
                          stderr=subprocess.STDOUT, text=True, timeout=600)


def hold(command, lines, folder):
    done = typed(command, folder)
    seen = done.stdout.splitlines()
    if lines[-1] == "...":
        lines = lines[:-1]
        rest, seen = seen[len(lines):], seen[:len(lines)]
        if not rest:
            sys.exit(f"guide: {command} prints nothing where the page has three dots")
    # The page shows a refusal where the answer is one; every other command ends in good order.
    refused = any(re.fullmatch(r"answer=(?![01]$)\d+", line) for line in lines)
    if seen != lines or done.returncode != int(refused):
        sys.exit(f"guide: {command} ends with {done.returncode} and prints\n" + "\n".join(seen) + "\nand the page shows\n"
                 + "\n".join(lines))


def main():
    folder = Path(sys.argv[1]) if len(sys.argv) > 1 else ROOT
    text = (folder / "docs" / "GUIDE.md").read_text(encoding="utf-8")
    commands = list(shown(text))
    if len(commands) < 5:
        sys.exit("guide: there are too few commands")
    for command, lines in commands:
        hold(command, lines, folder)
    for command in mentioned(text):
        verb = shlex.split(command)[1]
        if typed(f"./gpu help {verb}", folder).returncode != 0:
            sys.exit(f"guide: the page speaks of '{command}', and there is no such verb")
    print(f"guide: {len(commands)} commands print what the page shows")


if __name__ == "__main__":
    main()
