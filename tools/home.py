"""Where the parts of the command stand: the proved programs, the library, the pages.

There are two homes. In a clone the programs are proved and built when they are wanted. A release has them, and needs neither
prover nor compiler.
"""

import shlex
import shutil
import subprocess
import sys
from pathlib import Path

from processor import load

ROOT = Path(__file__).resolve().parent.parent
IS_CLONE = (ROOT / "crates.txt").exists()
EXAMPLES = ROOT / "examples"
DOCS = ROOT / "docs"

# The image that is taken where none is named.
DEFAULT_IMAGE = EXAMPLES / "card.words"


class NotWhole(Exception):
    """A part of the command is missing, or could not be built."""


def typed(*words):
    """A command as it can be typed here: with `gpu` where it is on the path, else as it was called, which is mostly `./gpu`."""
    on_path = shutil.which("gpu")
    is_this = on_path is not None and Path(on_path).resolve() == ROOT / "gpu"
    called = "gpu" if is_this else sys.argv[0] if sys.argv[0].endswith("/gpu") else "./gpu"
    text = " ".join(map(shlex.quote, [called, *map(str, words)]))
    return f'"{text}"' if "'" in text else f"'{text}'"


def version():
    """The version's number."""
    return part(ROOT / "VERSION").read_text("ascii").strip()


def made_from():
    """The commit that a release was made from; in a clone there is none."""
    commit = ROOT / "COMMIT"
    return commit.read_text("ascii").strip() if commit.exists() else "a clone"


def build(words):
    """Builds a part in a clone. What it says comes on standard error."""
    if shutil.which("rt") is None:
        raise NotWhole("this is a clone, whose programs are proved before they run, and rt, the prover's command, is not on this "
                       "machine: README.md says where it comes from. A release needs no prover")
    try:
        done = subprocess.run(words, cwd=ROOT, stdout=subprocess.DEVNULL)
    except OSError as error:
        raise NotWhole(f"{words[0]} does not start: {error.strerror}")
    if done.returncode != 0:
        raise NotWhole(f"'{' '.join(words)}' failed; the reason stands above")


def part(path):
    """A part that must be there."""
    if not path.exists():
        raise NotWhole(f"{path} is missing: unpack the release again, or install it again")
    return path


def programs(*names):
    """The proved programs of these names."""
    if IS_CLONE:
        build(["scripts/prove", "check", *names])
    return [str(part((ROOT / "target" / "bin" if IS_CLONE else ROOT / "bin") / name)) for name in names]


def library():
    """The library with gpu_run and gpu_check."""
    if IS_CLONE:
        build(["make", "--no-print-directory", "target/libgpu.so.0"])
    return str(part(ROOT / ("target" if IS_CLONE else "lib") / "libgpu.so.0"))


def processor(path=None):
    """The step of the library, or of another one."""
    path = path or library()
    try:
        return load(path)
    except (OSError, AttributeError):
        raise NotWhole(f"{path}: the processor is not there, or can not be loaded")


def kiosk():
    """The kiosk's program, examples/kiosk.c."""
    if IS_CLONE:
        build(["make", "--no-print-directory", "target/kiosk"])
    return str(part(ROOT / ("target" if IS_CLONE else "bin") / "kiosk"))


def page(name):
    """The text of a page for people."""
    return part(DOCS / name).read_text("utf-8")


def output(program, given):
    """What a program writes, given bytes on its standard input."""
    try:
        done = subprocess.run([program], input=given, stdout=subprocess.PIPE)
    except OSError as error:
        raise NotWhole(f"{program} does not start: {error.strerror}")
    if done.returncode != 0:
        raise NotWhole(f"{program} ended with {done.returncode}")
    return done.stdout
