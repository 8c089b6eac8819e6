"""Commands of gpu, typed as a person would type them, and what is expected of them."""

import os
import subprocess
import sys
from pathlib import Path

ROOT = Path(__file__).resolve().parent.parent
EXAMPLES = ROOT / "examples"
RAM = 4096

# What is typed here is not a part of a larger make.
OUTSIDE = {name: value for name, value in os.environ.items() if name not in ("MAKEFLAGS", "MFLAGS", "MAKELEVEL")}


class Done:
    """What a command printed, and how it ended."""

    def __init__(self, words, status, out, err):
        self.words, self.status, self.out, self.err = words, status, out, err

    def expect(self, status, *parts, out=None):
        """Fails unless it ended so, said each part on either stream, and printed just this on standard output if it is told."""
        told = self.out + self.err
        problem = None
        if self.status != status:
            problem = f"it should end with {status}"
        elif "Traceback" in told:
            problem = "it has a traceback"
        elif out is not None and self.out != out:
            problem = f"standard output should be {out!r}"
        else:
            problem = next((f"'{part}' is not said" for part in parts if part not in told), None)
        if problem:
            sys.exit(f"gpu: {' '.join(map(str, self.words))}: {problem}. It ended with {self.status} and said\n{told}")
        return self


class Typist:
    """A release's command, called in a folder of its own."""

    def __init__(self, home, folder):
        self.home, self.folder, self.count = home, folder, 0

    def gpu(self, *words, given=b""):
        return self.typed([self.home / "gpu", *words], self.folder, given)

    def make(self, *words):
        return self.typed(["make", "--no-print-directory", *words], ROOT)

    def typed(self, words, folder, given=b""):
        self.count += 1
        words = [str(word) for word in words]
        done = subprocess.run(words, cwd=folder, env=OUTSIDE, input=given, stdout=subprocess.PIPE, stderr=subprocess.PIPE,
                              timeout=120)
        return Done(words, done.returncode, done.stdout.decode(), done.stderr.decode())

    def file(self, name, content):
        path = self.folder / name
        path.write_bytes(content if isinstance(content, bytes) else content.encode())
        return path

    def image(self, path):
        """The image of a program file."""
        words = [sys.executable, str(ROOT / "tools" / "image.py"), str(path)]
        return subprocess.run(words, stdout=subprocess.PIPE, stderr=subprocess.DEVNULL, check=True).stdout
