"""Files as people have them: a sentence for one that can not be read, and the text of one whatever its code of letters."""

import difflib
import os
import sys
from contextlib import contextmanager, suppress
from pathlib import Path

STANDARD_INPUT = "-"


class Unusable(Exception):
    """A file, or a word of the command, that can not be used. Says which, what is wrong and what to do."""


@contextmanager
def opened(path):
    """A file to be read as bytes; `-` is standard input. One that can not be read has its sentence."""
    try:
        if path == STANDARD_INPUT:
            if sys.stdin is None:
                raise Unusable("standard input is closed: name a file")
            if sys.stdin.isatty():
                told("type or paste the text, then press Enter and Ctrl and D together")
            yield sys.stdin.buffer
        else:
            with open(path, "rb") as file:
                yield file
    except FileNotFoundError:
        raise Unusable(f"{path}: there is no such file" + nearest(path))
    except IsADirectoryError:
        raise Unusable(f"{path}: this is a folder: name a file that is in it")
    except (OSError, ValueError) as error:
        raise Unusable(f"{path}: can not be read ({getattr(error, 'strerror', None) or error})")


def read_bytes(path, most):
    """The bytes of a file, of which there may be at most so many."""
    with opened(path) as file:
        data = file.read(most + 1)
    if len(data) > most:
        raise Unusable(f"{path}: has more than {most:,} bytes, so it is another kind of file: see that the name is right")
    if not data:
        raise Unusable("nothing came on standard input: name a file" if path == STANDARD_INPUT else
                       f"{path}: the file is empty: copy it again, or name another")
    return data


def write_whole(path, text):
    """Writes a file under another name first, so that nobody ever finds half of it."""
    draft = f"{path}.{os.getpid()}.new"
    try:
        with open(draft, "w", encoding="utf-8", errors="replace") as file:
            file.write(text)
        os.replace(draft, path)
    except OSError:
        with suppress(OSError):
            os.unlink(draft)
        raise


def nearest(path):
    """What is said of a name that is nearly that of a file."""
    path = Path(path)
    try:
        names = [each.name for each in path.parent.iterdir()]
    except OSError:
        return ": see that the folder and the name are right"
    near = difflib.get_close_matches(path.name, names, 1, 0.7)
    return f": is it {path.parent / near[0]}?" if near else ": see that the name is right"


def decoded(data):
    """The text of a file: UTF-8, UTF-16 with a mark, or a Western code page. Line ends become line feeds."""
    if data[:2] in (b"\xff\xfe", b"\xfe\xff"):
        text = data.decode("utf-16", "replace")
    else:
        try:
            text = data.decode("utf-8-sig")
        except UnicodeDecodeError:
            text = data.decode("cp1252", "replace")
    return text.replace("\r\n", "\n").replace("\r", "\n")


def is_text(data):
    """Whether a file holds text: no control characters but tabs and line ends."""
    if data[:2] in (b"\xff\xfe", b"\xfe\xff"):
        data = data.decode("utf-16", "replace").encode("utf-8")
    return not any(byte < 32 and byte not in b"\t\n\f\r" or byte == 127 for byte in data)


def told(line):
    """A line on standard error, where what was done is told, so that the answer stands alone on standard output."""
    print(line, file=sys.stderr, flush=True)
