"""Texts as messages have them."""

# As much of a text as is repeated where it can not be read.
SHOWN = 40


def cut(text):
    """A text as a message repeats it: on one line, and not at any length."""
    text = " ".join(text.split())
    return text if len(text) <= SHOWN else text[:SHOWN] + "…"


def printable(text):
    """A line as it may be shown on a terminal, which obeys some characters."""
    return "".join(c if c.isprintable() else "?" for c in text.expandtabs())


def counted(number, name):
    """A number of things in words."""
    return f"{number:,} {name}{'' if number == 1 else 's'}"
