"""The verbs of `gpu`, and how it ends. The proved programs and the library do the work; a verb reads files and calls them."""

import argparse
import difflib
import importlib
import os
import signal
import sys

import home
from files import Unusable, told

# Each verb is a module of that name, which is only read when it is wanted.
VERBS = ["run", "check", "explain", "show", "kiosk", "table", "log", "image"]
# The name that make's target has.
ALIASES = {"loadcheck": "check"}

STATUSES = """\
gpu ends with a status that a script can read:
  0  in good order: the run answered 0 or 1, the program was admitted, every row agreed
  1  the processor or the check said no: a fault, a program that the check refuses, a row that differs, a damaged line of a log
  2  nothing was done, or not all: a word of the command or a file that can not be used, a refused call, or a program that the
     check refuses before the kiosk runs it
  3  the command is not whole: a part of it is missing or could not be built
"""

REFUSED, NOT_WHOLE = 2, 3


class Parser(argparse.ArgumentParser):
    """A parser whose complaint names the wrong word, and says where the right ones are told."""

    def error(self, message):
        self.exit(REFUSED, f"{self.prog}: {message}\n{home.typed('help', *self.prog.split()[1:])} says what can be written here.\n")


def parser_of(verb):
    """The parser of a verb's words."""
    module = importlib.import_module(verb)
    parser = Parser(prog=f"gpu {verb}", description=module.SUMMARY, epilog=getattr(module, "MORE", None), allow_abbrev=False,
                    formatter_class=argparse.RawDescriptionHelpFormatter)
    module.arguments(parser)
    return parser


def overview():
    lines = [f"The graphics processor of Tom, proved and rebuilt. Version {home.version()}, made from {home.made_from()}.", "",
             "  gpu VERB [WORDS...]", ""]
    lines += [f"  gpu {verb:<11}{importlib.import_module(verb).SUMMARY}" for verb in VERBS]
    lines += ["  gpu help VERB  what can be written behind a verb", "  gpu --version  the version", ""]
    return "\n".join(lines) + "\n" + STATUSES


def help_on(words):
    """`gpu help`, and `gpu help VERB`."""
    if not words:
        print(overview(), end="")
    for word in words:
        print(overview() if word == "help" else parser_of(verb_of(word)).format_help(), end="")
    return 0


def verb_of(word):
    """The verb that a word names."""
    verb = ALIASES.get(word, word)
    if verb in VERBS:
        return verb
    near = difflib.get_close_matches(word.lower(), [*VERBS, "help"], 1)
    is_it = f"is it '{near[0]}'?" if near else f"{home.typed('help')} lists the verbs."
    if os.path.exists(word):
        is_it = f"{home.typed('run', word)} runs that file. {home.typed('help')} lists the verbs."
    raise Unusable(f"'{word}' is no verb: {is_it}")


def nearest_option(parser, word):
    """What is said of a word that is nearly an option; a name with a blank in it comes as two words. argparse has no other list
    of a parser's options than the one that is taken here."""
    options = [option for action in parser._actions for option in action.option_strings if option.startswith("--")]
    near = difflib.get_close_matches("--" + word.lstrip("-\u2013\u2014").lower(), options, 1, 0.7)
    return f": is it {near[0]}?" if near else ". A name that has a blank in it is written in quotation marks"


def tell(who, what):
    """What went wrong, line by line, with the name of the command before it."""
    sys.stdout.flush()
    told("\n".join(f"{who}: {line}" for line in str(what).split("\n")))


def dispatch(words):
    """The status of a whole command."""
    if not words or words[0] in ("help", "--help", "-h"):
        return help_on(words[1:])
    if words[0] in ("--version", "version"):
        if len(words) > 1:
            raise Unusable(f"'{words[1]}' is not understood behind {words[0]}")
        print(f"gpu {home.version()}, made from {home.made_from()}")
        return 0
    verb = verb_of(words[0])
    try:
        parser = parser_of(verb)
        given, more = parser.parse_known_args(words[1:])
        if more:
            parser.error(f"'{more[0]}' is not understood here" + nearest_option(parser, more[0]))
        return importlib.import_module(verb).run(given)
    except (Unusable, home.NotWhole) as what:
        tell(f"gpu {verb}", what)
        return REFUSED if isinstance(what, Unusable) else NOT_WHOLE


def main(words):
    """Runs a command; what went wrong is a sentence on standard error, never a traceback."""
    # A stream that the caller has closed takes whatever is written to it.
    sys.stdout, sys.stderr = (stream or open(os.devnull, "w") for stream in (sys.stdout, sys.stderr))
    for stream in (sys.stdout, sys.stderr):
        stream.reconfigure(errors="replace")
    try:
        status = dispatch(words)
        sys.stdout.flush()
        return status
    except (Unusable, home.NotWhole) as what:
        tell("gpu", what)
        return REFUSED if isinstance(what, Unusable) else NOT_WHOLE
    except KeyboardInterrupt:
        return 128 + signal.SIGINT
    except OSError as error:
        # What could not be written is not tried again at the end. A reader that has gone, as `head`, need not be told.
        os.dup2(os.open(os.devnull, os.O_WRONLY), sys.stdout.fileno())
        if not isinstance(error, BrokenPipeError):
            tell("gpu", f"the answer can not be written ({error.strerror}): make room on the disk, or write it elsewhere")
        return REFUSED
    except Exception as error:
        if home.IS_CLONE:
            raise  # those who look after it are here
        tell("gpu", f"an error of the command itself, {type(error).__name__} ({error}): keep what you typed, and the file, for "
                    "those who look after it")
        return NOT_WHOLE
