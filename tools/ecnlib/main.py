"""ecn: what the proved programs cannot do themselves. It runs them on traces, shows a trace, makes one from a CSV file,
copies one with no line break in its label, saves what is left of a damaged one, draws a table, answers an offer, replays
a link's reports through the circuit breaker, puts many traces into one table or on one page, takes a trace
apart, and writes and reads ECN reports.

Every count and every verdict is a proved program's or the proved library's; the script moves bytes and draws. As a
file's name `-` is standard input or output. Exit status: 0 all is well; 1 a block of a trace, or what was given, is
refused; 2 a read or a write failed, a program is missing, or the arguments are wrong.
"""
import argparse
import difflib
import importlib
import os
import re
import sys
from typing import NoReturn

from . import endings, programs
from .common import FAILED, Ended, fill_streams, printing, tell
from .layer import version
from .library import package

COMMANDS = ("table", "look", "make", "label", "salvage", "plot", "answer", "breaker", "summary", "check", "records", "split", "forms", "report", "rtcp", "page")
BY_LIBRARY = ("plot", "answer", "breaker", "summary", "records", "split", "report", "rtcp", "page")  # they run no program


class Version(argparse.Action):
    """Prints the version, and where the library and a program of it are found."""

    def __call__(self, parser, namespace, values, option=None) -> None:
        print(f"ecn {version()}")
        flasknib = package()
        print(f"library: {flasknib.library_path if flasknib else 'none'}")
        try:
            print(f"programs: {os.path.dirname(programs.program('ecntable', None))}")
        except Ended:
            print("programs: none")
        parser.exit()


class Parser(argparse.ArgumentParser):
    def print_help(self, file=None) -> None:
        print(self.format_help(), end="", file=file)  # argparse itself passes over a write that fails

    def error(self, message: str) -> NoReturn:
        """With the first example of the help, which says what to type."""
        example = re.search(rf"^    ({re.escape(self.prog)} \S.*)$", self.description or "", re.MULTILINE)
        super().error(f"{message}; for example: {example[1] if example else 'ecn table night1.trace -o night1.csv'}; {self.prog} --help says more")

    def parsed(self, words: list) -> argparse.Namespace:
        """What was typed, with a sentence on words that are too many."""
        options, left = self.parse_known_args(words)
        if left:
            options.parser.error(too_many(options.parser, left[0]))
        return options


def too_many(parser: argparse.ArgumentParser, word: str) -> str:
    """What to say of a word that a command does not take."""
    if word.startswith("-") and word != "-":
        own = [option for action in parser._actions for option in action.option_strings]
        near = "".join(f", did you mean {name}?" for name in difflib.get_close_matches(word, own, 1))
        return f"{parser.prog} has no option {word}{near}"
    if any(action.nargs == "+" for action in parser._actions):
        return f"{word} stands apart from the other files: files stand together, before or after the options"
    return f"{parser.prog} takes one file at a time, and {word} is one too many"


def arguments(words: list) -> "Parser":
    """Those of the command that is named, which alone is loaded; where none is, of all."""
    if not words:
        raise Ended(FAILED, "say what to do, as: ecn table night1.trace -o night1.csv; ecn --help lists the commands")
    if not words[0].startswith("-") and words[0] not in COMMANDS:
        near = "".join(f"did you mean ecn {name}? " for name in difflib.get_close_matches(words[0], COMMANDS, 1))
        raise Ended(FAILED, f"there is no command {words[0]}; {near}ecn --help lists the commands")
    parser = Parser(prog="ecn", description=__doc__, formatter_class=argparse.RawDescriptionHelpFormatter)
    parser.add_argument("--version", action=Version, nargs=0, help="print the version, and where the library and the programs are")
    commands = parser.add_subparsers(dest="command", required=True, metavar="COMMAND")
    for name in [name for name in COMMANDS if name in words[:1]] or COMMANDS:
        command = importlib.import_module(f".{name}", __package__)
        short, explained = command.__doc__.splitlines()[0], argparse.RawDescriptionHelpFormatter
        own = commands.add_parser(name, help=short, description=command.__doc__, formatter_class=explained)
        command.add_arguments(own)
        own.set_defaults(run=command.run, parser=own)
        if name not in BY_LIBRARY:
            own.add_argument("--bin", metavar="FOLDER", help="where the proved programs are (else $ECN_BIN, beside this script, the path)")
    return parser


def main() -> int:
    fill_streams()
    endings.watch()
    try:
        with printing():
            options = arguments(sys.argv[1:]).parsed(sys.argv[1:])
        return options.run(options)
    except Ended as ended:
        tell(str(ended))
        return ended.status
    except BrokenPipeError:
        return FAILED
    except OSError as error:
        tell(f"{error.filename}: {error.strerror}" if error.filename else f"{error.strerror}")
        return FAILED
    except endings.Signalled:
        endings.leave()
        return FAILED
