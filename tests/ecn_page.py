"""ecn_page.py [NAME..]: ecn's own words: its page in man/, its help, its version and what it says of wrong words. The last line is 'N passed, M failed'."""
import argparse
import re
import sys

import tools
from tools import TOP, Tried

from ecnlib.main import COMMANDS, arguments

PAGE = (TOP / "man/ecn.1").read_text().replace("\\-", "-")


def options_of(command: str) -> list:
    parser = arguments([command])
    (chosen,) = [each for each in parser._actions if isinstance(each, argparse._SubParsersAction)]
    return [option for action in chosen.choices[command]._actions for option in action.option_strings]


class Page(Tried):
    def test_each_command_and_option(self):
        for command in COMMANDS:
            self.assertIn(f".B ecn {command}\n", PAGE)
            self.assertIn(f".B {command}\n", PAGE)
            for option in options_of(command):
                if option not in ("-h", "--help"):
                    self.assertRegex(PAGE, rf"(?m)[ \"]{re.escape(option)}(?![a-z-])", f"{command} {option}")

    def test_help_has_an_example(self):
        for command in COMMANDS:
            self.assertIn(f"\n    ecn {command} ", self.ecn(command, "--help").stdout)

    def test_version(self):
        version = (TOP / "VERSION").read_text().strip()
        self.assertRegex(self.ecn("--version").stdout, rf"^ecn {re.escape(version)}\nlibrary: none\nprograms: .*\n$")
        if tools.LIBRARY:
            self.assertIn(f"library: {tools.SHARED}\n", self.ecn("--version", library=True).stdout)
        with open("/dev/full", "w") as full:
            self.assertIn("No space left", self.ecn("--version", status=2, stdout=full).stderr)

    def test_wrong_words(self):
        self.assertIn("there is no command tabel; did you mean ecn table?", self.ecn("tabel", status=2).stderr)
        self.assertIn("there is no command xyzzy; ecn --help lists the commands", self.ecn("xyzzy", status=2).stderr)
        self.assertIn("say what to do, as: ecn table", self.ecn(status=2).stderr)
        self.assertIn("ecn --help", self.ecn("", status=2).stderr)
        for command in COMMANDS:
            told = self.ecn(command, "--nothing", status=2).stderr
            self.assertRegex(told, rf"; for example: ecn {command} .*; ecn {command} --help says more\n$")
        for words, told in (
            (["table", "x"], "required: -o/--out; for example: ecn table night1.trace -o night1.csv; ecn table --help says more"),
            (["check", "a", "-j", "2", "b"], "ecn check: error: b stands apart from the other files: files stand together, before or after the options;"),
            (["look", "a", "b"], "ecn look: error: ecn look takes one file at a time, and b is one too many; for example: ecn look night1.trace"),
            (["check", "a", "--originn"], "ecn check has no option --originn, did you mean --origin?"),
            (["check", "a", "--xyzzy"], "ecn check has no option --xyzzy; for example"),
            (["--xyzzy"], "for example: ecn table night1.trace -o night1.csv; ecn --help says more"),
        ):
            self.assertIn(told, self.ecn(*words, status=2).stderr)


if __name__ == "__main__":
    sys.exit(tools.main(sys.argv[1:], __name__, "ecn's page and its words"))
