#!/usr/bin/env python3
"""tests/refusals.py: a refusal has one number and one text, wherever it is named.

Where a definition names a refusal, the comment above it gives the refusal's number in document 01. The numbers are those of
crates/answers/specs/Refusals.antt; a definition with its comment is what stands between two empty lines.

The texts are those of crates/answers/specs/Meanings.antt, the one table. The header has each of them with its constant, and docs/LIBRARY.md and
man/flasknib.3 have each of them once. In the tables and lists of the other pages, README.md among them, and of the manual pages of the programs, what
stands with a refusal's number begins with its text; it may go on after `;`, `:`, `,` or ` (`. The commands of ecn have no text of their own: they
say those of the package, which are made from the header. (The table of docs/TRACE.md has the rules of the format, several to a number.) Copies are then broken in several ways, and each must be found.
"""
import glob
import os
import re
import sys

sys.dont_write_bytecode = True
TOP = os.path.dirname(os.path.dirname(os.path.abspath(__file__)))
TABLE, TEXTS, HEADER = "crates/answers/specs/Refusals.antt", "crates/answers/specs/Meanings.antt", "include/flasknib.h"
LIBRARY, MANUAL, LAYER = "docs/LIBRARY.md", "man/flasknib.3", "tools/ecnlib/layer.py"
LISTS = {LIBRARY: 19, MANUAL: 19, "docs/PROGRAMS.md": 5, "man/ecntable.1": 3, "man/ecnforms.1": 4, "man/ecnlabel.1": 3, "man/ecnstreams.1": 4, "man/ecnsalvage.1": 3}


def read(path):
    with open(os.path.join(TOP, path), encoding="utf-8") as file:
        return file.read()


def paths(pattern):
    return sorted(os.path.relpath(path, TOP) for path in glob.glob(os.path.join(glob.escape(TOP), pattern)))


# ---- the number in the comment of a definition


def unnumbered(text, numbers):
    """(refusal, definition) of each refusal that a definition names without its number."""
    taken = set(re.findall(r"\w+", " ".join(re.findall(r"^use Rattle\.answers\.specs\.declared\.Refusal\.TheVariants\.\{(.*)\}$", text, re.M))))
    for part in re.split(r"\n\s*\n", text):
        lines = [line.strip() for line in part.splitlines() if not line.startswith("use ")]
        comment = " ".join(line for line in lines if line.startswith("--"))
        code = "\n".join(line for line in lines if not line.startswith("--"))
        for name in sorted(taken & set(numbers) & set(re.findall(r"\w+", code))):
            if not re.search(rf"\b{numbers[name]}\b", comment):
                yield name, code.splitlines()[0]


def number_faults():
    numbers = dict(re.findall(r"^number_of (\w+) = (\d+)$", read(TABLE), re.M))
    files = paths("crates/*/specs/*.antt")
    wrong = [f"{file}: {name} ({numbers[name]}) in {code}" for file in files if file != TABLE for name, code in unnumbered(read(file), numbers)]
    example = "use Rattle.answers.specs.declared.Refusal.TheVariants.{Full}\n\n-- %s\nfault : Refusal\nfault = Full\n"
    if len(numbers) < 13 or not list(unnumbered(example % "full", numbers)) or list(unnumbered(example % "8 when full", numbers)):
        wrong.append("the test itself: the table is not read, or a definition without its number is not found")
    return wrong, len(files)


# ---- the one table of texts


def listed(name, text):
    """(number, what stands with it) in the lists of refusals of a manual page, or in the tables of a page whose first column is `number`."""
    if name.startswith("man/"):
        return [(int(number), words) for number, words in re.findall(r"^\.TP(?: \d+)?\n\.B (\d+)\n(.*)$", text, re.M)]
    tables = re.findall(r"^\| number \|.*\n\|[-|]+\n((?:\|.*\n)+)", text, re.M)
    return [(int(number), words.strip()) for table in tables for number, words in re.findall(r"^\| (\d+) \|([^|]*)\|", table, re.M)]


def in_header(text):
    return {int(number): " ".join(words.split()) for number, words in re.findall(r"FLASKNIB_REFUSAL_\w+ = (\d+),?\s*/\*(.*?)\*/", text, re.S)}


def said(files):
    """The texts that the commands of ecn say, by the package's layer over the header."""
    space = {"__name__": "layer"}
    exec(compile(files[LAYER], LAYER, "exec"), space)
    space["layer"] = lambda: files["python/flasknib/header.py"]
    return space["refusals"]()


def text_faults(files):
    texts = dict(enumerate(re.findall(r'^ +(?:∷ )?codes "(.*)"$', files[TEXTS], re.M), 1))
    if len(texts) != 19:
        yield f"{TEXTS}: {len(texts)} texts"
    if in_header(files[HEADER]) != texts:
        yield f"{HEADER} has other texts"
    if said(files) != texts:
        yield "ecn says other texts"
    for name, text in files.items():
        if name.startswith("tools/ecnlib/"):
            yield from (f"{name} has a text of its own: {each}" for each in texts.values() if each in text)
        elif name.startswith(("docs/", "man/", "README")) and name != "docs/TRACE.md":
            found = listed(name, text)
            if len({number for number, _ in found}) != LISTS.get(name, 0) or len(found) != LISTS.get(name, 0):
                yield f"{name} lists {len(found)} refusals"
            for number, words in found:
                if not re.match(re.escape(texts.get(number, "no text")) + r"(?:$|[;:,]| \()", words):
                    yield f"{name}: {number} is said to be: {words}"


def files_read():
    pages = ["README.md", *paths("docs/*.md"), *paths("man/*.[13]")]
    return {name: read(name) for name in [TEXTS, HEADER, "python/flasknib/header.py", *paths("tools/ecnlib/*.py"), *pages]}


# What is broken, where, and how.
BROKEN = (
    ("another text in the table", TEXTS, "the attribute is malformed", "the attribute is wrong"),
    ("a text less in the table", TEXTS, '    ∷ codes "the attribute is malformed"\n', ""),
    ("another text in the header", HEADER, "/* 2^48 arrivals are counted */", "/* 2^48 arrivals */"),
    ("two numbers exchanged", HEADER, "FLASKNIB_REFUSAL_VERSION = 2,", "FLASKNIB_REFUSAL_VERSION = 3,"),
    ("another text in LIBRARY", LIBRARY, "| 13 | the block's checksum does not fit |", "| 13 | a block's checksum |"),
    ("a refusal less in LIBRARY", LIBRARY, "| 8 | 2^48 arrivals are counted | |\n", ""),
    ("a text that goes on at once", LIBRARY, "| 8 | 2^48 arrivals are counted |", "| 8 | 2^48 arrivals are counted twice |"),
    ("another text in the manual page", MANUAL, "\nthe output is too small\n", "\nthe room is too small\n"),
    ("a refusal twice", MANUAL, ".TP 4\n.B 12\n", ".TP 4\n.B 12\nthe output is too small\n.TP 4\n.B 12\n"),
    ("another text in a program's page", "man/ecntable.1", "\nthe block's checksum does not fit\n", "\nwhere the checksum does not fit\n"),
    ("another text in PROGRAMS", "docs/PROGRAMS.md", "| 17 | a time of 2^32 ms or more needs form 2 (", "| 17 | a time of 2^32 ms or more ("),
    ("a table in README", "README.md", "\n## ", "\n| number | text |\n|---|---|\n| 13 | damaged |\n\n## "),
    ("a text in a command", "tools/ecnlib/common.py", "WELL, REFUSED", "WORDS = \"the block's checksum does not fit\"\nWELL, REFUSED"),
    ("another text in the package", "python/flasknib/header.py", "'the attribute is malformed'", "'the attribute is wrong'"),
    ("a command that takes the names", LAYER, "text for number, (_, text)", "text for number, (text, _)"),
)


def main():
    wrong, definitions = number_faults()
    files = files_read()
    wrong += text_faults(files)
    for what, name, old, new in BROKEN:
        if files[name].count(old) < 1 or not list(text_faults({**files, name: files[name].replace(old, new, 1)})):
            wrong.append(f"the test itself: {what} is not found")
    for line in wrong:
        print("refusals: FAILED,", line)
    if not wrong:
        lists = sum(LISTS.values())
        print(f"refusals: every definition of {definitions} files that names a refusal gives its number")
        print(f"refusals: 19 texts in the header, {lists} in {len(LISTS)} pages and those that ecn says are the one table's; {len(BROKEN)} broken copies are found")
    return 1 if wrong else 0


if __name__ == "__main__":
    sys.exit(main())
