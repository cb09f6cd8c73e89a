#!/usr/bin/env python3
"""tests/plain.py: the pages for users, the manual and what `ecn` says are in plain English, with short sentences and lines.

Held in README and six pages, in the manual pages, and in the help and the messages of tools/ecn:
- no line has over 120 columns. A row of a table in Markdown is one line, however long.
- 'after' and not 'behind', 'if' and not 'where', 'only' and not 'alone', 'is reported' and not 'is told'. 'Where' stands for a place only in what is
  listed here, and what is listed is used.
- in the pages, the manual and the help no sentence has 25 words or more. What stands in code type counts as one word.
- the glossary of docs/TRACE.md has twenty words, each in one sentence and each used in several pages.
Not held: STATEMENTS, DECISIONS, the landings, what the programs print. A copy is then broken in several ways, and each must be found.
"""
import ast
import glob
import os
import re
import sys

TOP = os.path.dirname(os.path.dirname(os.path.abspath(__file__)))
PAGES = ["README.md", *(f"docs/{name}.md" for name in ("TABLE", "TRACE", "LIBRARY", "REVIEWERS", "PROGRAMS", "BREAKER"))]
COLUMNS, WORDS, GLOSSARY = 120, 25, ("docs/TRACE.md", "Twenty words that recur", 20)
UNPLAIN = {"behind": "after", "where": "if", "alone": "only", "told": "is reported"}
# 'Where' as a place, by the words after it
PLACES = [
    "everything else stands",
    "each line stands",
    "to look",
    "the library and",
    "the lines go",
    "the output goes",
    "the proved programs are",
]
# Files of tools/ecnlib whose words are not held: those that draw
DRAWING = ("bars.py", "plot.py")
# One whose help has a list of numbers in one sentence
LISTING = ("breaker.py",)


def read(path):
    with open(os.path.join(TOP, path), encoding="utf-8") as file:
        return file.read()


# ---- the parts of a text: (line, text) of its prose, sentence by sentence


def paragraphs(text):
    """(line, text) of the prose of a page: no code, no table, no heading; an item of a list is a paragraph."""
    held, at, fenced = [], 0, False
    for number, line in enumerate([*text.splitlines(), ""], 1):
        fenced ^= line.startswith("```")
        code = fenced or line.startswith(("```", "|", "#")) or (line.startswith("    ") and not held)
        if held and (code or not line.strip() or re.match(r"\s*(- |\d+\. )", line)):
            yield at, " ".join(held)
            held = []
        if not code and line.strip():
            at = at if held else number
            held.append(line.strip())


def manual(text):
    """The same of a manual page: what stands between two requests, without examples; one sentence ends with its line."""
    held, at, example, tag = [], 0, False, False
    for number, line in enumerate([*text.splitlines(), ".PP"], 1):
        tag, named = line[:3] in (".TP", ".TQ"), tag  # the line after it is a name, and no sentence
        example = line[:3] in (".EX", ".nf") or (example and line[:3] not in (".EE", ".fi"))
        inline = re.match(r"\.(?:B|I|BR|RB|IR|RI|BI) (.*)", line)
        ends = example or named or (line.startswith(".") and not inline)
        if held and (ends or held[-1].endswith((".", ":", ".)"))):
            yield at, " ".join(held)
            held = []
        if not ends:
            at = at if held else number
            held.append((inline.group(1) if inline else line).replace('"', ""))


def sentences(paragraph):
    """Its sentences; code and a link count as the words that a reader sees, code as one."""
    text = re.sub(r"\[([^\]]*)\]\([^)]*\)", r"\1", re.sub(r"`[^`]*`", "Code", paragraph))
    return re.split(r"(?<=[.!?;])\s+(?=[\"'(\[*]*[A-Z0-9])|(?<=[.!?]\))\s+|(?<=:)\s+", text)


def helped(text):
    """The help of a command of tools/ecnlib; nothing of another module."""
    tree = ast.parse(text)
    command = {"add_arguments", "run"} <= {getattr(node, "name", "") for node in tree.body}
    return ast.get_docstring(tree, clean=False) if command else ""


def spoken(text):
    """(line, text) of what a module of tools/ecnlib says: its help, the help of its options, and its messages."""
    tree = ast.parse(text)
    yield from enumerate(helped(text).splitlines(), 1)
    for node in ast.walk(tree):
        name = isinstance(node, ast.Call) and getattr(node.func, "id", getattr(node.func, "attr", ""))
        given = node.args if name in ("tell", "Ended") else [word.value for word in node.keywords if word.arg == "help"] if name else []
        for part in (each for value in given for each in ast.walk(value)):
            if isinstance(part, ast.Constant) and isinstance(part.value, str):
                yield part.lineno, part.value


# ---- what is wrong


def unplain(path, lines):
    """Words that are not plain."""
    for number, line in lines:
        for word in re.finditer(rf"(?i)(?<![\w`-])({'|'.join(UNPLAIN)})\b(?!`)(?: (\S.*))?", line):
            name = word.group(1).lower()
            if name != "where" or not (word.group(2) or "").startswith(tuple(PLACES)):
                yield f"{path}:{number}: '{UNPLAIN[name]}' and not '{name}': {line.strip()[:60]}"


def wide(path, lines):
    for number, line in lines:
        if len(line) > COLUMNS and not (path.endswith(".md") and line.startswith("|")):
            yield f"{path}:{number}: {len(line)} columns"


def long(path, parts):
    for number, part in parts:
        for sentence in sentences(part):
            count = len(re.findall(r"[\w'-]*\w[\w'-]*", sentence))
            if count >= WORDS:
                yield f"{path}:{number}: a sentence of {count} words: {sentence[:60]}"


def glossary(texts):
    path, title, count = GLOSSARY
    part = texts[path].partition(f"## {title}\n")[2].partition("\n## ")[0]
    rows = re.findall(r"^\| (.+?) \| (.+) \|$", part, re.M)[1:]
    if len(rows) != count:
        yield f"{path}: {len(rows)} words in the glossary, and not {count}"
    for word, meaning in rows:
        used = sum(bool(re.search(rf"(?i)\b{word}", text)) for name, text in texts.items() if name.endswith((".md", ".1", ".3")))
        if used < 4 or len(sentences(meaning)) > 2 or ". " in meaning:
            yield f"{path}: the glossary's {word} stands in {used} pages, or is no single sentence"


def prose(text):
    """The lines in which words are held: all but code."""
    fenced = False
    for number, line in enumerate(text.splitlines(), 1):
        fenced ^= line.startswith("```")
        if not fenced and not line.startswith("    "):
            yield number, re.sub(r"`[^`]*`", "``", line)


def faults(texts):
    wrong = []
    for path, text in texts.items():
        lines = list(enumerate(text.splitlines(), 1))
        if path.endswith(".py"):
            said = list(spoken(text))
            wrong += [*unplain(path, said), *wide(path, said)]
            wrong += [] if path.endswith(LISTING) else long(path, paragraphs(helped(text)))
        elif path.endswith(".md"):
            wrong += [*unplain(path, prose(text)), *wide(path, lines), *long(path, paragraphs(text))]
        else:
            wrong += [*unplain(path, lines), *wide(path, lines), *long(path, manual(text))]
    everything = " ".join(" ".join(text.split()) for text in texts.values())
    wrong += [f"nothing has the place 'where {place}' any more" for place in PLACES if not re.search(rf"(?i)\bwhere {place}", everything)]
    return wrong + list(glossary(texts))


# (file, what is put in the place of what)
BROKEN = {
    "behind in a page": ("docs/TABLE.md", "after a label its", "behind a label its"),
    "where in a page": ("docs/TRACE.md", "If arrivals blocks differ", "Where arrivals blocks differ"),
    "alone in a manual page": ("man/ecnstreams.1", "on a trace of only that source", "on a trace of that source alone"),
    "told in a manual page": ("man/ecntable.1", "is reported in one line", "is told in one line"),
    "where in a help text": ("tools/ecnlib/table.py", "If OUT is a folder", "Where OUT is a folder"),
    "alone in the help of an option": ("tools/ecnlib/look.py", '"only these blocks,', '"these blocks alone,'),
    "told in a message": ("tools/ecnlib/label.py", "ecnlabel reported no number", "ecnlabel told no number"),
    "a wide line": ("README.md", "\n## Installing\n", "\n" + "wide " * 30 + "\n\n## Installing\n"),
    "a wide line of a manual page": ("man/ecn.1", "\n.SH OPTIONS\n", "\n" + "wide. " * 30 + "\n.SH OPTIONS\n"),
    "a wide line of a help text": ("tools/ecnlib/check.py", "ecn check traces/*.trace\n", "ecn check traces/*.trace" + " " * 120 + "x\n"),
    "a long sentence": ("docs/PROGRAMS.md", "\n## A damaged trace\n", "\n" + "long\n" * 25 + "\n## A damaged trace\n"),
    "a long sentence of a help text": ("tools/ecnlib/table.py", "\nWith one trace OUT is", "\n" + "long\n" * 25 + "\nWith one trace OUT is"),
    "a long sentence of a manual page": ("man/ecnlabel.1", "\n.SH OPTIONS\n", "\n" + "long\n" * 25 + ".SH OPTIONS\n"),
    "a word less in the glossary": ("docs/TRACE.md", "| restart | ", "| | "),
    "a word of the glossary that nobody uses": ("docs/TRACE.md", "| jump | ", "| xyzzy | "),
    "a place that is not used": ("README.md", "## Where everything else stands", "## The other pages"),
}


def main():
    names = PAGES + sorted(os.path.relpath(path, TOP) for path in glob.glob(os.path.join(glob.escape(TOP), "man/*.[13]")))
    names += sorted(os.path.relpath(path, TOP) for path in glob.glob(os.path.join(glob.escape(TOP), "tools/ecnlib/*.py")) if not path.endswith(DRAWING))
    texts = {name: read(name) for name in names}
    wrong = faults(texts)
    for name, (path, old, new) in [] if wrong else BROKEN.items():
        if old not in texts[path] or not faults(texts | {path: texts[path].replace(old, new, 1)}):
            wrong.append(f"a broken copy is not found: {name}")
    for line in wrong:
        print("plain: FAILED,", line)
    if not wrong:
        print(f"plain: {len(PAGES)} pages, {len(names) - len(PAGES)} manual pages and modules of ecn in plain words; {len(BROKEN)} broken copies are found")
    return 1 if wrong else 0


if __name__ == "__main__":
    sys.exit(main())
