#!/usr/bin/env python3
"""tools/respell.py [--list] [FOLDER]: brings the repository's own definitions and lemmas to today's spelling, in place.

It runs once, after port.py. Words are in snake case: numberOf becomes number_of, parts-fit becomes parts_fit. A dash stays after the name of a function of
std that a lemma is on: length-records_in. A lemma that would have a definition's name gets `_lem`. A fact that had a small letter gets a capital. What Rust
declares, what the check makes, strings, inputs and outputs keep their names. Two names that would fall together are reported, and the run stops.
"""
import os
import re
import sys

WORD = r"[^\s(){}\[\],;.:`\"⌜⌝«»|→]+"
DEFINED = re.compile(
    rf"^[ ]*(?:(?:abbrev|unfoldable|pub)\s+)*(?:record |data )?({WORD})((?:\s+[({{][^\n]*?[)}}])*)\s+:\s+([^\n]*)", re.M
)
TOKEN = re.compile(rf"{WORD}")
# Functions of std. A lemma on what one of them gives begins with its name and a dash.
STD = set("length sets drop take map append get_or set ones pow filter".split())
# Facts that were spelled as words, and a constructor, which is named after its type.
FACTS = {"takenBy": "TakenBy", "with-parms": "with_parms"}
# Fields whose name falls together with a definition's.
FIELDS = {"all_plain", "goes_on", "number_fits", "numbers_fit"}


# Names that port.py gave to clauses, and what they say.
LABELS = {
    "result_value": "numbered", "answer_value": "numbered", "n_value": "begins", "size_value": "begins", "ns_value": "begins", "back_value": "begins",
    "out_after": "written", "le_size": "sized", "upper_bound": "bounded", "words_bound": "bounded", "long_bound": "bounded", "long_value": "counted",
    "records_value": "wired", "first_value": "from_first", "lines_value": "sound", "at_lt_held": "placed", "numbers_len": "alike",
    "times_len_bound": "has_room",
}


def texts(root, tops, end):
    for crate in sorted(os.listdir(os.path.join(root, "crates"))):
        for top in tops:
            for folder, dirs, files in os.walk(os.path.join(root, "crates", crate, top)):
                dirs.sort()
                for name in sorted(files):
                    if name.endswith(end):
                        yield os.path.join(folder, name)


def read(path):
    with open(path, encoding="utf-8") as file:
        return file.read()


def bare(text):
    return re.sub(r"--[^\n]*", "", text)


def snake(name):
    return re.sub(r"(?<=[a-z0-9])([A-Z])", lambda it: "_" + it[1].lower(), name)


def defined(root):
    names = set()
    for path in texts(root, ("specs", "proofs"), ".antt"):
        if os.path.basename(path) in ("Proof.antt", "Answers.antt", "Invariants.antt"):
            if os.path.dirname(path).count(os.sep) > os.path.join(root, "crates", "c", "proofs").count(os.sep):
                continue
        for it in DEFINED.finditer(bare(read(path))):
            if it[1][0].islower() and it[1] != "let":
                names.add(it[1])
    return names


def spelled(name):
    if name in FACTS:
        return FACTS[name]
    first, *rest = [snake(it) for it in name.split("-")]
    if first in STD and rest:
        return first + "-" + "_".join(rest)
    return "_".join([first] + rest)


def imported(root):
    """The names that files take from libraries of the toolchain: one that is defined here too keeps its spelling."""
    names = set()
    for path in texts(root, ("src", "specs", "proofs"), (".rt", ".antt")):
        for it in re.finditer(r"^(?:pub |ghost )?use (?!Rattle\.)[\w.]+\.\{([^}]*)\}", read(path), re.M):
            names.update(name.strip() for name in it[1].split(","))
    return names


def renamed(root):
    """The names that are defined, and the new name of each that gets one. A lemma that would have the name of a definition gets `_lem`."""
    names = defined(root) - imported(root)
    table = {}
    for name in sorted(names):
        new = spelled(name)
        if new != name:
            table[name] = new
    definitions = {new for name, new in table.items() if "-" not in name}
    for name in sorted(names):
        if name in FACTS:
            continue
        if "-" in name and (table.get(name) in definitions or table.get(name) in names):
            table[name] += "_lem"
        elif name not in table and name in definitions:
            table[name] = name + "_lem"
    return names, table


def name_at(word, table, crate):
    """What the check makes of a function keeps its names: after a dot a name is a field's, a goal's or a module's."""
    if not word.startswith("."):
        return table.get(word, word)
    name = word[1:]
    if name not in table or (table[name].endswith("_lem") and (name not in FIELDS or crate == "shell")):
        return word
    return "." + table[name]


def turned(text, table):
    return TOKEN.sub(lambda it: table.get(it[0], it[0]), text)


def turned_rust(text, table):
    """Clauses and comments; a string keeps its text."""
    words = {name: new for name, new in table.items() if "-" not in name and not name.islower()}
    out = []
    for line in text.split("\n"):
        if line.lstrip().startswith("//"):
            out.append(re.sub(r"`[^`]*`", lambda it: turned(it[0], table), line))
        elif '"' in line and not line.lstrip().startswith("ghost"):
            out.append("".join(it if it.startswith('"') else turned(it, words) for it in re.split(r'("(?:[^"\\]|\\.)*")', line)))
        else:
            line = turned(line, words)
            out.append(re.sub(r"^(\s*(?:requires|ensures) )(\w+)( \{)", lambda it: it[1] + LABELS.get(it[2], it[2]) + it[3], line))
    return "\n".join(out)


def main():
    only = "--list" in sys.argv
    rest = [it for it in sys.argv[1:] if it != "--list"]
    root = os.path.abspath(rest[0]) if rest else os.path.dirname(os.path.dirname(os.path.abspath(__file__)))
    names, table = renamed(root)
    by_new = {}
    for name, new in table.items():
        by_new.setdefault(new, []).append(name)
    clash = {new: its for new, its in by_new.items() if (len(its) > 1 and not FACTS.keys() & set(its)) or (new in names and new not in table)}
    for new, its in sorted(clash.items()):
        print("fall together:", new, its, "(defined)" if new in names else "")
    if only:
        for name, new in sorted(table.items()):
            print(name, new)
        return
    if clash:
        sys.exit(1)
    for path in texts(root, ("specs", "proofs"), ".antt"):
        text = read(path)
        crate = path.split(os.sep + "crates" + os.sep)[1].split(os.sep)[0]
        new = re.sub(rf"\.?{WORD}", lambda it: name_at(it[0], table, crate), text)
        if new != text:
            with open(path, "w", encoding="utf-8") as file:
                file.write(new)
    for path in texts(root, ("src",), ".rt"):
        text = read(path)
        new = turned_rust(text, table)
        if new != text:
            with open(path, "w", encoding="utf-8") as file:
                file.write(new)
    print(len(table), "names respelled")


if __name__ == "__main__":
    main()
