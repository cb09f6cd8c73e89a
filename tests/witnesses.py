#!/usr/bin/env python3
"""tests/witnesses.py: every theorem that asks something is applied to values that have it, so that none is true because nothing meets it.

A theorem is a statement of specs/, `abbrev pub NAME : Type 0`, with its proof in proofs/, `pub name : NAME`. What it asks are the parts in front of an arrow
that bind no name, and so for each field of the record or the product that it gives, but for a field that denies something. It is applied in a definition of
type `Unit {0}`, where nothing can be assumed, by a line `let x = name arguments in` that goes past the last part asked; a field by `let y = x.field arguments
in`. The prover checks such a line as any other. Copies of the crates are then broken in several ways, and each must be found.
"""
import os
import re
import sys
import tempfile

sys.dont_write_bytecode = True  # no compiled copies of the other tests in the tree
from promises import CRATES, read
from reviewers import broken

STATEMENT = re.compile(r"^abbrev pub (\w+) : Type \d\n\1 =(.*\n(?: .*\n)*)", re.M)
RECORD = re.compile(r"^pub record (\w+)\b.* : Type \d where\n((?:  .*\n|\n(?=  ))*)", re.M)
FIELD = re.compile(r"^  pub ([\w-]+) : (.*(?:\n   .*)*)", re.M)
PROOF = re.compile(r"^pub ([\w-]+) : (\w+)$", re.M)
IMPORT = re.compile(r"^use Rattle\.(\w+)\.proofs\.[\w.]+\.\{(.*)\}$", re.M)
CLOSED = re.compile(r"^([\w-]+) : Unit \{0\}\n(?:unfolding .*\n)?\1 =(.*\n(?: .*\n)*)", re.M)
LINE = re.compile(r"\blet ([\w-]+) = ((?:.|\n)*?) in(?: tt)?$", re.M)


def texts(crate, folder):
    """The files of a crate's folder, without comments."""
    for where, _, files in os.walk(os.path.join(crate, folder), followlinks=True):
        for file in sorted(files):
            if file.endswith(".antt"):
                yield re.sub(r"(?m)^ *-- .*\n", "", read(os.path.join(where, file)))


def parts(text, between=str.isspace):
    """The parts of a text between its spaces, or other letters, that stand in no bracket."""
    found, depth = [""], 0
    for letter in text:
        depth += (letter in "([{") - (letter in ")]}")
        if depth == 0 and between(letter):
            found.append("")
        else:
            found[-1] += letter
    return [part for part in found if part.strip()]


def bound(part):
    """How many names a part in front of an arrow binds; 0 where it asks something."""
    groups = [re.fullmatch(r"\(([^():]+) : .*\)", group, re.S) for group in parts(part)]
    return sum(len(group[1].split()) for group in groups) if all(groups) else 0


def asked(statement):
    """(the number of arguments up to the last part asked, what is given)."""
    *fronts, given = parts(statement, "→".__eq__)
    last = seen = 0
    for names in map(bound, fronts):
        seen += names or 1
        last = last if names else seen
    return last, given.strip()


def theorems(crates):
    """{(crate, name) or (crate, name, field): the arguments up to the last part asked}, and the statements that have no proof."""
    needed, unproved = {}, []
    for crate in sorted(os.listdir(crates)):
        specs = list(texts(os.path.join(crates, crate), "specs"))
        records = {name: FIELD.findall(body) for text in specs for name, body in RECORD.findall(text)}
        proofs = {statement: name for text in texts(os.path.join(crates, crate), "proofs") for name, statement in PROOF.findall(text)}
        for statement, body in (found for text in specs for found in STATEMENT.findall(text)):
            last, given = asked(body)
            factors = [(str(i), part.strip()) for i, part in enumerate(parts(given, "×".__eq__))]
            fields = records.get(given.split()[0]) or [(i, part[1:-1]) for i, part in factors if re.match(r"\(.*→", part, re.S)]
            counts = {(): last} | {(field,): count for field, (count, end) in ((field, asked(what)) for field, what in fields) if end != "⊥"}
            if any(counts.values()) and statement not in proofs:
                unproved.append(f"{crate}: {statement} has no proof")
            needed |= {(crate, proofs.get(statement), *field): count for field, count in counts.items() if count}
    return needed, unproved


def applied(crates):
    """{(crate, name) or (crate, name, field): the most arguments that it is applied to}."""
    most = {}
    for crate in os.listdir(crates):
        for text in texts(os.path.join(crates, crate), "proofs"):
            known = {name: (crate, name, 0) for name, _ in PROOF.findall(text)}
            for other, names in IMPORT.findall(text):
                known |= {name.split(" as ")[-1]: (other, name.split(" as ")[0], 0) for name in names.split(", ")}
            for x, line in (found for _, body in CLOSED.findall(text) for found in LINE.findall(body)):
                head, *arguments = parts(line)
                of, _, field = ("", "", "") if head in known else head.rpartition(".")
                head, *given = parts(of[1:-1]) if of.startswith("(") else [of or head, *([] if field else arguments)]
                if head not in known:
                    continue
                *key, before = known[head]
                counts = {tuple(key): before + len(given)} | ({(*key, field): len(arguments)} if field else {})
                most |= {each: max(count, most.get(each, 0)) for each, count in counts.items()}
                known[x] = (*key, before + len(given))
    return most


def faults(crates):
    """(what is wrong, how many theorems and fields were looked at)."""
    (needed, wrong), most = theorems(crates), applied(crates)
    wrong += [f"{key[0]}: {' .'.join(key[1:])} is not applied to values" for key, count in needed.items() if key[1] and most.get(key, 0) < count]
    return wrong, len(needed)


# ---- broken copies: in a file the first text is replaced by the second
BROKEN = {
    "an application dropped": ("demands/proofs/Uses.antt", "let d = demand3 wrapped met.described in\n", "let d = met in\n"),
    "a field's application dropped": ("demands/proofs/Uses.antt", " = d.order reordered", " = d.row reordered"),
    "values that are assumed": ("mixed/proofs/Witnesses.antt", "used : Unit {0}", "used : ⊥ → Unit {0}"),
    "another theorem of that name": ("mixed/proofs/Witnesses.antt", "proofs.Whole.{calls_print}", "proofs.Whole.{calls_print as print}"),
    "one thing more asked": ("source/specs/Theorems.antt", "→ wire.0 < 65536 → sound s", "→ wire.0 < 65536 → mark ≤ 3 → sound s"),
    "a theorem that is not proved": ("walk/proofs/Walks.antt", "pub nothing_follows : NothingFollows", "nothing_follows : NothingFollows"),
}


def unseen():
    """The ways of breaking a copy that are not found."""
    for name, (file, *change) in BROKEN.items():
        with tempfile.TemporaryDirectory() as work:
            copy = os.path.join(work, "copy")
            broken(copy, "crates/" + file, change)
            if change[0] not in read(os.path.join(CRATES, file)) or not faults(os.path.join(copy, "crates"))[0]:
                yield name


def main():
    wrong, seen = faults(CRATES)
    wrong += [f"a broken copy is not found: {name}" for name in ([] if wrong else unseen())]
    for line in wrong:
        print("witnesses: FAILED,", line)
    if not wrong:
        print(f"witnesses: {seen} theorems, and fields of what they give, that ask something, each applied to values; {len(BROKEN)} broken copies are found")
    return 1 if wrong else 0


if __name__ == "__main__":
    sys.exit(main())
