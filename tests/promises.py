#!/usr/bin/env python3
"""tests/promises.py: every public function of the proved libraries has a promise that fixes its result and each part that it was lent to change, and none asks
anything of its caller. What fixes them is an equality, or a predicate whose definition fixes them by equalities (tests/fixes.py).

A crate's public functions are those of its root and of its public modules, those that a `pub use` passes on by name, and the methods of every
`impl`, wherever it stands. What is excepted stands in EXCEPTED: the test programs' own libraries, and of the program shell the calls of which no
contract can say anything, those of the standard streams among them, where they promise nothing; and in OPEN, with the reason. A copy of the crates is then broken in several ways, and each must be found.
"""
import os
import re
import shutil
import sys
import tempfile

sys.dont_write_bytecode = True  # no compiled copy of fixes.py in the tree
import fixes

TOP = os.path.dirname(os.path.dirname(os.path.abspath(__file__)))
CRATES = os.path.join(TOP, "crates")

# crate: its functions with no promise, by module; None: all of them
STREAMS = {f"streams.{name}" for name in ("new", "errno", "read", "write", "print_error", "fail")}
EXCEPTED = {"show": None, "cases": None, "shell": {"failures.tell", "failures.has_arguments", "reading.may_wait"} | STREAMS}

# (crate, function): what its promise leaves open, and why
OPEN = {
    ("sdp", "read"): (["its result"], "`Reads` is a relation, by the grammar's derivations; `one_reading` proves that a line has one reading at most"),
    ("shell", "fill"): (["buffer", "its result"], "which bytes come, and how many, is for the system to say"),
    ("shell", "read_on"): (["buffer", "its result"], "the same"),
    ("shell", "with_read"): (["piece"], "the same, of a piece of a trace"),
}

FUNCTION = re.compile(r'^(?P<indent> *)pub (?:extern "C" )?fn (?P<name>\w+)', re.M)


def read(path):
    with open(path, encoding="utf-8") as file:
        return file.read()


def libraries(crates):
    return sorted(name for name in os.listdir(crates) if os.path.isfile(os.path.join(crates, name, "src", "lib.rt")))


def modules(crate):
    """(file, whether its free functions are public, the names of those that are so by a `pub use`) of each module of a crate."""
    def below(file, folder, public, passed):
        yield file, public, passed
        text = read(file)
        for shown, name in re.findall(r"^(pub )?mod (\w+);", text, re.M):
            named = re.findall(rf"^pub use {name}::\{{?([\w,\s]+)\}}?;", text, re.M) if public else []
            passed_on = {each.strip() for names in named for each in names.split(",")}
            yield from below(os.path.join(folder, name + ".rt"), os.path.join(folder, name), public and bool(shown), passed_on)
    source = os.path.join(crate, "src")
    return below(os.path.join(source, "lib.rt"), source, True, set())


def public_functions(crate):
    """(module, name, what stands between its name and its body) of each public function of a crate."""
    for file, public, passed in modules(crate):
        text = read(file)
        for head in FUNCTION.finditer(text):
            indent = head.group("indent")
            body = re.compile(rf"^{indent}(?:\{{|\S.* \{{)$", re.M).search(text, head.start())
            if indent or public or head.group("name") in passed:
                module = os.path.splitext(os.path.basename(file))[0]
                yield module, head.group("name"), text[head.end() : body.end() if body else len(text)]


def faults(crates):
    """(what is wrong, how many functions were looked at)."""
    wrong, seen, specs = [], 0, fixes.Specs(crates)
    for crate in libraries(crates):
        excepted = EXCEPTED.get(crate, set())
        for module, name, contract in public_functions(os.path.join(crates, crate)):
            if re.search(r"^\s*requires\b", contract, re.M):
                wrong.append(f"{crate}: {name} asks something of its caller")
            if excepted is None or (f"{module}.{name}" in excepted and not re.search(r"^\s*ensures\b", contract, re.M)):
                continue
            seen += 1
            if not re.search(r"^\s*ensures\b", contract, re.M):
                wrong.append(f"{crate}: {name} promises nothing")
            elif (left := fixes.loose(specs, crate, contract)) != OPEN.get((crate, name), ([], ""))[0]:
                wrong.append(f"{crate}: {name} leaves open {', '.join(left) or 'nothing'}")
    return wrong, seen


# ---- broken copies

PROMISE = re.compile(r"^    ensures .*\n", re.M)
BROKEN = {
    "a promise dropped": ("numbers/src/since.rt", lambda text: PROMISE.sub("", text, count=1)),
    "a requirement added": ("capi/src/rows.rt", lambda text: PROMISE.sub("    requires { 1 ≤ 2 }\n\\g<0>", text, count=1)),
    "the promise dropped of a function that is passed on": ("between/src/calls.rt", lambda text: re.sub(r"^    ensures .*call_for.*\n", "", text, flags=re.M)),
    "a function with no promise": ("source/src/lib.rt", lambda text: text + "\npub fn more() -> u8 {\n    1\n}\n"),
    "a promise that fixes nothing": ("source/src/lib.rt", lambda text: text + "\npub fn more() -> u8\n    ensures { result ≡ result }\n{\n    1\n}\n"),
    "a bound in the place of an equality": ("source/src/lib.rt", lambda text: text + "\npub fn more() -> u8\n    ensures { result ≤ 1 }\n{\n    1\n}\n"),
    "a lent part left open": ("numbers/src/big_endian.rt", lambda text: text.replace("out.new ≡ sets out.old at (bytes 2 n)", "out.old ≡ out.old")),
    "a predicate that fixes no answer": ("report/src/lib.rt", lambda text: text.replace(" result out.new", " (Room 1) out.new", 1)),
    "a predicate that fixes less": ("convert/specs/Feeds.antt", lambda text: text.replace("  pub keeps : lent ≡ g.lent\n", "")),
    "a clause that fixes less": ("forms/specs/Pieces.antt", lambda text: text.replace("(r.progress ≡ p) × (kept ≡ part)", "(r.progress ≡ p) × (part ≡ part)")),
}


def unseen():
    """The ways of breaking a copy that are not found."""
    for name, (file, change) in BROKEN.items():
        with tempfile.TemporaryDirectory() as work:
            copy = os.path.join(work, "crates")
            shutil.copytree(CRATES, copy, ignore=shutil.ignore_patterns("out", "proofs", "edits", "must-fail"))
            shutil.copy(os.path.join(TOP, "crates.txt"), work)
            path = os.path.join(copy, file)
            before = read(path)
            with open(path, "w", encoding="utf-8") as out:
                out.write(change(before))
            if read(path) == before or len(faults(copy)[0]) != 1:
                yield name


def main():
    wrong, seen = faults(CRATES)
    wrong += [f"a broken copy is not found: {name}" for name in unseen()]
    for line in wrong:
        print("promises: FAILED,", line)
    if not wrong:
        print(f"promises: {seen} public functions of {len(libraries(CRATES))} libraries, each with a promise that fixes its result and what it was lent, and none with a requirement; {len(BROKEN)} broken copies are found")
    return 1 if wrong else 0


if __name__ == "__main__":
    sys.exit(main())
