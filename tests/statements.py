#!/usr/bin/env python3
"""tests/statements.py: what docs/STATEMENTS.md names stands in the tree, and it leaves out no public call and no wrong program.

A section is of the crate that its title begins with. Its calls are all public functions of the crate; its tables' last column names wrong programs of the crate,
or of the one that follows as "of `other`"; `name : NAME` is a theorem with its proof in the crate; specs/FILE and proofs/FILE are files of the crate, or of the
one in front, as in "`other`' specs/FILE". Every wrong program is named on the page. Copies are then broken in several ways, and each must be found.
"""
import glob
import os
import re
import sys
import tempfile

sys.dont_write_bytecode = True  # no compiled copies of the other tests in the tree
import promises
from reviewers import TOP, broken, read

PAGE = "docs/STATEMENTS.md"


def wrong_programs(top, crate):
    found = [glob.glob(os.path.join(glob.escape(top), "crates", crate, folder, "*.edit")) for folder in ("edits", "must-fail")]
    return {os.path.basename(path)[:-5] for path in sum(found, [])}


def sections(page):
    """(crate, text) of each section that is of one."""
    return re.findall(r"^## `(\w+)`[^\n]*\n(.*?)(?=^## |\Z)", page, re.M | re.S)


def last_columns(text):
    """What stands in the last column of a section's tables."""
    return [row.rstrip("| ").rpartition(" | ")[2] for row in text.splitlines() if re.match(r"\| `.*\|$", row)]


def misnamed(top, crate, text):
    """What a section names that is not there."""
    for column in last_columns(text):
        for part in column.split(";"):
            other = re.search(r" of `(\w+)`$", part)
            there = wrong_programs(top, other[1] if other else crate)
            for name in re.findall(r"`([a-z0-9_]+)`", part[: other.start()] if other else part):
                if name not in there:
                    yield f"{crate}: {name} is no wrong program"
    proofs = "".join(read(path) for path in glob.glob(os.path.join(glob.escape(top), "crates", crate, "proofs/**/*.antt"), recursive=True))
    for name, statement in re.findall(r"`([\w-]+) : (\w+)`", text):
        if not re.search(rf"^pub {name} : {statement}$", proofs, re.M):
            yield f"{crate}: {name} : {statement} is not proved"
    for other, folder, file in set(re.findall(r"(?:`(\w+)`' |(?<!/)\b)(specs|proofs)/([A-Z]\w+)", text)):
        if not os.path.isfile(os.path.join(top, "crates", other or crate, folder, file + ".antt")):
            yield f"{crate}: there is no {folder}/{file}"


def left_out(top, page):
    """Public calls and wrong programs that the page does not name."""
    for crate in promises.libraries(os.path.join(top, "crates")):
        text = "".join(text for of, text in sections(page) if of in (crate, crate.removesuffix("_c")))
        for _, name, _ in promises.public_functions(os.path.join(top, "crates", crate)):
            if promises.EXCEPTED.get(crate, set()) is not None and not re.search(rf"`(?:\w+::)*{name}`", text):
                yield f"{crate}: the call {name} is left out"
        for name in sorted(wrong_programs(top, crate)):
            if f"`{name}`" not in page:
                yield f"{crate}: the wrong program {name} is left out"


def faults(top):
    page = read(os.path.join(top, PAGE))
    return [fault for crate, text in sections(page) for fault in misnamed(top, crate, text)] + list(left_out(top, page))


# (file, what is changed in it); a file whose change is None is removed
BROKEN = {
    "a wrong program that is gone": ("crates/wide/edits/above_turned.edit", None),
    "a wrong program of another crate": (PAGE, ("`above_equal`, `above_turned`", "`above_equal`, `product_k`")),
    "a theorem of another name": ("crates/source/proofs/Kept.antt", ("pub sound_stays :", "sound_stays :")),
    "a file that is gone": ("crates/numbers/specs/Since.antt", None),
    "a call that is left out": (PAGE, ("| `Source::lost` |", "| `Source` |")),
    "a section that is not found": (PAGE, ("\n## `wide`\n", "\n## wide\n")),
}


def unseen():
    """The ways of breaking a copy that are not found."""
    for name, (path, change) in BROKEN.items():
        with tempfile.TemporaryDirectory() as work:
            copy = os.path.join(work, "copy")
            broken(copy, path, change)
            if not faults(copy):
                yield name


def main():
    wrong = faults(TOP)
    wrong += [f"a broken copy is not found: {name}" for name in ([] if wrong else unseen())]
    for line in wrong:
        print("statements: FAILED,", line)
    if not wrong:
        programs = sum(len(wrong_programs(TOP, crate)) for crate in promises.libraries(promises.CRATES))
        print(f"statements: {PAGE} names {programs} wrong programs, all of them, every public call, and only what stands in the tree; {len(BROKEN)} broken copies are found")
    return 1 if wrong else 0


if __name__ == "__main__":
    sys.exit(main())
