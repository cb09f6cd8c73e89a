#!/usr/bin/env python3
"""tests/reviewers.py: docs/REVIEWERS.md says what stands in the tree, on two pages, and CITATION.cff what such a file must.

Of each claim: the line given has the definition of the statement, the file given has the proof, and the wrong version is there, all in one crate. Of the
whole page: every link leads to a file, every theorem that is named is proved somewhere, and the counts are those of docs/TESTS.md and of the tree. A copy is
then broken in several ways, and each must be found.
"""
import glob
import os
import re
import sys
import tempfile

sys.dont_write_bytecode = True  # no compiled copy of promises.py in the tree
import promises

TOP = os.path.dirname(os.path.dirname(os.path.abspath(__file__)))
PAGE = "docs/REVIEWERS.md"
# Two printed pages: typeset on A4, with letters of 9.5 points and of 8.5 in the tables, 1,511 words of this page took 1.8 pages.
# The key to the notation, of at most ten lines, is not counted: with it the page is some lines longer than two.
WORDS = 1670
KEY = 10
CLAIMS = 20  # the page has more of them, or its table was not found

LINK = re.compile(r"\[([^\]]+)\]\(([^)]+)\)")
CLAIM = re.compile(
    r"^\| (?P<claim>.+) \| (?P<theorem>`.+`) \| \[(?P<crate>\w+)/(?P<statement>specs/\w+\.antt):(?P<line>\d+)\]\((?P<to>\S+)\)"
    r" \| \[(?P<proof>proofs/\S+\.antt)\]\((?P<proof_to>\S+)\) \| \[`(?P<wrong>\w+)`\]\((?P<wrong_to>\S+)\) \|$"
)


def read(path):
    with open(path, encoding="utf-8") as file:
        return file.read()


def section(page, title):
    return page.partition(f"## {title}\n")[2].partition("\n## ")[0]


def table(text):
    """The rows of a section's table."""
    return [line for line in text.splitlines() if line.startswith("|")][2:]


# ---- claims


def stated(crate, theorem, proof):
    """The name of what a claim's statement defines, or nothing where that is not proved: of a call its contract has to cite the definition."""
    call = re.fullmatch(r"`(\w+)::(\w+)` is `(\w+)`", theorem)
    if call:
        owner, function, definition = call.groups()
        equals = rf"\bensures (?:\w+ )?\{{ result ≡ {definition}\b"
        cites = any(name == function and re.search(equals, text) for _, name, text in promises.public_functions(crate))
        return definition if cites and os.path.dirname(proof) == os.path.join(crate, "proofs", owner, function) else None
    found = re.search(rf"^pub {re.escape(theorem.strip('`'))} : (\w+)$", read(proof), re.M)
    return found and found.group(1)


def wrong_in(top, row):
    """What is wrong with one row of the claims."""
    found = CLAIM.match(row)
    if not found:
        return "a row that is no claim: " + row[:60]
    theorem, crate = found["theorem"], os.path.join("crates", found["crate"])
    statement, proof = os.path.join(crate, found["statement"]), os.path.join(crate, found["proof"])
    if found["to"] != f"../{statement}#L{found['line']}" or found["proof_to"] != f"../{proof}":
        return f"{theorem}: a link leads elsewhere than its text says"
    if not re.fullmatch(rf"\.\./{crate}/(edits|must-fail)/{found['wrong']}\.edit", found["wrong_to"]):
        return f"{theorem}: the wrong version is of another crate or name"
    if not all(os.path.isfile(os.path.join(top, path)) for path in (statement, proof)):
        return f"{theorem}: no such file"
    name = stated(os.path.join(top, crate), theorem, os.path.join(top, proof))
    if not name:
        return f"{theorem} is not proved in {proof}"
    lines = dict(enumerate(read(os.path.join(top, statement)).splitlines(), 1))
    if not re.match(rf"(abbrev pub|unfoldable pub|pub record) {name} ", lines.get(int(found["line"]), "")):
        return f"{theorem}: {name} does not stand in line {found['line']} of {statement}"
    return None


# ---- the whole page


def printed(page):
    """The words that a reader sees."""
    return re.findall(r"\w[^\s|]*", LINK.sub(r"\1", page))


def counted(page):
    """The words of the page without the key to the notation."""
    return len(printed(page.replace(section(page, "The notation"), "")))


def astray(top, page):
    """Links that lead to no file, and theorems of which there is no proof."""
    for text, to in LINK.findall(page):
        if not os.path.isfile(os.path.normpath(os.path.join(top, "docs", to.partition("#")[0]))):
            yield f"a link leads to no file: {text}"
    proofs = "".join(read(path) for path in glob.glob(os.path.join(glob.escape(top), "crates/*/proofs/**/*.antt"), recursive=True))
    code = "".join(read(path) for path in glob.glob(os.path.join(glob.escape(top), "crates/*/src/**/*.rt"), recursive=True))
    for name in sorted(set(re.findall(r"(?<!\[)`([a-z0-9]+(?:_[a-z0-9]+)+)`", page))):
        if not re.search(rf"^pub {name} : \w+$", proofs, re.M) and not re.search(rf"\bfn {name}\b", code):
            yield f"{name} is not proved"


def counts(page, title):
    """The numbers in the last column of a section's table."""
    return [count for row in table(section(page, title)) for count in re.findall(r"[\d,]*\d", row.rpartition(" | ")[2])]


def miscounted(top, page):
    """Counts that are not those of docs/TESTS.md or of the tree."""
    said, tried = counts(page, "What was only tested"), counts(read(os.path.join(top, "docs/TESTS.md")), "What is tried")
    if not said:
        yield "no count of what was tested is found"
    for count in sorted(set(said) - set(tried)):
        yield f"docs/TESTS.md has no count of {count}"
    edits = glob.glob(os.path.join(glob.escape(top), "crates/*/edits/*.edit")) + glob.glob(os.path.join(glob.escape(top), "crates/*/must-fail/*.edit"))
    for what, there in (("wrong versions", len(edits)), ("public calls", promises.faults(os.path.join(top, "crates"))[1])):
        said = re.search(rf"over (\d+) {what}", page)
        if not said or there <= int(said.group(1)):
            yield f"over so many {what} is not right: {there}"


def uncited(top):
    """What CITATION.cff lacks of format 1.2.0; where there is a file VERSION, the version is its."""
    keys = dict(re.findall(r'^([a-z-]+):(?: "?(.*?)"?)?$', read(os.path.join(top, "CITATION.cff")), re.M))
    for key in ("cff-version", "message", "title", "authors", "type", "version", "abstract"):
        if key not in keys:
            yield f"CITATION.cff has no {key}"
    version = os.path.join(top, "VERSION")
    if os.path.isfile(version) and keys.get("version") != read(version).strip():
        yield "CITATION.cff has another version than VERSION"


def faults(top):
    """(what is wrong, the claims, the words)."""
    page = read(os.path.join(top, PAGE))
    claims, words = table(section(page, "What is proved")), counted(page)
    wrong = [fault for fault in (wrong_in(top, row) for row in claims) if fault]
    wrong += [*astray(top, page), *miscounted(top, page), *uncited(top)]
    if len(claims) < CLAIMS:
        wrong.append(f"only {len(claims)} claims are found")
    if len(table(section(page, "The notation"))) != KEY:
        wrong.append(f"the key to the notation has not {KEY} lines")
    if words > WORDS:
        wrong.append(f"the page has {words} words, more than the {WORDS} of two pages")
    return wrong, len(claims), words


# ---- broken copies

# (file, what is changed in it); a file whose change is None is removed
BROKEN = {
    "a line that moved": ("crates/demands/specs/Demand3.antt", ("\n", "\n\n")),
    "a statement of another name": ("crates/table/specs/Theorems.antt", ("abbrev pub RowSplits :", "abbrev pub RowSplit :")),
    "a theorem that is gone": ("crates/demands/proofs/EachSource.antt", ("pub each_source :", "each_source :")),
    "a theorem in the text that is gone": ("crates/breaker/proofs/Runs.antt", ("pub refused_keeps :", "refused_keeps :")),
    "a contract that cites no definition": ("crates/breaker/src/lib.rt", ("result ≡ report_of self r", "result ≡ result")),
    "a wrong version that is gone": ("crates/callers/edits/row_of_all_calls.edit", None),
    "a count that is no longer right": ("docs/TESTS.md", ("| 400, 136 |", "| 401, 136 |")),
    "a table that is not found": (PAGE, ("\n## What is proved\n", "\n## Proved\n")),
    "a key that is not found": (PAGE, ("\n## The notation\n", "\n## Notation\n")),
    "a third page": (PAGE, ("\n## What is trusted\n", "\n" + "more " * WORDS + "\n\n## What is trusted\n")),
    "a citation without its version": ("CITATION.cff", ("\nversion:", "\n# version:")),
}


def broken(copy, path, change):
    """Makes a copy of the tree, of links but for the folders above one file, which is changed."""
    source = TOP
    for part in path.split("/"):
        os.mkdir(copy)
        for other in os.listdir(source):
            if other != part:
                os.symlink(os.path.join(source, other), os.path.join(copy, other))
        source, copy = os.path.join(source, part), os.path.join(copy, part)
    if change:
        with open(copy, "w", encoding="utf-8") as out:
            out.write(read(source).replace(*change, 1))


def unseen():
    """The ways of breaking a copy that are not found."""
    for name, (path, change) in BROKEN.items():
        with tempfile.TemporaryDirectory() as work:
            copy = os.path.join(work, "copy")
            broken(copy, path, change)
            if not faults(copy)[0]:
                yield name


def main():
    wrong, claims, words = faults(TOP)
    wrong += [f"a broken copy is not found: {name}" for name in ([] if wrong else unseen())]
    for line in wrong:
        print("reviewers: FAILED,", line)
    if not wrong:
        print(f"reviewers: {claims} claims of {PAGE}, each with its line, its proof and a wrong version, in {words} words; {len(BROKEN)} broken copies are found")
    return 1 if wrong else 0


if __name__ == "__main__":
    sys.exit(main())
