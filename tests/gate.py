"""tests/gate.py: .ci/run, tests/run and tests/edits where something is missing, fails, or was left by an earlier run.

Each is tried on a small tree of its own, in a folder whose name has spaces and a letter outside ASCII, with an `rt` and a `rustc` of ours, as a job in
the background: signals that such a job ignores are ignored. What an earlier run is to have left writes its name down where it is run. Each try that
goes wrong is printed; the last line says how many there were.
"""
import importlib.machinery
import importlib.util
import json
import os
import pathlib
import shutil
import signal
import subprocess
import sys
import tempfile

TOP = pathlib.Path(__file__).resolve().parent.parent
IGNORED = (signal.SIGINT, signal.SIGQUIT, signal.SIGPIPE, signal.SIGHUP, signal.SIGXFSZ)
TOOLS = "sh env dirname mkdir mktemp rm cp ln cat sed sort cut diff wc grep tail nm python3".split()


def script(path, text):
    path.parent.mkdir(parents=True, exist_ok=True)
    path.write_text("#!/bin/sh\n" + text)
    path.chmod(0o755)


class Tree:
    """A folder with copies of scripts, and another with the programs that they find."""

    def __init__(self, work, *names):
        self.top, self.bin = pathlib.Path(work, "ward 3 ü"), pathlib.Path(work, "bin")
        for name in names:
            (self.top / name).parent.mkdir(parents=True, exist_ok=True)
            shutil.copy(TOP / name, self.top / name)

    def run(self, name, path, *words, **variables):
        """The status of a script with some words, and what it prints."""
        environment = dict(variables, PATH=path, TMPDIR=str(self.bin.parent), RAN=str(self.bin.parent / "ran"))
        done = subprocess.run(
            [self.top / name, *words], env=environment, cwd="/", stdin=subprocess.DEVNULL, stdout=subprocess.PIPE, stderr=subprocess.STDOUT,
            preexec_fn=lambda: [signal.signal(each, signal.SIG_IGN) for each in IGNORED],
        )
        return done.returncode, done.stdout.decode("utf-8", "replace")


# ---- .ci/run

# (what `rt ci`, tests/edits and tests/run print last, the status of each), and the gate's last line; what must not be printed is None.
ENDS = {
    "all pass": (("3 passed, 0 failed", "2 passed, 0 failed", "1 passed, 0 failed"), (0, 0, 0), "6 passed, 0 failed"),
    "a part without a last line": (("3 passed, 0 failed", "killed", "1 passed, 0 failed"), (0, 0, 0), "4 passed, 1 failed"),
    "a part that ends with another status": (("3 passed, 0 failed", "2 passed, 0 failed", "1 passed, 0 failed"), (0, 0, 3), "6 passed, 1 failed"),
    "a part that fails": (("3 passed, 0 failed", "1 passed, 2 failed", "1 passed, 0 failed"), (0, 1, 0), "5 passed, 2 failed"),
    "a crate that is not proved": (("2 passed, 1 failed", None, None), (1, 0, 0), "2 passed, 1 failed"),
    "bad edits": (("rt: ok; must-fail edits: 3 refused, 2 bad; all in this run\n3 passed, 0 failed", None, None), (0, 0, 0), "3 passed, 2 failed"),
    "bad edits, the last words": (("rt: ok; must-fail edits: 3 refused, 2 bad\n3 passed, 0 failed", None, None), (0, 0, 0), "3 passed, 2 failed"),
    "no bad edit": (("rt: ok; must-fail edits: 3 refused; all in this run\n3 passed, 0 failed", "2 passed, 0 failed", "1 passed, 0 failed"), (0, 0, 0), "6 passed, 0 failed"),
}


def sums(name, work):
    """What is wrong with the gate's sums."""
    said, ended, wanted = ENDS[name]
    tree = Tree(work, ".ci/run")
    for path, words, status in zip((tree.bin / "rt", tree.top / "tests/edits", tree.top / "tests/run"), said, ended):
        script(path, f"printf '%s\\n' '{words}'; exit {status}\n")
    status, text = tree.run(".ci/run", f"{tree.bin}:{os.environ['PATH']}")
    if text.splitlines()[-1] != wanted or (status == 0) != wanted.endswith(" 0 failed") or "None" in text:
        yield f"it ends with {text.splitlines()[-1]!r} and status {status}"


# What the gate runs, with its words, where it is called, and what it must not find removed.
ORDER = {
    "crates that are proved": (0, ["ci in ward 3 ü, out kept", "edits", "run"]),
    "a crate that is not proved": (1, ["ci in ward 3 ü, out kept"]),
}


def order(name, work):
    """What is wrong with the parts of the gate: `rt ci` with no name, first and on the tree as it stands."""
    ended, wanted = ORDER[name]
    tree = Tree(work, ".ci/run")
    script(tree.top / "crates/one/out/old", "")
    script(tree.bin / "rt", f'[ -e crates/one/out/old ] && echo "$* in ${{PWD##*/}}, out kept" >>"$RAN"; echo 1 passed, {ended} failed; exit {ended}\n')
    for part in ("edits", "run"):
        script(tree.top / "tests" / part, f'echo "{part}${{*:+ $*}}" >>"$RAN"; echo 1 passed, 0 failed\n')
    status, text = tree.run(".ci/run", f"{tree.bin}:{os.environ['PATH']}")
    told = (tree.bin.parent / "ran").read_text().splitlines()
    if told[:1] != wanted[:1] or sorted(told) != wanted or (status == 0) != (ended == 0):
        yield f"it ends with {text.splitlines()[-1]!r} and status {status}, and these were run: {told}"


# What .ci/run is asked for, what must then be tried, in order, the status of the last part, and how its last line begins.
SOME = {
    "one that others need": (["low"], ["check in low", "check in high", "edits high", "run --of low high"], 0, "no verdict, 4 tries passed and 0 failed: only low high were tried"),
    "one that none needs": (["lone"], ["check in lone", "run --of lone"], 0, "no verdict, 2 tries passed and 0 failed: only lone were tried"),
    "a part that fails": (["high"], ["check in high", "edits high", "run --of high"], 1, "no verdict, 2 tries passed and 1 failed: only high were tried"),
    "a name that is not listed": (["none"], [], 0, "none is not listed"),
}


def some(name, work):
    """What is wrong with the gate of some crates."""
    words, wanted, ended, begins = SOME[name]
    tree = Tree(work, ".ci/run")
    (tree.top / "crates.txt").write_text("low:\nhigh staticlib: low # both\nlone: std\n")
    for crate in ("low", "high/edits", "lone"):
        (tree.top / "crates" / crate).mkdir(parents=True)
    script(tree.bin / "rt", 'echo "$* in ${PWD##*/}" >>"$RAN"\n')
    script(tree.top / "tests/edits", 'echo "edits $*" >>"$RAN"; echo 1 passed, 0 failed\n')
    script(tree.top / "tests/run", f'echo "run $*" >>"$RAN"; echo {1 - ended} passed, {ended} failed; exit {ended}\n')
    status, text = tree.run(".ci/run", f"{tree.bin}:{os.environ['PATH']}", *words)
    ran = tree.bin.parent / "ran"
    if (ran.read_text().splitlines() if ran.exists() else []) != wanted:
        yield f"it tries {ran.read_text().splitlines()}"
    if not text.splitlines()[-1].startswith(begins) or (status == 0) != (not ended and bool(wanted)):
        yield f"it ends with {text.splitlines()[-1]!r} and status {status}"


# ---- tests/run

RUSTC = """for word; do out=$word; done
case " $* " in *" tests/$BROKEN/main.rs "*) exit 1 ;; esac
printf '#!/bin/sh\\necho built' >"$out" && chmod +x "$out"
"""
RT = """mkdir -p out
case $1 in
run)
    echo built >"out/${PWD##*/}"
    [ "$CHECK" != 0 ] || echo "rt: running out/${PWD##*/}; to give it other input, run that file yourself"
    exit 3
    ;;
lib) echo built >out/libcapi_c.a; exit "$LIBRARY" ;;
esac
"""
OVER_PROGRAMS = {"program", "tables", "faults", "package", "installation", "wheel", "tools", "commands"}
OVER_LIBRARY = {"compare", "header", "languages", "capture", "dissector", "received", "examples", "rust", "package", "installation", "wheel", "tools", "commands"}
# What fails (rustc is missing, the source of a part, the programs, the library), and the parts that must fail for it.
FAILING = {
    "no compiler": (None, 0, 0, {"program", "tables", "compare", "header", "capture", "dissector", "received", "examples", "rust"}),
    "a test that does not compile": ("compare", 0, 0, {"compare", "header"}),
    "programs that are not proved": ("nothing", 1, 0, OVER_PROGRAMS),
    "a library that is not proved": ("nothing", 0, 1, OVER_LIBRARY),
}


def left(tree):
    """What an earlier run left, each file of which tells where it is run."""
    for name in ("ecntable", "ecnforms", "ecnstreams", "ecnlabel", "ecnsalvage", "capi_c"):
        (tree.top / "crates" / name).mkdir(parents=True)
    built = "program compare capture received count breaker answer count_rust rust libmodel.rlib libdraw.rlib libflasknib.rlib"
    for name in [*built.split(), "compare.table", "capture.lines"]:
        script(tree.top / "target/tests" / name, f"echo {name} >>\"$RAN\"\n")
    for name in ("ecntable", "ecnforms", "ecnstreams", "ecnlabel", "ecnsalvage"):
        script(tree.top / "target/bin" / name, f"echo {name} >>\"$RAN\"\n")
    script(tree.top / "target/staticlib/libcapi.a", "")


def failing(name, work):
    """What is wrong where something cannot be built."""
    broken, check, library, wanted = FAILING[name]
    tree = Tree(work, "tests/run", "packaging/build")
    left(tree)
    script(tree.bin / "rt", RT)
    for tool in TOOLS:
        (tree.bin / tool).symlink_to(sys.executable if tool == "python3" else shutil.which(tool))
    if broken:
        script(tree.bin / "rustc", RUSTC)
    status, text = tree.run("tests/run", str(tree.bin), CHECK=str(check), LIBRARY=str(library), BROKEN=broken or "")
    failed = {line.split()[1] for line in text.splitlines() if line.startswith("tests: ") and " FAILED" in line}
    if status == 0 or not wanted <= failed or not text.splitlines()[-1].endswith(f" passed, {len(failed)} failed"):
        yield f"it ends with {text.splitlines()[-1]!r} and status {status}, and these do not fail: {sorted(wanted - failed)}"
    if (tree.bin.parent / "ran").exists():
        yield f"what an earlier run left was run: {(tree.bin.parent / 'ran').read_text().split()}"


# The crates that are asked for, and the parts that must be run of them besides those over texts.
OF = {"a program": ("ecnforms", OVER_PROGRAMS - OVER_LIBRARY), "the library": ("capi", OVER_LIBRARY), "neither": ("wide", set())}


def parts_of(name, work):
    """What is wrong where only the parts that see some crates are asked for: with no programs and no library, those fail."""
    crate, wanted = OF[name]
    tree = Tree(work, "tests/run", "packaging/build")
    script(tree.bin / "rt", RT)
    for tool in TOOLS:
        (tree.bin / tool).symlink_to(sys.executable if tool == "python3" else shutil.which(tool))
    _, text = tree.run("tests/run", str(tree.bin), "--of", crate, CHECK="1", LIBRARY="1", BROKEN="")
    failed = {line.split()[1] for line in text.splitlines() if line.startswith("tests: ") and " FAILED" in line}
    if failed & (OVER_PROGRAMS | OVER_LIBRARY) != wanted:
        yield f"these parts are run: {sorted(failed)}"


# ---- tests/edits

PROOF = "./proofs/f/Answers.antt:3:5: error: `returns`: "
WALK = "Rattle-one-proofs.f.Proof.oantt"
DIFFER = "computed as far as they go, the two types first differ where one has `{}`\n  (expected) and the other has `{}` (found)"
PLACES = DIFFER.format("Rattle.one.proofs.f.Lts.After-g", "Rattle.one.proofs.f.Lts.After-h")
GONE = "`goal.returns-then-old`: module `Rattle.one.proofs.f.Goals` has no `returns-then-old` that can be named from here"
OPEN = "note: src/lib.rt:2:5: it is not proved that what the function ensures holds when it returns (`returns`)"
# An error, and the kind of fact that it is of: None where it is of the proof's form, or of nothing that is known.
SAMPLES = {
    DIFFER.format("2147483648", "2147483649"): "terms differ",
    DIFFER.format("c.args.time", "Rattle.one.proofs.f.Lts.m1 (Rattle.one.proofs.f.Lts.gave-After-g c.before)"): "terms differ",
    "expected type `fresh s ≡ false`, but this has type `fresh s ≡ t`\n  `t` is not in scope here, so what is shown does not paste back": "terms differ",
    "computed as far as they go, the two values are `record {ssrc = 0}` (found) and `record {ssrc = 1}` (required)": "terms differ",
    "`omega`: the goal does not follow from what it read. All of that holds, and the goal fails, at `c.n` = 3": "it fails at values",
    "`search`: no proof of `Post c`": "a goal is open",
    "`rw`: no occurrence of the path's left endpoint in the goal: write the family yourself": "an equation is not there",
    "`rw`: no occurrence of the path's left endpoint in the hypothesis's type: write the family": "an equation is not there",
    "give a proof of that as the last argument, `rw L t` (`rw L ?` shows it as a hole's goal), or add what is missing to the list": "an equation is not there",
    "`reading b Compound`\n  ≟ `reading b ReducedSize`\n  does not hold (this comparison, made at this position, had to wait)": "terms differ",
    PLACES: None,
    PLACES.replace("first differ", "differ only"): None,
    "expected type `goal.After-g`, but this has type `Rattle.one.proofs.f.Lts.Then1 c.before`": None,
    "record `Rattle.one.proofs.f.Lts.After-g`\n  has no field `read16`": None,
    GONE: None,
    "`returns-2` is not in scope": None,
    "the solver gave up": None,
}
# A check of a copy with the edit: its errors, the goals that the code then has (before it is `returns-2` and `returns`), and what is said of the edit.
TRIED = {
    "refused": (PROOF + DIFFER.format("1", "2"), ["returns-2", "returns"], ": refused, terms differ ("),
    "an error of form": (PROOF + PLACES, ["returns-2", "returns"], ": FAILED: the errors are only of the proof's form"),
    "one of form and one of a fact": (PROOF + GONE + "\n" + PROOF + DIFFER.format("1", "2"), ["returns-2", "returns"], ": refused, terms differ ("),
    "one goal more": (PROOF + DIFFER.format("1", "2"), ["add-n", "returns-2", "returns"], ": refused, terms differ ("),
    "one more of a number": (PROOF.replace("returns", "returns-2") + DIFFER.format("1", "2"), ["returns-2", "returns-3", "returns"], ": FAILED: the proof's form is not that of the code"),
    "an open goal": (OPEN, ["returns-2", "returns"], ": refused, a goal is open ("),
    "an open goal and an error of form": (PROOF + GONE + "\n" + OPEN, ["returns-2", "returns"], ": FAILED: the errors are only of the proof's form"),
    "a false goal and an error of form": (PROOF + GONE + "\n" + OPEN + "; the facts known there allow values at which this goal is false", ["returns-2", "returns"], ": refused, a goal is open ("),
    "an error of no kind": (PROOF + "the solver gave up", ["returns-2", "returns"], ": FAILED: the error is of no known kind"),
    "other names, and a fact": (PROOF + GONE, ["returns-then-new", "returns"], ": refused, terms differ ("),
}
KIT = """case $1 in
doc) echo "$KIT/START-HERE.md" ;;
all) printf '== one\\nlogic=%s\\n== summary\\none: ok\\n' "$PROVED" ;;
esac
"""
# The check of the tree's crate as it stands, with the edit, and with the names in its proof that the code then gives.
CHECK = f"""[ "$PROVED" = proved ] || echo check >>"$RAN"
if grep -q right src/lib.rt; then
    printf 'crate one: modules loaded=1 checked=0\\nlogic=proved \\n'
    exit 0
fi
rm "incremental/k/{WALK}"
cp "$WALKED" "incremental/k/{WALK}"
if grep -q returns-then-new proofs/f/Answers.antt; then cat "$AGAIN"; else cat "$SAID"; fi
exit 1
"""


def module(path, names):
    """A checked module that declares these names."""
    path.parent.mkdir(parents=True, exist_ok=True)
    path.write_text("--@ kernel k\n--@ interface " + json.dumps({"globals": [{"name": name, "kind": "def"} for name in names]}) + "\n")


def one_crate(work):
    """A tree with one crate and one edit, and what an earlier run left."""
    tree = Tree(work, "tests/edits", "tests/reach.py")
    files = {
        "crates.txt": "one:\n",
        "crates/one/src/lib.rt": "fn f() {\n    right\n}\n",
        "crates/one/proofs/f/Answers.antt": "returns-then-old c = c.if-old.true\n",
        "crates/one/edits/wrong.edit": "file: src/lib.rt\nold: right\nnew: wrong\n",
        "target/edits/one/old.log": "",
    }
    for name, text in files.items():
        (tree.top / name).parent.mkdir(parents=True, exist_ok=True)
        (tree.top / name).write_text(text)
    module(tree.top / "crates/one/out/incremental/k" / WALK, ["returns-2", "returns"])
    module(tree.top / "crates/one/out/incremental/k" / WALK.replace("Proof", "Statement"), [])
    script(tree.bin / "rt", KIT)
    return tree


def tries(tree, proved="proved", **variables):
    """The status of tests/edits in a tree, and what it prints."""
    path = f"{tree.bin}:{os.path.dirname(sys.executable)}:{os.environ['PATH']}"
    return tree.run("tests/edits", path, PROVED=proved, KIT=str(tree.bin), **{name: str(value) for name, value in variables.items()})


def tried(name, work):
    """What is wrong with the line of an edit."""
    error, names, wanted = TRIED[name]
    tree = one_crate(work)
    script(tree.bin / "rattle", CHECK)
    if "returns-then-new" in names:
        module(tree.top / "crates/one/out/incremental/k" / WALK, ["returns-then-old", "returns"])
    said, again, walked = tree.bin / "said", tree.bin / "again", tree.bin / "walked"
    said.write_text(error + "\nlogic=not-proved\n")
    again.write_text(PROOF + DIFFER.format("1", "2") + "\nlogic=not-proved\n")
    module(walked, names)
    _, text = tries(tree, SAID=said, AGAIN=again, WALKED=walked)
    if f"edits one/wrong{wanted}" not in text:
        yield text
    if (tree.top / "target/edits/one/old.log").exists():
        yield "a log of an earlier run is left"


# Wrong definitions in copies beside the files themselves: what the check says of the copies, the definitions that the first wrong one has, and for each
# of the two edits whether it is refused so, or tried alone.
LAW = "./proofs/Law{}.antt:3:1: error: `law`: " + DIFFER.format("1", "2") + "\n"
COPIED = {
    "both refused": (LAW.format("Wrong0") + LAW.format("Wrong1"), ["def"], (True, True)),
    "one of them": (LAW.format("Wrong1"), ["def"], (False, True)),
    "an error of form": (LAW.format("Wrong0").replace("first differ", "has no field") + LAW.format("Wrong1"), ["def"], (False, True)),
    "another name": (LAW.format("Wrong0") + LAW.format("Wrong1"), ["other"], (False, True)),
    "a right copy that is not proved": (LAW.format("Right0") + LAW.format("Wrong0") + LAW.format("Wrong1"), ["def"], (False, False)),
    "an error of no copy": (LAW.format("") + LAW.format("Wrong0") + LAW.format("Wrong1"), ["def"], (False, False)),
}
BESIDE = """if [ ! -e specs/DefWrong0.antt ]; then
    grep -q 'def = right' specs/Def.antt && printf 'crate one: modules loaded=1 checked=0\\nlogic=proved \\n' && exit 0
    cat "$ALONE"
    echo logic=not-proved
    exit 1
fi
cd incremental/k || exit 2
for each in Right0 Wrong0 Wrong1; do
    grep -q "^use Rattle.one.specs.Def$each.{def}" "../../proofs/Law$each.antt" || exit 2
    grep -q "^pub mod Law$each" ../../proofs/Lib.antt || exit 2
    cp Rattle-one-specs.Def.oantt "Rattle-one-specs.Def$each.oantt"
done
grep -q 'def = right' ../../specs/DefRight0.antt && grep -q 'def = wrong' ../../specs/DefWrong1.antt || exit 2
cp "$WALKED" Rattle-one-specs.DefWrong0.oantt
cat "$SAID"
echo logic=not-proved
exit 1
"""


def copied(name, work):
    """What is wrong with edits of definitions that are tried beside each other."""
    said_of_copies, names, wanted = COPIED[name]
    tree = one_crate(work)
    files = {
        "specs/Lib.antt": "pub mod Def\n",
        "specs/Def.antt": "pub def : ℕ\ndef = right\n",
        "proofs/Lib.antt": "pub mod Law\n",
        "proofs/Law.antt": "use Rattle.one.specs.Def.{def}\n\nlaw : def ≡ right\n",
        "edits/wrong.edit": "file: specs/Def.antt\nold: right\nnew: wrong\n",
        "edits/also.edit": "file: specs/Def.antt\nold: def = right\nnew: def = other\n",
    }
    for file, text in files.items():
        (tree.top / "crates/one" / file).parent.mkdir(parents=True, exist_ok=True)
        (tree.top / "crates/one" / file).write_text(text)
    module(tree.top / "crates/one/out/incremental/k/Rattle-one-specs.Def.oantt", ["def"])
    script(tree.bin / "rattle", BESIDE)
    said, alone, walked = tree.bin / "said", tree.bin / "alone", tree.bin / "walked"
    said.write_text(said_of_copies)
    alone.write_text(LAW.format(""))
    module(walked, names)
    status, text = tries(tree, SAID=said, ALONE=alone, WALKED=walked)
    beside = tuple(f"edits one/{label}: refused, terms differ (proofs/Law.antt; with 1 others" in text for label in ("also", "wrong"))
    if beside != wanted or text.count("edits one/") != 2 or text.count(": refused, terms differ (proofs/Law.antt; ") != 2:
        yield f"{beside}, status {status}\n{text}"


# A crate of functions f and g, of which f calls g, over a definition d that g's contract names, and a law that names it: who sees which change.
IMPORTS = {
    "specs.d": [], "proofs.law": ["specs.d"],
    "specs.contracts.g": ["specs.d"], "proofs.g.Statement": ["specs.contracts.g"], "proofs.g.Lts": [], "proofs.g.Answers": ["proofs.g.Lts", "proofs.law"],
    "proofs.g.Proof": ["proofs.g.Statement", "proofs.g.Lts", "proofs.g.Answers"], "proofs.g.Met": ["proofs.g.Statement", "proofs.g.Proof"],
    "specs.contracts.f": [], "proofs.f.Statement": ["specs.contracts.f"], "proofs.f.Proof": ["proofs.f.Statement", "proofs.g.Met"],
    "proofs.TheLinks": ["specs.contracts.g"],
}
SEEN = {
    "a body": ((True, "proofs.g"), {"proofs.g.Proof"}),
    "a contract": ((False, "specs.contracts.g"), {"proofs.g.Proof", "proofs.f.Proof"}),
    "a contract that none calls": ((False, "specs.contracts.f"), {"proofs.f.Proof"}),
    "a definition": ((False, "specs.d"), {"proofs.law", "proofs.g.Proof", "proofs.f.Proof"}),
    "a law": ((False, "proofs.law"), {"proofs.law", "proofs.g.Proof"}),
}


def seen_of(name, work):
    """What is wrong with who sees a change."""
    sys.path.insert(0, str(TOP / "tests"))
    import reach
    (body, place), wanted = SEEN[name]
    for module_name, others in IMPORTS.items():
        text = "".join(f"--@ import Rattle-one-{other} - -\n" for other in others)
        pathlib.Path(work, f"Rattle-one-{module_name}.oantt").write_text(f"--@ kernel k\n{text}--@ reaches\n--@ import Rattle-one-specs.d - -\n")
    modules = reach.Modules("one", work, {"Rattle-one-proofs.law", "Rattle-one-proofs.g.Answers"})
    found = {each for each in modules.judged() if modules.sees(each, (body, "Rattle-one-" + place))}
    if found != {"Rattle-one-" + each for each in wanted}:
        yield f"it is seen by {sorted(found)}"


def unproved(_, work):
    """What is wrong where a crate is not proved as it stands: no edit of it may be tried over what was proved before."""
    tree = one_crate(work)
    script(tree.bin / "rattle", CHECK)
    status, text = tries(tree, proved="not-proved")
    if status == 0 or text.splitlines()[-1] != "0 passed, 1 failed" or (tree.bin.parent / "ran").exists():
        yield text


def told_apart(words, _):
    """What is wrong with the kind that tests/edits gives an error."""
    loader = importlib.machinery.SourceFileLoader("edits", str(TOP / "tests/edits"))
    edits = importlib.util.module_from_spec(importlib.util.spec_from_loader("edits", loader))
    loader.exec_module(edits)
    (error,) = edits.errors(PROOF[2:] + words + "\nfn one::f: not proved\n")
    if edits.fact(error) != SAMPLES[words]:
        yield f"it is of the kind {edits.fact(error)!r}, not {SAMPLES[words]!r}"


def main():
    sys.dont_write_bytecode = True
    wrong, count = [], 0
    parts = (
        (sums, ENDS), (order, ORDER), (some, SOME), (failing, FAILING), (parts_of, OF), (tried, TRIED), (copied, COPIED), (seen_of, SEEN),
        (unproved, ["a crate that is not proved"]), (told_apart, SAMPLES),
    )
    for part, names in parts:
        for name in names:
            count += 1
            with tempfile.TemporaryDirectory() as work:
                wrong += [f"{part.__name__}, {name[:100]}: {fault}" for fault in part(name, work)]
    for line in wrong:
        print("gate: FAILED,", line)
    if wrong:
        return 1
    print(f"gate: {count} tries of the gate's scripts where something is missing, fails or is left of an earlier run: each is told, and nothing left is used")
    return 0


if __name__ == "__main__":
    sys.exit(main())
