"""The recipes of docs/TABLE.md, "Forty tables", for tests/readers: a folder of tables that ecntable wrote, and what each recipe must give of it.

The traces are drawn here: senders that lose, repeat, delay and mark packets, that jump and begin again, with labels of every kind. What is right is counted
from the packets, by the rules of docs/TABLE.md, and not from the tables: what a block brought is counted over its own packets, so no difference of rows has
a part in it. A recipe with its care for restarts taken out must be found wrong.
"""
import json
import pathlib
import random
import re
import shutil
import subprocess
import sys
import tempfile

import writer

COUNTS = ["ect0", "ect1", "ce", "notect", "lost", "dup", "jumped", "restarts"]
MARKS = {2: "ect0", 1: "ect1", 3: "ce", 0: "notect"}
SEED = 20261117


class Sender:
    """What docs/TABLE.md says of one stream: the packets since the last restart, and the jumps and restarts of all."""

    def __init__(self):
        self.begun, self.next, self.jumped, self.restarts = False, None, 0, 0

    def begin(self, number):
        self.begun, self.first, self.highest, self.seen = True, number, number, {number}

    def arrive(self, number):
        """'new', 'again' (a duplicate), 'jump' or 'restart'."""
        if not self.begun:
            self.begin(number)
            return "new"
        above = (number - self.highest) % 65536
        true = self.highest + above if above < 3000 else self.highest + above - 65536
        if true < self.highest - 99:
            if number == self.next:
                self.begin(number)
                self.next, self.restarts = None, self.restarts + 1
                return "restart"
            self.next, self.jumped = (number + 1) % 65536, self.jumped + 1
            return "jump"
        known = true in self.seen
        self.next, self.highest = None, max(self.highest, true)
        self.seen.add(true)
        return "again" if known else "new"

    def lost(self):
        return self.highest - self.first + 1 - len(self.seen) if self.begun else 0


def judged(blocks):
    """(the row after each block, what the block brought), from the packets."""
    sender, totals = Sender(), dict.fromkeys(COUNTS, 0)
    for records in blocks:
        brought, lost = dict.fromkeys(COUNTS, 0), sender.lost()
        for _, number, mark in records:
            kind = sender.arrive(number)
            if kind == "restart":
                fresh = dict.fromkeys(COUNTS, 0) | {name: brought[name] for name in ("jumped", "restarts")}
                brought, lost, totals = fresh, 0, dict.fromkeys(COUNTS, 0)
            if kind in ("jump", "restart"):
                brought["jumped" if kind == "jump" else "restarts"] += 1
            if kind != "jump":
                brought[MARKS[mark]] += 1
                brought["dup"] += kind == "again"
        brought["lost"] = sender.lost() - lost
        totals = {name: totals[name] + brought[name] for name in COUNTS} | {"jumped": sender.jumped, "restarts": sender.restarts}
        yield {"highest": sender.highest, **totals}, brought


def drawn(draw, blocks):
    """Blocks of a sender that loses, repeats, delays, jumps and begins again."""
    number, time, made = draw.randrange(65536), 0, []
    for _ in range(blocks):
        records = []
        for _ in range(draw.randint(1, 62)):
            step = draw.choices(("next", "lost", "twice", "late", "stray", "reboot"), (60, 12, 8, 8, 3, 2))[0]
            number += {"next": 1, "lost": draw.randint(2, 40), "reboot": draw.randint(4000, 60000)}.get(step, 0)
            sent = number + {"late": -draw.randint(1, 30), "stray": draw.randint(5000, 60000)}.get(step, 0)
            time += 20
            records.append((time, sent % 65536, draw.choice((0, 1, 2, 2, 2, 3))))
        made.append(records)
    return made


def by_hand():
    """Restarts where a difference goes wrong: in the first block, over two blocks, twice in one, at once and at the end; and a trace of the label only."""
    packets = [[5, 6, 7], [40000, 40001, 40002], [40004], [100, 101, 20000, 20001, 20001], [20003, 60000], [60001, 60002]]
    packets = [packets, [[1, 30000, 30001], [30002, 30003]], [[9, 8, 7, 6], [5, 5]], [[65534, 65535, 0], [1, 50000, 2, 50001]], []]
    return [[[(at, number, at % 4) for at, number in enumerate(block)] for block in trace] for trace in packets]


def folder_of_tables(ecntable, folder, labels):
    """Forty tables in a folder; gives (name, label, ssrc, blocks) of each, in the order of names."""
    draw, traces = random.Random(SEED), by_hand()
    traces += [drawn(draw, draw.randint(1, 12)) for _ in range(40 - len(traces))]
    made = []
    for at, blocks in enumerate(traces):
        label, ssrc = labels[at * 7 % len(labels)], 4_000_000_000 + at
        trace = [writer.label(label.encode(), ssrc), *(writer.arrivals(records, ssrc) for records in blocks)]
        ran = subprocess.run([ecntable], input=b"".join(trace), capture_output=True, check=True)
        (folder / f"night {at:02}.csv").write_bytes(ran.stdout)
        made.append((f"night {at:02}", label, ssrc, blocks))
    return made


def right(made):
    """The three tables that a recipe must give: rows, last, brought."""
    rows, last, brought = [], [], []
    for name, label, ssrc, blocks in made:
        of_table = []
        for block, (row, part) in enumerate(judged(blocks), 1):
            of_table.append([name, block, label, ssrc, *row.values()])
            brought.append([name, block, *part.values()])
        rows += of_table
        last += of_table[-1:]
    return [rows, last, brought]


# ---- each way to run a recipe gives its three tables


def python(code, _):
    names = {}
    exec(code, names)
    return [[list(row.values()) for row in names[name]] for name in ("rows", "last", "brought")]


def pandas(code, pythons):
    program = "import json, sys\nnames = {}\nexec(sys.argv[1], names)\n"
    program += "print(json.dumps([names[name].values.tolist() for name in ('rows', 'last', 'brought')]))\n"
    for each in pythons:
        if shutil.which(each) and subprocess.run([each, "-c", "import pandas"], capture_output=True).returncode == 0:
            return json.loads(subprocess.run([each, "-W", "error", "-c", program, code], capture_output=True, check=True).stdout)
    raise FileNotFoundError("pandas")


R_PRINTS = """
eval(parse(text = commandArgs(TRUE)[1]))
hex <- function(text) paste0("x", paste(as.character(charToRaw(text)), collapse = ""))
for (name in c("rows", "last", "brought")) for (i in seq_len(nrow(get(name)))) {
  row <- get(name)[i, ]
  cells <- lapply(row, function(cell) if (is.character(cell)) hex(cell) else format(cell, scientific = FALSE, trim = TRUE))
  cat(name, unlist(cells), "\\n")
}
"""


def r(code, _):
    if not shutil.which("Rscript"):
        raise FileNotFoundError("Rscript")
    with tempfile.NamedTemporaryFile("w", suffix=".R") as program:
        program.write(R_PRINTS)
        program.flush()
        printed = subprocess.run(["Rscript", program.name, code], capture_output=True, check=True, text=True).stdout
    found = {"rows": [], "last": [], "brought": []}
    for name, *cells in map(str.split, printed.splitlines()):
        found[name].append([bytes.fromhex(cell[1:]).decode("ascii") if cell.startswith("x") else int(cell) for cell in cells])
    return list(found.values())


# The way to run it, the line breaks of labels that it makes LF, and its care for restarts with what stands in its place in a wrong recipe
RECIPES = {
    "Forty tables in Python": (python, None, ("(0 if again else before[column])", "before[column]")),
    "Forty tables in pandas": (pandas, None, ('before.loc[rows["restarts"] != before["restarts"], counts] = 0\n', "")),
    "Forty tables in R": (r, r"\r\n|\r", ("before[rows$restarts != before$restarts, counts] <- 0\n", "")),
}


def tried(name, code, folder, made, pythons):
    """How many of the three tables a recipe gives right and wrong; its copy without care must give the third wrong, and a refused line must end it."""
    way, breaks, (care, careless) = RECIPES[name]
    wanted = right([(table, re.sub(breaks, "\n", label) if breaks else label, *rest) for table, label, *rest in made])
    code = code.replace('"tables', f'"{folder}')
    try:
        found, wrong = way(code, pythons), way(code.replace(care, careless), pythons)
    except FileNotFoundError as missing:
        print(f"readers: {name}: skipped, {missing} is not there")
        return 0, 0
    except subprocess.SubprocessError as error:
        print(f"readers: {name}: FAILED, {type(error).__name__}: {error.stderr!r}")
        return 0, 5
    held = [a == b for a, b in zip(found, wanted)] + [wrong[:2] == wanted[:2] and wrong[2] != wanted[2], ends(way, code, folder, pythons)]
    for what, holds in zip(("rows", "last", "brought", "its copy without care for restarts", "a refused table"), held):
        if not holds:
            print(f"readers: {name}: FAILED, {what}")
    print(f"readers: {name}: {sum(held)} of {len(held)} hold, on {len(made)} tables with {len(wanted[0])} rows and {restarts(made)} restarts")
    return sum(held), len(held) - sum(held)


def restarts(made):
    return sum(part["restarts"] for _, _, _, blocks in made for _, part in judged(blocks))


def ends(way, code, folder, pythons):
    """Whether a recipe ends with an error if one table has a refused line."""
    refused = folder / "refused.csv"
    refused.write_bytes((folder / "night 00.csv").read_bytes() + b"refused 13 block 7\r\n")
    try:
        way(code, pythons)
    except (subprocess.SubprocessError, TypeError, ValueError):
        return True
    finally:
        refused.unlink()
    return False


def all_tried(recipe, ecntable, labels):
    """(passed, failed) of all recipes. `recipe` gives the lines of code below a heading of the page."""
    with tempfile.TemporaryDirectory() as work:
        folder = pathlib.Path(work)
        made = folder_of_tables(ecntable, folder, labels)
        counts = [tried(name, recipe(name), folder, made, (sys.executable, "/usr/bin/python3")) for name in RECIPES]
    return tuple(sum(count) for count in zip(*counts))
