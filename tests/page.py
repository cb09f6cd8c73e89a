"""page.py: docs/BREAKER.md has the right numbers and the code's names.

Each number of its tables is computed here, from document 01's rule, RFC 8083's full equation and the limits that the code states. The examples must
also be those of crates/wide/specs/Page.antt and crates/roots/specs/Theorems.antt, over which the prover computes.
"""
import math
import pathlib
import re
import sys

ROOT = pathlib.Path(__file__).resolve().parent.parent
BREAKER, WIDE, ROOTS = (ROOT / "crates" / name for name in ("breaker", "wide", "roots"))
HALF, WORD = 2**32, 2**64


def given(k, length, fraction, size, rtt, rate):
    """The rule's numbers where all k intervals have one length and one fraction lost."""
    return {"k": k, "length": length, "fraction": fraction, "size": size, "rtt": rtt, "rate": rate, "w": k * length, "p": k * length * fraction}


EXAMPLES = {
    "C9": given(2, 5000, 64, 1000, 100, 244948),
    "C10": given(2, 5000, 64, 1000, 100, 244949),
    "limits": given(32, 10000000, 255, 65535, 60000, 125000000),
}
CHAPTERS = {"C10, worked through": ["C9", "C10"], "At the limits, worked through": ["limits"]}
FORMULAS = [
    "X = s / (Tr · sqrt(2 · b · p / 3))",
    "rate² · Tr² · P > 38,400,000,000 · s² · W        38,400,000,000 = 10² · 1000² · 256 · 3 / 2",
    "Tr / 1000 seconds",
    "p = P / (256 · W)",
    "(2^32 - 1)² < 2^64",
    "a · b = ll + hl · 2^32 + lh · 2^32 + hh · 2^64",
    "X = s / (Tr · sqrt(2 · b · p / 3) + t_RTO · (3 · sqrt(3 · b · p / 8) · p · (1 + 32 · p · p)))",
    "n = floor(1024 · p) = floor(4 · P / W)",
    "n · 256 · W ≤ 1024 · P < (n + 1) · 256 · W",
    "A² · 3072 ≤ 2^40 · 2 · n < (A + 1)² · 3072",
    "B² · 8192 ≤ 2^40 · 3 · n < (B + 1)² · 8192",
    "rate · Tr · (A · 2^30 + 12 · B · n · (2^20 + 32 · n²)) > 10,000 · s · 2^50",
    "rate² · Tr² · (2 · p / 3) · (1 + 9 · p · (1 + 32 · p²))² > (10,000 · s)²",
]
# What is given of the full equation's examples: P, W, s, Tr
ROUNDED = {"the roots": (640000, 10000, 30000, 1), "p": (1000, 10000, 1000, 100)}
FULL = (640000, 10000, 1000, 100)


def fail(where, message):
    sys.exit(f"page: FAILED, {where}: {message}")


def read(path):
    return path.read_text(encoding="utf-8")


def constants():
    """The breaker's constants."""
    code = "".join(read(BREAKER / "src" / name) for name in ("lib.rt", "equations.rt"))
    return {name: int(value.replace("_", "")) for name, value in re.findall(r"const (\w+): \w+ = ([\d_]+);", code)}


# ---- what is right


def product(a, b):
    """The steps of a product, by name."""
    (ah, al), (bh, bl) = divmod(a, HALF), divmod(b, HALF)
    ll, hl, lh, hh = al * bl, ah * bl, al * bh, ah * bh
    column1 = ll // HALF + hl % HALF + lh % HALF
    carry = column1 // HALF
    steps = {"a": a, "b": b, "ah": ah, "al": al, "bh": bh, "bl": bl, "ll": ll, "hl": hl, "lh": lh, "hh": hh}
    steps |= {"column0": ll % HALF, "column1": column1, "carry": carry, "column2": hl // HALF + lh // HALF + hh + carry}
    return steps | {"high": a * b // WORD, "low": a * b % WORD, "value": a * b}


def sides(g, scale):
    return {"left": product(g["rate"] * g["rtt"] ** 2, g["rate"] * g["p"]), "right": product(scale * g["w"], g["size"] ** 2)}


def above(g, scale):
    return g["rate"] ** 2 * g["rtt"] ** 2 * g["p"] > scale * g["size"] ** 2 * g["w"]


def on_paper(side, steps):
    """The rows of a product on paper, half by half."""
    rows = {f"{side} {name}": list(divmod(steps[name], HALF)) for name in ("ll", "hl", "lh", "hh")}
    return rows | {f"{side} carry": [steps["carry"]], f"{side} value": [*divmod(steps["high"], HALF), *divmod(steps["low"], HALF)]}


def example_rows(names, scale):
    """The rows of a chapter: what is given, the steps of the last example in both ways of writing, and the words of all where there are several."""
    both = {name: sides(EXAMPLES[name], scale) for name in names}
    left, right = both[names[-1]].values()
    rows = {name: list(EXAMPLES[name].values()) for name in names}
    rows |= {name: [left[name], left[name], right[name], right[name]] for name in left}
    rows |= on_paper("left", left) | on_paper("right", right)
    if len(names) > 1:
        words = {f"{name} left": both[name]["left"] for name in names} | {"right of both": right}
        rows |= {name: [steps["high"], steps["low"], steps["low"], steps["value"]] for name, steps in words.items()}
    return rows


def expected(limits):
    """The numbers of each row of each chapter."""
    scale = limits["SCALE"]
    most = given(limits["MAX_K"], *(limits[f"MAX_{name}"] for name in ("LENGTH", "FRACTION", "SIZE", "RTT", "RATE")))
    both = sides(most, scale)
    factors = {f"{factor} of {side}": [both[side][factor]] for side in both for factor in "ab"}
    if max(max(row) for row in factors.values()) >= WORD:
        fail("the limits", "a factor does not fit 64 bits")
    values = {side: both[side]["value"] for side in both} | {"one word": WORD - 1}
    least = {"r.rate": 1, "r.rtt": 0, "r.size": 1, "k": 1, "length": 1, "fraction": 0, "sums.w": 1, "sums.p": 0}
    chapters = {
        "The rule": {name: [low, most[name.split(".")[-1]]] for name, low in least.items()} | {"SCALE": [scale, scale]},
        "Why 64 bits are not enough": {name: [value, value.bit_length()] for name, value in values.items()},
        "The two products": factors,
        "The half-products": {"ll": [0, 1], "hl": [1, HALF], "lh": [1, HALF], "hh": [2, WORD]},
    }
    return chapters | {chapter: example_rows(names, scale) for chapter, names in CHAPTERS.items()} | full_rows(limits)


# ---- the full equation


def scaled_root(top, bottom):
    """2^20 · sqrt(top / bottom), rounded down."""
    return math.isqrt(2**40 * top // bottom)


def bracket(n):
    """The two roots, and the parts of the bracket with their sum."""
    a, b = scaled_root(2 * n, 3072), scaled_root(3 * n, 8192)
    parts = {"A · 2^30": a * 2**30, "12 · B · n": 12 * b * n, "2^20 + 32 · n²": 2**20 + 32 * n**2}
    return a, b, parts | {"the bracket": a * 2**30 + 12 * b * n * (2**20 + 32 * n**2)}


def full_sides(rate, p, w, size, rtt):
    return rate * rtt * bracket(4 * p // w)[2]["the bracket"], 10000 * size * 2**50


def exact_sides(rate, p, w, size, rtt):
    """The one square at p / (256 · w), both sides times 3 · (256 · w)^7."""
    d = 256 * w
    return rate**2 * rtt**2 * 2 * p * (d**3 + 9 * p * (d**2 + 32 * p**2)) ** 2, (10000 * size) ** 2 * 3 * d**7


def first_rate(sides, given):
    """The first rate at which the left side is above the right one, or nothing."""
    low, high = 0, 2**40
    while high - low > 1:
        middle = (low + high) // 2
        left, right = sides(middle, *given)
        low, high = (low, middle) if left > right else (middle, high)
    return [high] if high < 2**40 else []


def full_example():
    """n, the roots, the parts of the bracket, and the first rate at which the test triggers."""
    n = 4 * FULL[0] // FULL[1]
    return n, *bracket(n), *first_rate(full_sides, FULL)


def full_rows(limits):
    """The numbers of the chapters on the full equation."""
    most = 4 * limits["MAX_FRACTION"]
    factors = {
        "rate · Tr": limits["MAX_RATE"] * limits["MAX_RTT"],
        f"the bracket, n = {most:,}": bracket(most)[2]["the bracket"],
        "10,000 · s": 10000 * limits["MAX_SIZE"],
        "2^50": 2**50,
    }
    rounded = {
        name: [given[0], given[1], 4 * given[0] // given[1], *given[2:], *first_rate(exact_sides, given), *first_rate(full_sides, given)]
        for name, given in ROUNDED.items()
    }
    n, a, b, parts, rate = full_example()
    rules = {
        name: [r**2 * bottom, 2**40 * top * n, (r + 1) ** 2 * bottom] for name, r, top, bottom in (("A", a, 2, 3072), ("B", b, 3, 8192))
    }
    values = parts | {f"left, rate {each:,}": full_sides(each, *FULL)[0] for each in (rate - 1, rate)} | {"right": full_sides(0, *FULL)[1]}
    return {
        "The full equation": {name: [value, value.bit_length()] for name, value in factors.items()},
        "When the full equation's test triggers": rounded,
        "C10 with the full equation": rules | {name: [value] for name, value in values.items()},
    }


def full_numbers(limits):
    """The numbers of the full equation that stand in the text alone."""
    _, a, b, _, rate = full_example()
    return {a, b, rate - 1, rate, 4 * limits["MAX_FRACTION"]}


# ---- what is printed


def number(cell):
    """A cell that is a number: halves in hexadecimal, a decimal number with commas, or a power of 2."""
    if re.fullmatch(r"[0-9A-F]{8}( [0-9A-F]{8})*", cell):
        return int(cell.replace(" ", ""), 16)
    if re.fullmatch(r"2\^\d+", cell):
        return 2 ** int(cell[2:])
    return int(cell.replace(",", "")) if re.fullmatch(r"\d{1,3}(,\d{3})*", cell) else None


def printed(lines):
    """The line, the chapter, the name and the numbers of each row, of tables and of products on paper."""
    chapter, side = "", None
    for at, line in enumerate(lines, 1):
        if line.startswith("#"):
            chapter = line.lstrip("# ")
        elif line.startswith("|"):
            cells = [cell.strip() for cell in line.strip("|").split("|")]
            yield at, chapter, cells[0].replace("`", ""), [number(cell) for cell in cells[1:] if number(cell) is not None]
        elif re.fullmatch(r"(left|right) +column2 +column1 +column0", line):
            side = line.split()[0]
        elif not line:
            side = None
        elif side and not line.startswith(" "):
            yield at, chapter, f"{side} {line.split()[0]}", [number(half) for half in line.split()[1:]]


def check_rows(lines, chapters):
    missing = {(chapter, name) for chapter, rows in chapters.items() for name in rows}
    count = 0
    for at, chapter, name, numbers in printed(lines):
        wanted = chapters.get(chapter, {}).get(name, numbers)
        if numbers != wanted:
            fail(f"docs/BREAKER.md, line {at}", f"{name} is {numbers}, but {wanted} is right (hex {[f'{n:X}' for n in wanted]})")
        missing.discard((chapter, name))
        count += len(numbers)
    for chapter, name in sorted(missing):
        fail("docs/BREAKER.md", f"the chapter {chapter} has no row {name}")
    return count


def check_text(text, chapters, limits):
    """The formulas, the verdicts, and no long number that is none of the tables'."""
    for formula in FORMULAS:
        if formula not in text:
            fail("docs/BREAKER.md", f"the formula {formula} is not there")
    verdicts = re.findall(r"`left\.above\(right\)` is `(\w+)`", text)
    if verdicts != [str(above(g, limits["SCALE"])).lower() for g in EXAMPLES.values()]:
        fail("docs/BREAKER.md", f"the verdicts of {', '.join(EXAMPLES)} are not {', '.join(verdicts)}")
    known = {n for rows in chapters.values() for row in rows.values() for n in row} | set(limits.values()) | full_numbers(limits)
    for found in re.findall(r"\d{1,3}(?:,\d{3})+", text):
        if number(found) not in known:
            fail("docs/BREAKER.md", f"{found} is none of the numbers of the tables and limits")


def check_names(lines):
    """Each name and file is there, and in a table with files each line of code stands in its file."""
    code = " ".join(read(path) for crate in (BREAKER, WIDE, ROOTS) for path in crate.rglob("*") if path.suffix in (".rt", ".antt"))
    words = set(re.findall(r"\w+", code))
    count = 0
    for at, line in enumerate(lines, 1):
        for text in re.findall(r"`([^`]+)`", line):
            there = (ROOT / text).is_file() if re.fullmatch(r"[\w/.]+/[\w.]+", text) else words.issuperset(re.findall(r"\b[A-Za-z]\w*", text))
            if not there:
                fail(f"docs/BREAKER.md, line {at}", f"{text} is not in the code")
            count += 1
        cells = [re.findall(r"`([^`]+)`", cell) for cell in line.strip("|").split("|")]
        if len(cells) > 2 and cells[1] and cells[1][0].startswith("crates/"):
            for text in cells[2]:
                if text not in read(ROOT / cells[1][0]):
                    fail(f"docs/BREAKER.md, line {at}", f"{text} is not in {cells[1][0]}")
    return count


def fields(text):
    return {name: int(value.replace("_", ""), 0) for name, value in re.findall(r"(\w+) = (0x[0-9A-F_]+|[\d_]+)\b", text)}


def check_proved(scale):
    """The table that the prover computes over has the same examples."""
    table = read(WIDE / "specs" / "Page.antt")
    products = {name: fields(text) for name, text in re.findall(r"\n(\w+) =\n +record \{\n((?: {6}.*\n)+)", table)}
    rows = re.findall(r"given = record \{(.*)\};\n +outcome = record \{ left = (\w+); right = (\w+); above = (\w+) \};", table)
    if len(rows) != len(EXAMPLES):
        fail("crates/wide/specs/Page.antt", f"{len(rows)} examples and not {len(EXAMPLES)}")
    for (name, g), (numbers, left, right, verdict) in zip(EXAMPLES.items(), rows):
        wanted = [g, *sides(g, scale).values()]
        for steps, found in zip(wanted, (fields(numbers), products[left], products[right])):
            wrong = {step: n for step, n in found.items() if steps.get(step) != n}
            if wrong or len(found) not in (5, len(steps) - 1):
                fail("crates/wide/specs/Page.antt", f"{name}: {wrong or found} is not what is right, {steps}")
        if verdict != str(above(g, scale)).lower():
            fail("crates/wide/specs/Page.antt", f"{name}: above = {verdict}")
    return len(rows)


def check_full():
    """The facts of the full equation's examples are among those that the prover computes."""
    n, a, b, parts, rate = full_example()
    facts = [f"round_trip_root {n} ≡ {a}", f"timeout_root {n} ≡ {b}", f"scaled_denominator {n} ≡ {parts['the bracket']}"]
    verdicts = [("full_condition", rate - 1, FULL, "false"), ("full_condition", rate, FULL, "true")]
    for given in ROUNDED.values():
        (rate,) = first_rate(exact_sides, given)
        verdicts += [("exact_condition", rate, given, "true"), ("full_condition", rate, given, "false")]
    facts += [f"{name} {rate} {rtt} {p} {size} {w} ≡ {verdict}" for name, rate, (p, w, size, rtt), verdict in verdicts]
    for fact in facts:
        if f"({fact})" not in read(ROOTS / "specs" / "Theorems.antt"):
            fail("crates/roots/specs/Theorems.antt", f"{fact} is not there")
    return len(facts)


def main():
    text = read(ROOT / "docs" / "BREAKER.md")
    limits = constants()
    chapters = expected(limits)
    proved = check_proved(limits["SCALE"])
    facts = check_full()
    numbers = check_rows(text.splitlines(), chapters)
    check_text(text, chapters, limits)
    names = check_names(text.splitlines())
    print(f"page: {numbers} numbers and {names} names of docs/BREAKER.md are right; wide proves its {proved} examples, roots {facts} facts of the full equation")


main()
