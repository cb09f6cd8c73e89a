#!/usr/bin/env python3
"""tests/prototypes.py: every function of the C library is declared as its source has it, wherever it is declared.

The source is each `pub extern "C" fn` of crates/capi_c. Declarations stand in include/flasknib.h; made from it by packaging/declarations, in the package in
Python and the crate in Rust; and, by hand, in the benchmarks. Result, order, types, constness and names of the parameters are compared; a slice is a
pointer, to const unless it is `&mut`, and the count behind it. Two rules on names: what the source calls `words` is called by its record elsewhere (`source`, `sources`, `forms`, `upload`); and the
count behind a pointer is `words` or `NAME_words`, of bytes `length` or `NAME_length`, of the lists of an arrivals block `n_NAME`, of `out` always `room`.
In the header each function is marked, so that its answer is used and no pointer is null.
The manual page has each function once under RETURN VALUE, beside others with its result. Copies are then broken in several ways, and each must be found.
"""
import glob
import os
import re
import sys

TOP = os.path.dirname(os.path.dirname(os.path.abspath(__file__)))
HEADER, MANUAL = "include/flasknib.h", "man/flasknib.3"
PACKAGE, CRATE, TIMED = "python/flasknib/header.py", "rust/flasknib/src/header.rs", "bench/library.rs"

C_TYPES = {f"{sign}int{bits}_t": f"{'u' if sign else 'i'}{bits}" for sign in ("u", "") for bits in (8, 16, 32, 64)} | {"size_t": "usize"}
LISTS = {"times", "numbers", "marks"}

PROTOTYPE = re.compile(r"^(?P<result>\w+) (?P<name>flasknib_\w+)\((?P<parameters>[^)]*)\)(?:\s+(?P<mark>FLASKNIB_\w+))?;", re.M)
RUST = re.compile(r"^ *(?:pub )?fn (?P<name>flasknib_\w+)\((?P<parameters>[^)]*)\) -> (?P<result>\w+);", re.M)
RATTLE = re.compile(r'^pub extern "C" fn (?P<name>flasknib_\w+)\((?P<parameters>[^)]*)\) -> (?P<result>\w+)', re.M)


def texts():
    """The files that are compared, by their names."""
    names = [os.path.relpath(path, TOP) for path in glob.glob(os.path.join(TOP, "crates/capi_c/src/*.rt"))]
    found = {}
    for name in [*names, HEADER, MANUAL, PACKAGE, CRATE, TIMED]:
        with open(os.path.join(TOP, name), encoding="utf-8") as file:
            found[name] = file.read()
    return found


# ---- a declaration is (result, [(type, name)]), with the types of Rust


def split(parameters):
    return [part for part in re.split(r",\s*", parameters.strip()) if part not in ("", "void")]


def c_parameter(text):
    const, kind, pointer, name = re.fullmatch(r"(const )?(\w+) (\*?)(\w+)", text).groups()
    kind = C_TYPES.get(kind, kind)
    return (f"*{'const' if const else 'mut'} {kind}" if pointer else kind), name


def in_c(text):
    text = re.sub(r"/\*.*?\*/", "", text, flags=re.S)
    return {d["name"]: (C_TYPES.get(d["result"]), [c_parameter(p) for p in split(d["parameters"])]) for d in PROTOTYPE.finditer(text)}


def in_rust(text):
    return {d["name"]: (d["result"], [tuple(p.split(": ")[::-1]) for p in split(d["parameters"])]) for d in RUST.finditer(text)}


# ---- what the source asks for: a name is a set of those that are right


def record(function):
    """The name of a record that the source calls `words`."""
    names = {"sources": "sources", "forms": "forms", "feed": "upload"}
    return next((names[first] for first in names if f"{function}_".startswith(f"flasknib_{first}_")), "source")


def counts(kind, name):
    if name == "out":
        return {"room"}
    if name in LISTS:
        return {f"n_{name}"}
    plain = "words" if kind == "u64" else "length"
    return {plain, f"{name}_{plain}", f"{name.rstrip('s')}_{plain}"}


def in_source(declaration):
    """The parameters of a function of the source, as C has them."""
    for parameter in split(declaration["parameters"]):
        name, kind = parameter.split(": ")
        slice_ = re.fullmatch(r"&(mut )?\[(\w+)\]", kind)
        if not slice_:
            yield kind, {name}
            continue
        name = record(declaration["name"]) if name == "words" else name
        yield f"*{'mut' if slice_[1] else 'const'} {slice_[2]}", {name}
        yield "usize", counts(slice_[2], name)


def sources(files):
    return {d["name"]: (d["result"], list(in_source(d))) for name in files if name.endswith(".rt") for d in RATTLE.finditer(files[name])}


def shown(declaration):
    """A declaration for a reader; of a name that the source leaves open, all that are right."""
    result, parameters = declaration
    return f"{result} ({', '.join(kind + ' ' + (name if isinstance(name, str) else '|'.join(sorted(name))) for kind, name in parameters)})"


def fits(declared, source):
    """Whether a declaration is one that the source asks for."""
    types, wanted = [kind for kind, _ in declared[1]], [kind for kind, _ in source[1]]
    return declared[0] == source[0] and types == wanted and all(name in right for (_, name), (_, right) in zip(declared[1], source[1]))


# ---- the package in Python has types, and calls in which a pointer and its count are one argument

BOUND = re.compile(r'^_\w+ = bind\("(?P<name>flasknib_\w+)", (?P<types>.*)\)\n\n\ndef \w+\((?P<parameters>.*)\) -> int:\n(?P<body>(?: {4}.*\n)*)', re.M)


def in_package(text):
    """Of each function its types, the names of its parameters, and the lines of its call."""
    found = {}
    for d in BOUND.finditer(text):
        names = [part.split(": ")[0] for part in split(d["parameters"])]
        found[d["name"]] = split(d["types"]), names, set(re.sub(r'""".*?"""', "", d["body"], flags=re.S).split("\n    "))
    return found


def packaged(name, declaration):
    """The same, as the header asks for it: bytes are lent by their kind, numbers are held to their types, and what is written is kept apart."""
    result, parameters = declaration
    types, names, call, lines, outs, ins, counted = [result], [], [], set(), [], [], False
    for kind, parameter in parameters:
        lent, of_bytes = kind.startswith("*"), kind.endswith(" u8") and kind.startswith("*")
        types.append("memory" if of_bytes else f"pointer({kind.split(' ')[1]})" if lent else kind)
        if counted:
            call.append(f"len({call[-1]})")
        else:
            names.append(parameter)
            call.append(f"lent_{parameter}" if of_bytes else parameter)
            if of_bytes:
                lines.add(f"lent_{parameter} = {'read' if 'const' in kind else 'written'}({parameter})")
            elif not lent:
                lines.add(f"{parameter} = fits({parameter}, {kind})")
            if lent:
                (ins if "const" in kind else outs).append(call[-1])
        counted = lent
    lines |= {f"apart({', '.join(outs[at:] + ins)})" for at in range(len(outs)) if outs[at + 1 :] + ins}
    return types, names, lines | {f"return _{name.partition('_')[2]}({', '.join(call)})"}


def same_in_package(found, wanted):
    """Whether a call is the header's."""
    types, names, lines = found
    return (types, names) == wanted[:2] and {line.strip() for line in lines if line.strip()} == wanted[2]


# ---- what is wrong


def undeclared(files, header):
    """Functions that a file lacks, or has too many."""
    for file, there in ((PACKAGE, in_package(files[PACKAGE])), (CRATE, in_rust(files[CRATE]))):
        if set(there) != set(header):
            yield f"{file} has not the functions that it must: {', '.join(sorted(set(there) ^ set(header)))}"
    more = set(in_rust(files[TIMED])) - set(header)
    if more:
        yield f"{TIMED} has functions that the header has not: {', '.join(sorted(more))}"


def different(files, header):
    """Declarations that are not the header's."""
    for file in (CRATE, TIMED):
        for name, declared in in_rust(files[file]).items():
            if name in header and declared != header[name]:
                yield f"{file}: {name} is {shown(declared)}, and in the header {shown(header[name])}"
    for name, found in in_package(files[PACKAGE]).items():
        if name in header and not same_in_package(found, packaged(name, header[name])):
            yield f"{PACKAGE}: {name} is not called as the header has it"


def unmarked(files):
    """Functions of the header whose answer may be dropped, or whose pointers may be null."""
    for d in PROTOTYPE.finditer(re.sub(r"/\*.*?\*/", "", files[HEADER], flags=re.S)):
        mark = "FLASKNIB_MUST_USE_NONNULL" if "*" in d["parameters"] else "FLASKNIB_MUST_USE"
        if d["mark"] != mark:
            yield f"{HEADER}: {d['name']} is not marked with {mark}"


def unreturned(files, header):
    """Functions that RETURN VALUE of the manual page has not once, or beside one with another result."""
    page = files[MANUAL].partition(".SH RETURN VALUE\n")[2].partition("\n.SH ")[0]
    seen = []
    for line in page.replace("\\\n", "").splitlines():
        listed = re.findall(r"flasknib_\w+(?:\s*\"?\.\.\.)?", line) if re.match(r"\.BR? flasknib_", line) else []
        stands = [name for name in header for text in listed if name == text or text.endswith("...") and name.startswith(text.rstrip('." '))]
        if len({header[name][0] for name in stands}) > 1:
            yield f"{MANUAL}: functions of several results stand together: {', '.join(stands)}"
        seen += stands
    for name in header:
        if seen.count(name) != 1:
            yield f"{MANUAL}: RETURN VALUE has {name} {seen.count(name)} times"


def faults(files):
    """(what is wrong, the functions of the source)."""
    source, header = sources(files), in_c(files[HEADER])
    wrong = [f"{name} is not in both crates/capi_c and {HEADER}" for name in sorted(set(source) ^ set(header))]
    for name in sorted(set(source) & set(header)):
        if not fits(header[name], source[name]):
            wrong.append(f"{HEADER}: {name} is {shown(header[name])}, and in crates/capi_c {shown(source[name])}")
    return wrong + [*undeclared(files, header), *different(files, header), *unmarked(files), *unreturned(files, header)], len(source)


# ---- broken copies: in each file one declaration is changed, in these ways (a pattern, and what takes its place)

FUNCTION = "flasknib_write_row"
EVERYWHERE = {"parameters exchanged": (r"jumped(.*)restarts", r"restarts\1jumped"), "a function gone": (FUNCTION, "other")}
IN_C = EVERYWHERE | {
    "a width changed": (r"uint32_t ssrc", "uint16_t ssrc"),
    "a sign changed": (r"uint64_t jumped", "int64_t jumped"),
    "const dropped": (r"const uint64_t \*source", "uint64_t *source"),
    "const added": (r"uint8_t \*out", "const uint8_t *out"),
    "another result": (r"^int64_t", "int32_t"),
    "counts exchanged": (r"length(.*)words", r"words\1length"),
    "a pointer without its count": (r"size_t words, ", ""),
    "its mark gone": (r"\s+FLASKNIB_MUST_USE_NONNULL", ""),
    "another mark": (r"FLASKNIB_MUST_USE_NONNULL", "FLASKNIB_MUST_USE"),
}
IN_RATTLE = EVERYWHERE | {
    "a width changed": (r"ssrc: u32", "ssrc: u16"),
    "a sign changed": (r"jumped: u64", "jumped: i64"),
    "const dropped": (r"words: &\[", "words: &mut ["),
    "const added": (r"out: &mut \[", "out: &["),
    "another result": (r"-> i64", "-> i32"),
}
IN_RUST = IN_RATTLE | {
    "const dropped": (r"source: \*const", "source: *mut"),
    "const added": (r"out: \*mut", "out: *const"),
    "counts exchanged": (r"length(.*)words", r"words\1length"),
    "a pointer without its count": (r"words: usize,\s+", ""),
}
IN_PACKAGE = {
    "a width changed": (r'(bind\("flasknib_write_row", i64, memory, usize), u32', r"\1, u16"),
    "another result": (r'bind\("flasknib_write_row", i64', 'bind("flasknib_write_row", u64'),
    "a function gone": (r"flasknib_write_row", "flasknib_other"),
    "a number that is not held to its type": (r"    jumped = fits\(jumped, u64\)\n", ""),
    "a limit of another type": (r"fits\(restarts, u64\)", "fits(restarts, u32)"),
    "memory that is not lent to be written": (r"lent_out = written\(out\)", "lent_out = read(out)"),
    "memory that is not kept apart": (r"    apart\(lent_out, lent_label, source\)\n", ""),
    "arguments exchanged": (r"(return _write_row\(.*)jumped, restarts", r"\1restarts, jumped"),
    "another count": (r"(return _write_row\(.*)len\(lent_out\)", r"\1len(lent_label)"),
}
IN_MANUAL = {"a function gone": (r"flasknib_lost\b", "flasknib_loss"), "a function twice": (r"flasknib_lost\b", "flasknib_arrive")}
PATTERNS = {".h": PROTOTYPE, ".rs": RUST, ".rt": RATTLE}


def broken(files, file, change):
    """A copy in which a declaration of a file is changed; where it has none of that kind, its text."""
    text, pattern = files[file], PATTERNS.get(os.path.splitext(file)[1])
    first, last = next(d.span() for d in pattern.finditer(text) if d["name"] == FUNCTION) if pattern else (0, len(text))
    return {**files, file: text[:first] + re.sub(*change, text[first:last], count=1, flags=re.S if pattern else 0) + text[last:]}


def copies(files):
    """(name, broken copy) of each way of breaking one. Of the benchmarks none is gone: they declare what they time."""
    source = next(name for name in files if name.endswith(".rt") and FUNCTION in files[name])
    ways = {HEADER: IN_C, source: IN_RATTLE, CRATE: IN_RUST, TIMED: IN_RUST, PACKAGE: IN_PACKAGE, MANUAL: IN_MANUAL}
    for file, changes in ways.items():
        for what, change in changes.items():
            if (file, what) != (TIMED, "a function gone"):
                yield f"{file}, {what}", broken(files, file, change)


def main():
    files = texts()
    wrong, seen = faults(files)
    tried = [] if wrong else list(copies(files))
    wrong += [f"a broken copy is not found: {name}" for name, copy in tried if copy == files or not faults(copy)[0]]
    for line in wrong:
        print("prototypes: FAILED,", line)
    if not wrong:
        print(f"prototypes: {seen} functions, declared everywhere as in the source; {len(tried)} broken copies are found")
    return 1 if wrong else 0


if __name__ == "__main__":
    sys.exit(main())
