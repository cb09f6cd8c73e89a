#!/usr/bin/env python3
"""tests/stack.py [--measured]: the stack of each call of the library, from its code, against what include/flasknib.h says of it.

A function takes its return address, 8 bytes for each push, what it takes off %rsp and what it uses below that, all of them together, and then what the
deepest function takes that it calls: so it is an upper limit for every path. A call through a register, a function that comes back to itself, and any other
use of %rsp than these are failures, since nothing could be said of them. Of memcpy and its like only the return address is counted: they are the C library's. The
header has a list of limits, and each function stands at the least that is enough. Copies are then broken in several ways, and each must be found.
With --measured the numbers are printed.
"""
import os
import re
import subprocess
import sys

TOP = os.path.dirname(os.path.dirname(os.path.abspath(__file__)))
LIBRARY, HEADER = os.path.join(TOP, "target/staticlib/libcapi.a"), os.path.join(TOP, "include/flasknib.h")

FUNCTION = re.compile(r"^[0-9a-f]+ <(?P<name>.*)>:$")
CODE = re.compile(r"^\s*[0-9a-f]+:\t(?P<op>\S+)\s*(?P<operands>.*?)\s*$")
TARGET = re.compile(r"^\s*[0-9a-f]+: R_X86_64_(?:PLT32|PC32|GOTPCRELX?|REX_GOTPCRELX)\t(?:\.text\.)?(?P<name>.+?)-0x[0-9a-f]+$")
TAKES = re.compile(r"^\$(?P<bytes>0x[0-9a-f]+|-0x[0-9a-f]+),%rsp$")
OUTSIDE = re.compile(r"mem(cpy|move|set|cmp)$")


class Unknown(Exception):
    """Code of which the stack cannot be said."""


def code():
    return subprocess.run(["objdump", "-dr", "--no-show-raw-insn", LIBRARY], stdout=subprocess.PIPE, check=True, text=True).stdout


def taken(op, operands, name):
    """The bytes of stack that an instruction takes."""
    if op in ("push", "pushq"):
        return 8
    if not operands.endswith(",%rsp") or op in ("cmp", "test"):
        return 0
    found = TAKES.match(operands)
    if not found or op not in ("sub", "add"):
        raise Unknown(f"{name}: {op} {operands}")
    return int(found["bytes"], 16) if op == "sub" else 0


def below(operands):
    """The bytes below %rsp that an instruction uses: a function that calls no other may use 128 of them."""
    return max((int(at, 16) for at in re.findall(r"-(0x[0-9a-f]+)\(%rsp", operands)), default=0)


def functions(text):
    """name: (bytes of its own, the functions that it calls)."""
    own, used, called, name, op = {}, {}, {}, None, ""
    for line in text.splitlines():
        head, target, instruction = FUNCTION.match(line), TARGET.match(line), CODE.match(line)
        if target and op.startswith(("call", "jmp", "j")):
            called[name].add(target["name"])
            op = ""
        elif op.startswith("call") and (head or instruction):
            raise Unknown(f"{name}: a call of nothing that has a name")
        if head:
            name = head["name"]
            own[name], used[name], called[name] = 8, 0, set()
        elif instruction:
            op, operands = instruction["op"], instruction["operands"]
            own[name] += taken(op, operands, name)
            used[name] = max(used[name], below(operands))
    return {name: (own[name] + used[name], called[name]) for name in own}


def depth(name, found, above=()):
    """The bytes of stack of a call."""
    if name in above:
        raise Unknown(f"{name} calls itself")
    if OUTSIDE.match(name):
        return 8
    if name not in found:
        raise Unknown(f"{name} is not in the library")
    own, called = found[name]
    return own + max((depth(other, found, (*above, name)) for other in called), default=0)


def measured(text):
    found = functions(text)
    return {name: depth(name, found) for name in found if name.startswith("flasknib_")}


def said(header):
    """(limit, functions) of each line of the list in the header, which has none twice."""
    section = header.partition("/* ---- the stack of a call ")[2].partition("*/")[0]
    section = re.sub(r"\n \* {3,}(?! |[\d,]+ bytes)", " ", section)
    for limit, names in re.findall(r"^ \*   +([\d,]+) bytes: (.*)$", section, re.M):
        yield int(limit.replace(",", "")), re.findall(r"flasknib_\w+", names)


def faults(text, header):
    try:
        sizes = measured(text)
    except Unknown as unknown:
        return [f"nothing can be said of the stack: {unknown}"]
    limits, wrong, seen = list(said(header)), [], []
    steps = [limit for limit, _ in limits]
    for limit, names in limits:
        seen += names
        for name in names:
            least = next((step for step in sorted(steps) if sizes.get(name, 0) <= step), None)
            if name not in sizes or limit != least:
                wrong.append(f"{name} takes {sizes.get(name)} bytes, and stands at {limit}")
    declared = re.findall(r"^\w+ (flasknib_\w+)\(", header, re.M)
    if sorted(seen) != sorted(declared) or sorted(declared) != sorted(sizes):
        odd = {name for name in {*seen, *declared, *sizes} if (seen.count(name), declared.count(name), name in sizes) != (1, 1, True)}
        wrong.append(f"not once in the list, in the header and in the library: {', '.join(sorted(odd))}")
    return wrong


def copies(text, header):
    """(what is broken, code, header)."""
    frame = re.compile(r"(<flasknib_feed>:\n(?:.*\n)*?.*\tsub +\$)(0x[0-9a-f]+)(,%rsp)")
    yield "a larger frame", frame.sub(lambda found: f"{found[1]}0x10000{found[3]}", text, count=1), header
    yield "a stack that is aligned", frame.sub(r"\g<1>\2\3\n       9:\tand    $0xfffffffffffffff0,%rsp", text, count=1), header
    yield "a call through a register", frame.sub(r"\g<1>\2\3\n       9:\tcall   *%rax", text, count=1), header
    yield "a function that calls itself", frame.sub(r"\g<1>\2\3\n       9:\tcall   e\n\t\t\ta: R_X86_64_PLT32\tflasknib_feed-0x4", text, count=1), header
    yield "a function that the list has not", text, re.sub(r"(\n \* .*bytes:.*) flasknib_\w+,", r"\1", header, count=1)
    yield "no list", text, header.replace("---- the stack of a call", "---- a call")


def main():
    with open(HEADER, encoding="utf-8") as file:
        header = file.read()
    text = code()
    if "--measured" in sys.argv:
        for name, size in sorted(measured(text).items(), key=lambda item: (item[1], item[0])):
            print(f"{size:6} {name}")
        return 0
    wrong = faults(text, header)
    tried = [] if wrong else list(copies(text, header))
    wrong += [f"a broken copy is not found: {name}" for name, *copy in tried if copy == [text, header] or not faults(*copy)]
    for line in wrong:
        print("stack: FAILED,", line)
    if not wrong:
        sizes = measured(text)
        print(f"stack: {len(sizes)} calls, of {min(sizes.values())} to {max(sizes.values())} bytes, each within its limit; {len(tried)} broken copies are found")
    return 1 if wrong else 0


if __name__ == "__main__":
    sys.exit(main())
