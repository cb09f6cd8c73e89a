#!/usr/bin/env python3
"""tests/declarations.py: the modules that packaging/declarations makes are those of this header, and it reads what a header may have.

Beside include/flasknib.h a header of a few lines is read, with functions that have a body, attributes, structs and macros, and headers that cannot be
right, which must be refused.
"""
import os
import re
import subprocess
import sys
import tempfile

TOP = os.path.dirname(os.path.dirname(os.path.abspath(__file__)))
SCRIPT, HEADER = os.path.join(TOP, "packaging/declarations"), os.path.join(TOP, "include/flasknib.h")
MADE = {"python": "python/flasknib/header.py", "rust": "rust/flasknib/src/header.rs"}

SMALL = """
#ifndef FLASKNIB_H
#define FLASKNIB_H
#include <stdint.h>
#ifdef __cplusplus
extern "C" {
#endif
#if defined(__GNUC__)
#define FLASKNIB_USED __attribute__((warn_unused_result)) \\
    __attribute__((nonnull))
#else
#define FLASKNIB_USED
#endif
#define FLASKNIB_VERSION_STRING "1.2.3"
#define FLASKNIB_WORDS 0x10 /* a size */
#define FLASKNIB_MORE (FLASKNIB_WORDS + 1)
#define FLASKNIB_LONG UINT64_C(281474976710655)
#define FLASKNIB_OF(answer) ((answer) % 256)
enum { FLASKNIB_REFUSAL_ONE = 1, /* one; and
                                  * more of it */
       FLASKNIB_REFUSAL_TWO = 2 /* two */ };
enum { FLASKNIB_FIRST, FLASKNIB_SECOND, FLASKNIB_TENTH = 10, FLASKNIB_LAST };
struct flasknib_report { uint64_t time; uint8_t kind; };
typedef struct { uint64_t size; } flasknib_other;

/* Says nothing. */
static inline int64_t flasknib_size(int64_t answer)
{
    if (answer < 0) { return -answer / 256; }
    return flasknib_first(0, 0, 0);
}

/* The version.
 * Never refused. */
uint32_t flasknib_version(void);

/* Reads words. */
#define FLASKNIB_FOUND_WORDS 3
FLASKNIB_USED uint8_t flasknib_read(const uint8_t *bytes, size_t length, uint32_t media,
                                    uint64_t *found, size_t words) FLASKNIB_USED;
int16_t flasknib_third(uint16_t later, uint16_t earlier);

#ifdef __cplusplus
}
#endif
#endif
"""
NUMBERS = {"WORDS": 16, "MORE": 17, "LONG": 2**48 - 1, "FIRST": 0, "SECOND": 1, "TENTH": 10, "LAST": 11, "FOUND_WORDS": 3, "REFUSAL_TWO": 2}
REFUSALS = {1: ("ONE", "one; and more of it"), 2: ("TWO", "two")}
CALLS = {
    "version": ("u32",),
    "read": ("u8", "memory", "usize", "u32", "pointer(u64)", "usize"),
    "third": ("i16", "u16", "u16"),
}
WRONG = {
    "a pointer without a count": (r", size_t length, uint32_t media", ", uint32_t media"),
    "a type that is not known": (r"uint16_t later", "float later"),
    "a result that is not known": (r"int16_t flasknib_third", "const char *flasknib_third"),
    "a pointer to a pointer": (r"uint64_t \*found", "uint64_t **found"),
    "no refusal": (r"REFUSAL_", "NONE_"),
    "no function": (r"flasknib_(version|read|third)", r"other_\1"),
}


def made(language, path):
    return subprocess.run([sys.executable, SCRIPT, language, path], stdout=subprocess.PIPE, stderr=subprocess.PIPE, text=True)


def of_small(path):
    """What is wrong with the module of the small header. In the place of the library a call is its name and types."""
    text = made("python", path).stdout
    names = {"bind": lambda name, *types: (name, types)}
    kinds = "Buffer Numbers Words apart fits i16 i64 memory read u8 u16 u32 u64 usize written".split()
    names.update({kind: kind for kind in kinds}, pointer=lambda kind: f"pointer({kind})")
    exec(re.sub(r"^from \._lend import .*$", "", text, flags=re.M), names)
    for name, number in {**NUMBERS, "REFUSALS": REFUSALS, "VERSION_STRING": "1.2.3"}.items():
        if names.get(name) != number:
            yield f"{name} is {names.get(name)}"
    for name in ("OF", "USED", "H", "size", "_size"):
        if name in names:
            yield f"{name} is in the module"
    for name, types in CALLS.items():
        if names.get(f"_{name}") != (f"flasknib_{name}", types):
            yield f"{name} is {names.get('_' + name)}"
    for name, words in (("version", "The version. Never refused."), ("read", "Reads words."), ("third", "Reads words.")):
        if names[name].__doc__ != words:
            yield f"{name} has the comment {names[name].__doc__!r}"


def main():
    wrong = []
    for language, file in MADE.items():
        with open(os.path.join(TOP, file), encoding="utf-8") as module:
            if made(language, HEADER).stdout != module.read():
                wrong.append(f"{file} is not that of the header: run make declarations")
    with tempfile.TemporaryDirectory(prefix="a folder ") as folder:
        path = os.path.join(folder, "small.h")
        for name, (pattern, other) in {"": ("$^", ""), **WRONG}.items():
            with open(path, "w", encoding="utf-8") as file:
                file.write(re.sub(pattern, other, SMALL))
            if name:
                wrong += [f"{name} is not refused in {language}" for language in MADE if made(language, path).returncode == 0]
            else:
                wrong += of_small(path)
    with open(os.path.join(TOP, "VERSION"), encoding="utf-8") as file, open(os.path.join(TOP, "rust/flasknib/Cargo.toml"), encoding="utf-8") as crate:
        if f'\nversion = "{file.read().strip()}"\n' not in crate.read():
            wrong.append("rust/flasknib/Cargo.toml has another version than VERSION")
    for line in wrong:
        print("declarations: FAILED,", line)
    if not wrong:
        print(f"declarations: {' and '.join(MADE.values())} as the header has them; {len(WRONG)} headers that cannot be right are refused")
    return 1 if wrong else 0


if __name__ == "__main__":
    sys.exit(main())
