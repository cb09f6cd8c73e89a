"""What the package flasknib has from flasknib.h, read as text: the library itself need not be there."""
import ast
import functools
import importlib.util
import os
import re


@functools.lru_cache(maxsize=None)
def layer() -> str:
    """The package's layer over the header; nothing if the package is not there."""
    there = importlib.util.find_spec("flasknib")
    if there is None or there.origin is None:
        return ""
    with open(os.path.join(os.path.dirname(there.origin), "header.py"), encoding="utf-8") as file:
        return file.read()


def version() -> str:
    found = re.search(r"^VERSION_STRING = '(.*)'$", layer(), re.MULTILINE)
    return found[1] if found else "of no version: the package flasknib is not there"


@functools.lru_cache(maxsize=None)
def refusals() -> dict:
    """The text of each refusal, by its number."""
    found = re.search(r"^REFUSALS = (\{.*?^\})$", layer(), re.MULTILINE | re.DOTALL)
    return {number: text for number, (_, text) in ast.literal_eval(found[1]).items()} if found else {}


def refusal_text(number: int) -> str:
    return refusals().get(number, "see the table of refusals in docs/PROGRAMS.md")
