"""Where the shared library is, and its functions."""
import ctypes
import ctypes.util
import glob
import os
from typing import Any, Optional

HERE = os.path.dirname(os.path.realpath(__file__))

# In the wheel; beside a copy of the tools; where `make install` puts it; where `make` builds it.
PLACES = ("libflasknib.so", "../libflasknib.so", "../../../lib/libflasknib.so", "../../target/lib/libflasknib.so.*")

MISSING = (
    "the library libflasknib.so is not there: in a clone `make` builds it, `make install` and the wheel of `make wheel` bring it,"
    " and $FLASKNIB_LIBRARY names one at any other place"
)


def find() -> Optional[str]:
    """The library of $FLASKNIB_LIBRARY (set and empty: none), else of one of the places, else of the system."""
    given = os.environ.get("FLASKNIB_LIBRARY")
    if given is not None:
        return given or None
    for place in PLACES:
        for path in sorted(glob.glob(os.path.join(glob.escape(HERE), place))):
            return os.path.normpath(path)
    return ctypes.util.find_library("flasknib")


def load() -> ctypes.CDLL:
    """Its functions. A call holds the interpreter's lock: no other thread sees a state in the middle of one."""
    if path is None:
        raise ImportError(MISSING, name="flasknib")
    try:
        return ctypes.PyDLL(path)
    except OSError as error:
        raise ImportError(f"the library {path} cannot be used: {error}", name="flasknib", path=path) from error


def function(name: str) -> Any:
    try:
        return getattr(library, name)
    except AttributeError as error:
        raise ImportError(f"the library {path} cannot be used, it is of another version: {error}", name="flasknib", path=path) from error


path = find()
library = load()
