"""The package flasknib, by which the proved library is called."""
import os
from types import ModuleType
from typing import Optional

from .common import FAILED, Ended


def package(needed: bool = False) -> Optional[ModuleType]:
    """The package; where its library is not there None, unless it is needed. A library that cannot be used ends the command."""
    try:
        import flasknib
    except ImportError as error:
        if needed or error.path:
            absent = isinstance(error, ModuleNotFoundError)
            raise Ended(FAILED, "the package flasknib is not there, beside ecn or on Python's path" if absent else str(error)) from error
        return None
    return flasknib


def file_of(flasknib: ModuleType) -> str:
    """The name of the library's file."""
    return os.path.basename(flasknib.library_path)
