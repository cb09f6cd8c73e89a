"""The library is of the version that this package is made for."""
from . import header
from ._library import path


def check(found: int) -> None:
    """While the first number of a version is 0, another second number may change functions; a third one changes none."""
    if found // 256 != header.VERSION // 256:
        told = f"{found >> 16}.{found >> 8 & 255}.{found & 255}"
        wanted = f"this package is for {header.VERSION_STRING}"
        raise ImportError(f"the library {path} cannot be used, it is of version {told}, and {wanted}", name="flasknib", path=path)


check(header.version())
