"""What a call is lent: words, bytes and numbers, each with the type that the header has for it. Nothing is copied."""
import ctypes
import mmap
from array import array
from operator import index
from typing import Any, Callable, Iterable, Tuple, Union

from ._library import function

u8, u16, u32, u64 = ctypes.c_uint8, ctypes.c_uint16, ctypes.c_uint32, ctypes.c_uint64
i16, i64, usize = ctypes.c_int16, ctypes.c_int64, ctypes.c_size_t
memory, pointer = ctypes.c_void_p, ctypes.POINTER

# What an argument may be: an array of c_uint64, one of c_uint16, and anything bytes-like that is one stretch of memory.
Words, Numbers = ctypes.Array, ctypes.Array
Buffer = Union[bytes, bytearray, memoryview, mmap.mmap, array]

LIMITS = {kind: (0, 256 ** ctypes.sizeof(kind) - 1) for kind in (u8, u16, u32, u64, usize)}
LIMITS[i64] = (-(2**63), 2**63 - 1)


def bind(name: str, result: Any, *arguments: Any) -> Callable[..., int]:
    """A function of the library, with its types."""
    call = function(name)
    call.restype, call.argtypes = result, arguments
    return call


def fits(number: int, kind: Any) -> int:
    """A number that its type in C has room for: ctypes itself would cut it."""
    least, most = LIMITS[kind]
    number = index(number)
    if not least <= number <= most:
        raise OverflowError(f"{number} is not from {least} to {most}")
    return number


def words_of(numbers: Iterable[int]) -> Words:
    """Words that a state owns."""
    given = array("Q", numbers)
    return (u64 * len(given)).from_buffer_copy(given)


def list_of(numbers: Iterable[int], code: str, kind: Any) -> Any:
    """A list of numbers as memory, each checked against its type; one that is an array of them already is not copied."""
    given = numbers if isinstance(numbers, array) and numbers.typecode == code else array(code, numbers)
    return (kind * len(given)).from_buffer(given)


class PyBuffer(ctypes.Structure):
    """Py_buffer of Python's C interface."""

    _fields_ = [
        ("buf", ctypes.c_void_p),
        ("obj", ctypes.c_void_p),
        ("len", ctypes.c_ssize_t),
        ("itemsize", ctypes.c_ssize_t),
        ("readonly", ctypes.c_int),
        ("ndim", ctypes.c_int),
        ("format", ctypes.c_char_p),
        ("shape", ctypes.c_void_p),
        ("strides", ctypes.c_void_p),
        ("suboffsets", ctypes.c_void_p),
        ("internal", ctypes.c_void_p),
    ]


get_buffer, release_buffer = ctypes.pythonapi.PyObject_GetBuffer, ctypes.pythonapi.PyBuffer_Release
get_buffer.argtypes = [ctypes.py_object, ctypes.POINTER(PyBuffer), ctypes.c_int]
release_buffer.argtypes, release_buffer.restype = [ctypes.POINTER(PyBuffer)], None
SIMPLE, WRITABLE = 0, 1

nowhere = (u8 * 1)()  # an address for what is empty: none may be null


class View:
    """The memory of a bytes-like object, held in its place until the call is over."""

    def __init__(self, lent: Buffer, flags: int):
        self.held = PyBuffer()
        get_buffer(lent, self.held, flags)
        self.at = self._as_parameter_ = self.held.buf or ctypes.addressof(nowhere)

    def __len__(self) -> int:
        return self.held.len

    def __del__(self, release: Any = release_buffer) -> None:
        release(self.held)


def read(lent: Buffer) -> Union[bytes, View]:
    return lent if type(lent) is bytes else View(lent, SIMPLE)


def written(lent: Buffer) -> View:
    return View(lent, WRITABLE)


def ends(lent: Union[View, Words]) -> Tuple[int, int]:
    """Where the memory of a view or of an array begins and ends."""
    if isinstance(lent, View):
        return lent.at, lent.at + len(lent)
    first = ctypes.addressof(lent)
    return first, first + ctypes.sizeof(lent)


def apart(out: Union[View, Words], *others: Union[bytes, View, Words]) -> None:
    """What a call writes overlaps nothing else that it is lent. (Nothing can write to a bytes object.)"""
    first, last = ends(out)
    for other in others:
        if not isinstance(other, bytes):
            begin, end = ends(other)
            if first < end and begin < last:
                raise ValueError("the memory that is written overlaps what else is lent")
