"""The SDP attribute ecn-capable-rtp (RFC 6679, section 6.1): an offer's line written, read and answered."""
import enum
from typing import Iterable, NamedTuple, Optional, Tuple, Union

from . import header
from ._lend import Buffer, Words, u64, words_of
from .refusals import accepted, given


class Method(enum.IntEnum):
    """How the two sites find out that ECN works."""

    RTP = header.METHOD_RTP
    ICE = header.METHOD_ICE
    LEAP = header.METHOD_LEAP


class Mode(enum.IntEnum):
    """What a site can do with marks; an absent mode means SETREAD."""

    ABSENT = header.MODE_ABSENT
    SETONLY = header.MODE_SETONLY
    READONLY = header.MODE_READONLY
    SETREAD = header.MODE_SETREAD


class Ect(enum.IntEnum):
    """Which mark a site wants to be sent; an absent one means ZERO."""

    ABSENT = header.ECT_ABSENT
    ONE = header.ECT_ONE
    ZERO = header.ECT_ZERO
    RANDOM = header.ECT_RANDOM


class Attribute(NamedTuple):
    """What a line says: the methods, most wanted first, the mode and the ect."""

    methods: Tuple[int, ...]
    mode: int = Mode.ABSENT
    ect: int = Ect.ABSENT


def words_in(attribute: Attribute) -> Words:
    """The words of an attribute. Methods that have no place are counted all the same, and the library refuses their number."""
    listed = list(attribute.methods)
    held = (listed + [0] * header.ATTRIBUTE_MOST_METHODS)[: header.ATTRIBUTE_MOST_METHODS]
    words = [0] * header.ATTRIBUTE_WORDS
    words[header.ATTRIBUTE_METHODS : header.ATTRIBUTE_METHODS + len(held)] = held
    words[header.ATTRIBUTE_USED], words[header.ATTRIBUTE_MODE], words[header.ATTRIBUTE_ECT] = len(listed), attribute.mode, attribute.ect
    return words_of(words)


def attribute_of(words: Words) -> Attribute:
    first, used = header.ATTRIBUTE_METHODS, words[header.ATTRIBUTE_USED]
    methods = tuple(Method(each) for each in words[first : first + used])
    return Attribute(methods, Mode(words[header.ATTRIBUTE_MODE]), Ect(words[header.ATTRIBUTE_ECT]))


def read_attribute(line: Buffer) -> Attribute:
    """Reads a line from `a=` to before its CR LF. Refused with 18 for a line that is not well formed, and with 10 for one that is
    too long.

    >>> from flasknib import read_attribute
    >>> read_attribute(b"a=ecn-capable-rtp: ice,rtp mode=setread").mode
    <Mode.SETREAD: 3>
    """
    found = (u64 * header.ATTRIBUTE_WORDS)()
    accepted(header.read_attribute(line, found))
    return attribute_of(found)


def write_attribute(attribute: Attribute) -> bytes:
    """The line of an attribute, in lower case and with no CR LF. Refused with 9 or 10."""
    return given(lambda lent: header.write_attribute(words_in(attribute), lent), header.ATTRIBUTE_MOST_BYTES)


def offer(methods: Iterable[int], mode: int = Mode.ABSENT, ect: int = Ect.ABSENT) -> bytes:
    """The line of our offer. Refused with 9 or 10.

    >>> from flasknib import Ect, Method, Mode, offer
    >>> offer([Method.ICE, Method.RTP], Mode.SETREAD, Ect.ZERO)
    b'a=ecn-capable-rtp: ice,rtp mode=setread; ect=0'
    """
    return write_attribute(Attribute(tuple(methods), mode, ect))


def answer(offered: Union[Buffer, Attribute], ours: Union[Buffer, Attribute]) -> Optional[bytes]:
    """The line that answers an offer, by the line that we would offer ourselves: the first of our methods that the offer names, our
    mode and our ect. None if it is left out of the answer. Refused with 18, 10 or 9.

    >>> from flasknib import answer
    >>> answer(b"a=ecn-capable-rtp: rtp,ice", b"a=ecn-capable-rtp: ice mode=setonly; ect=1")
    b'a=ecn-capable-rtp: ice mode=setonly; ect=1'
    >>> answer(b"a=ecn-capable-rtp: rtp", b"a=ecn-capable-rtp: ice") is None
    True
    """
    read = [each if isinstance(each, Attribute) else read_attribute(each) for each in (offered, ours)]
    found = (u64 * header.ATTRIBUTE_WORDS)()
    outcome = header.answer(words_in(read[0]), words_in(read[1]), found)
    if outcome == header.LEFT_OUT:
        return None
    accepted(outcome)
    return write_attribute(attribute_of(found))
