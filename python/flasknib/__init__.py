"""Flasknib: ECN counting of RTP sources, ECN reports (RFC 6679), a compound RTCP reader, a sender's circuit breaker (RFC 8083), the
SDP attribute ecn-capable-rtp, and the traces and tables of a link test.

Every count and every verdict is a call of the proved library. A state is an object that owns its words, a refusal is the exception
`Refused`, and bytes are anything bytes-like, which is not copied.

    import flasknib

    source = flasknib.Source()
    for number, mark in packets:
        source.arrive(number, mark)
    socket.send(source.feedback(sender=9, media=1))

    table = pandas.DataFrame(flasknib.rows("night1.trace"))

`flasknib.header` has the functions of flasknib.h as they stand.
"""
from . import _version  # noqa: F401
from ._library import path as library_path
from .attribute import Attribute, Ect, Method, Mode, answer, offer, read_attribute, write_attribute
from .blocks import Block, Form, Kind, Record, read_block, read_own, record_at, records, space_label, write_arrivals, write_label, write_records
from .breaker import Answer, Breaker
from .feed import Feed, head_line, refused_line
from .forms import Forms, other_form
from .header import VERSION_STRING as __version__
from .mixed import Streams, streams
from .refusals import Refused
from .reports import Between, Compound, Feedback, Profile, ReportBlock, Summary, ecn_between, lost_since, read_compound, since16, since32
from .salvaging import Salvaged, salvage
from .source import Arrival, Counted, Mark, Source, feedback, summary
from .sources import Sources
from .table import Row, rows, split_rows

__all__ = [
    "__version__",
    "Answer",
    "Arrival",
    "Attribute",
    "Between",
    "Block",
    "Breaker",
    "Compound",
    "Counted",
    "Ect",
    "Feed",
    "Feedback",
    "Form",
    "Forms",
    "Kind",
    "Mark",
    "Method",
    "Mode",
    "Profile",
    "Record",
    "Refused",
    "ReportBlock",
    "Row",
    "Salvaged",
    "Source",
    "Sources",
    "Streams",
    "Summary",
    "answer",
    "ecn_between",
    "feedback",
    "head_line",
    "library_path",
    "lost_since",
    "offer",
    "other_form",
    "read_attribute",
    "read_block",
    "read_compound",
    "read_own",
    "record_at",
    "records",
    "refused_line",
    "rows",
    "salvage",
    "since16",
    "since32",
    "space_label",
    "split_rows",
    "streams",
    "summary",
    "write_arrivals",
    "write_attribute",
    "write_label",
    "write_records",
]
