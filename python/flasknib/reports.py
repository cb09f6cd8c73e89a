"""Compound RTCP: what a packet reports about a source, and what came between two reports."""
import enum
from operator import itemgetter
from typing import Callable, Iterable, NamedTuple, Optional, Sequence, Tuple

from . import header
from ._lend import Buffer, u64
from ._state import signed
from .header import lost_since, since16, since32  # noqa: F401
from .refusals import accepted


class Profile(enum.IntEnum):
    """Which compounds are taken: those that begin with an SR or an RR (RFC 3550), or reduced-size ones too (RFC 5506)."""

    COMPOUND = header.PROFILE_COMPOUND
    REDUCED_SIZE = header.PROFILE_REDUCED_SIZE


class ReportBlock(NamedTuple):
    """A report block of an SR or an RR.

    reporter   the SSRC of who sent that SR or RR
    """

    fraction: int
    lost: int
    highest: int
    jitter: int
    lsr: int
    dlsr: int
    reporter: int


class Feedback(NamedTuple):
    """An ECN feedback packet. CE, not-ECT, lost and duplicates are counted modulo 65,536."""

    sender: int
    highest: int
    ect0: int
    ect1: int
    ce: int
    not_ect: int
    lost: int
    duplicates: int


class Summary(NamedTuple):
    """An entry of an ECN summary block of an XR packet."""

    ect0: int
    ect1: int
    ce: int
    not_ect: int
    lost: int
    duplicates: int


class Between(NamedTuple):
    """What came between two ECN reports, as `Breaker.report_ecn` takes it."""

    lost: int
    marked: int
    expected: int


class Compound(NamedTuple):
    """What a compound reports about a source: the first report of each kind, None if there is none.

    words   all of it, as the header lays it out
    """

    report: Optional[ReportBlock]
    feedback: Optional[Feedback]
    summary: Optional[Summary]
    sr_or_rr: bool
    words: Tuple[int, ...]

    @property
    def receiver(self) -> Optional[int]:
        """Of whom the packet is: the SSRC of the report block's reporter, or else of the feedback's sender; None without either."""
        if self.report:
            return self.report.reporter
        return self.feedback.sender if self.feedback else None


def places(record: str, names: Iterable[str]) -> Callable[[Sequence[int]], Tuple[int, ...]]:
    """Takes the words of a report by their names in the header."""
    return itemgetter(*(getattr(header, f"COMPOUND_{record}_{name.upper()}") for name in names))


of_report = places("REPORT", ReportBlock._fields)
of_feedback = places("FEEDBACK", Feedback._fields)
of_summary = places("SUMMARY", Summary._fields)


def compound_of(words: Tuple[int, ...]) -> Compound:
    report = feedback = summary = None
    if words[header.COMPOUND_REPORT]:
        report = ReportBlock(*of_report(words))
        report = report._replace(lost=signed(report.lost))
    if words[header.COMPOUND_FEEDBACK]:
        feedback = Feedback(*of_feedback(words))
    if words[header.COMPOUND_SUMMARY]:
        summary = Summary(*of_summary(words))
    return Compound(report, feedback, summary, bool(words[header.COMPOUND_SR_OR_RR]), words)


def read_compound(packet: Buffer, media: int, profile: int = Profile.REDUCED_SIZE) -> Compound:
    """Reads a compound, the payload of one UDP packet, for what it reports about the SSRC `media`. Refused with 10 or 1 to 6; a
    fault anywhere in it refuses all of it.

    >>> import flasknib
    >>> sources = flasknib.Sources()
    >>> _ = sources.arrive(1, 17, flasknib.Mark.CE)
    >>> found = flasknib.read_compound(sources.compound(sender=9), media=1)
    >>> found.feedback
    Feedback(sender=9, highest=17, ect0=0, ect1=0, ce=1, not_ect=0, lost=0, duplicates=0)
    >>> found.report, found.sr_or_rr, found.receiver
    (None, True, 9)
    """
    found = (u64 * header.COMPOUND_WORDS)()
    accepted(header.read_compound(packet, media, profile, found))
    return compound_of(tuple(found))


def ecn_between(later: Feedback, earlier: Feedback) -> Between:
    """What came between two ECN feedback packets of one receiver about one source. Refused with 10 if the highest number went
    back.

    >>> from flasknib import Feedback, ecn_between
    >>> ecn_between(Feedback(9, 130, 0, 0, 3, 0, 1, 0), Feedback(9, 30, 0, 0, 65535, 0, 0, 0))
    Between(lost=1, marked=4, expected=100)
    """
    counts = (u64 * header.ECN_WORDS)()
    accepted(header.ecn_between(later.highest, later.ce, later.lost, earlier.highest, earlier.ce, earlier.lost, counts))
    return Between(signed(counts[header.ECN_LOST]), counts[header.ECN_MARKED], counts[header.ECN_EXPECTED])
