"""The sender's circuit breaker (RFC 8083): it says when to stop sending, and why."""
import enum
from typing import Any, Iterable, Tuple, Type

from . import header
from ._lend import Buffer, Words, u64, words_of
from ._state import Own, State, Word, signed
from .refusals import Refused, accepted
from .reports import Compound, Profile, read_compound

MOST_RTT, MOST_RATE = header.BREAKER_MOST_RTT, header.BREAKER_MOST_RATE


class Answer(enum.IntEnum):
    """What a call says: go on, reduce the rate to a tenth or less, or stop, with the reason."""

    GO = header.GO
    REDUCE = header.REDUCE
    TIMEOUT = header.STOP + header.REASON_TIMEOUT
    MEDIA = header.STOP + header.REASON_MEDIA
    CONGESTION = header.STOP + header.REASON_CONGESTION

    @property
    def stop(self) -> bool:
        """Whether to stop sending: a breaker that has stopped stays so."""
        return self >= header.STOP


def answered(answer: int) -> Answer:
    if answer >= header.REFUSED:
        raise Refused(answer - header.REFUSED)
    return Answer(answer)


class Breaker(State):
    """A breaker for one receiver, started at `time`; the settings are those of document 01 unless they are given. Times are in ms
    of any clock that does not go back. Refused with 10 for a setting outside its limits.

    >>> from flasknib import Breaker
    >>> breaker = Breaker(0)
    >>> breaker.tick(14999)
    <Answer.GO: 0>
    >>> breaker.tick(15000)
    <Answer.TIMEOUT: 257>
    >>> breaker.tick(15001).stop
    True

    Two intervals of 5,000 ms with a quarter of the packets lost:

    >>> breaker = Breaker(0, k=2)
    >>> for time in (5000, 10000, 15000):
    ...     breaker.report(time, highest=time, fraction=64, rtt=100, size=1000, rate=244949)
    <Answer.GO: 0>
    <Answer.GO: 0>
    <Answer.CONGESTION: 259>
    """

    k = Word(header.BREAKER_K, "Intervals over which the congestion rule takes the losses.")
    m = Word(header.BREAKER_M, "Reports in a row with no new number, after which the breaker stops.")
    timeout = Word(header.BREAKER_TIMEOUT, "The ms without a report or a heard packet, after which it stops.")
    state = Word(header.BREAKER_STATE, "0 while it runs, else the reason of the stop.")

    def __init__(
        self,
        time: int,
        *,
        k: int = header.PRESET_K,
        m: int = header.PRESET_M,
        timeout: int = header.PRESET_TIMEOUT,
        reduce: bool = bool(header.PRESET_REDUCE),
        full: bool = bool(header.PRESET_FULL),
    ) -> None:
        self._words, self._kept = (u64 * header.BREAKER_WORDS)(), (u64 * header.KEPT_WORDS)()
        answered(header.breaker_start(k, m, timeout, reduce, full, time, self._words))

    @classmethod
    def of(cls: Type[Own], words: Iterable[int], kept: Iterable[int] = (0,) * header.KEPT_WORDS) -> Own:
        """The breaker with these words, and with these kept of its receiver."""
        breaker = super().of(words)  # type: ignore[misc]
        breaker._kept = words_of(kept)
        return breaker

    @property
    def kept(self) -> Tuple[int, ...]:
        """What is kept of the receiver between its packets: a copy of 4 words."""
        return tuple(self._kept)

    def __reduce__(self) -> Any:
        return type(self).of, (self.words, self.kept)

    def __eq__(self, other: object) -> bool:
        return isinstance(other, Breaker) and super().__eq__(other) and self.kept == other.kept

    def packet(self, packet: Buffer, media: int, time: int, rtt: int, size: int, rate: int) -> Answer:
        """An RTCP packet of the receiver came at `time`: it is read for what it reports about our SSRC `media`, and the call that it
        is for is made, so that marks count as losses do (RFC 8083, section 5). `rtt` is the round trip in ms, `size` the bytes
        of a packet and `rate` the bytes sent per second; a round trip or a rate above its limit is taken as the limit.

        Refused with 1 to 6, 10 or 11, and then the packet counts for nothing: the next report counts from the one before. No
        refusal may be passed over in silence, since a sender that goes on without its reports is not protected.

        >>> import flasknib
        >>> sources, breaker, answers = flasknib.Sources(), flasknib.Breaker(0), []
        >>> for second in range(1, 5):
        ...     for number in range(125 * second, 125 * second + 125):
        ...         _ = sources.arrive(1, number, flasknib.Mark.CE)
        ...     compound = sources.compound(sender=9)
        ...     answers.append(breaker.packet(compound, 1, 1000 * second, rtt=100, size=1000, rate=125000).name)
        >>> answers
        ['GO', 'GO', 'GO', 'CONGESTION']
        """
        return self.compound(read_compound(packet, media, Profile.REDUCED_SIZE), time, rtt, size, rate)

    def compound(self, compound: Compound, time: int, rtt: int, size: int, rate: int) -> Answer:
        """The same of a packet that has been read. Refused with 9, 10 or 11."""
        before, call = self.kept, (u64 * header.CALL_WORDS)()
        accepted(header.breaker_call(words_of(compound.words), self._kept, call))
        try:
            return self._called(call, time, min(rtt, MOST_RTT), size, min(rate, MOST_RATE))
        except BaseException:
            self._kept = words_of(before)
            raise

    def _called(self, call: Words, time: int, rtt: int, size: int, rate: int) -> Answer:
        """The call that a packet is for."""
        which, highest = call[header.CALL_WHICH], call[header.CALL_HIGHEST]
        if which == header.WHICH_REPORT_ECN:
            lost, marked = signed(call[header.CALL_LOST]), call[header.CALL_MARKED]
            return self.report_ecn(time, highest, lost, marked, call[header.CALL_EXPECTED], rtt, size, rate)
        if which == header.WHICH_REPORT:
            return self.report(time, highest, call[header.CALL_FRACTION], rtt, size, rate)
        return self.heard(time)

    def report(self, time: int, highest: int, fraction: int, rtt: int, size: int, rate: int) -> Answer:
        """A report came: its highest number, and its fraction lost in 256ths. Refused with 9, 10 or 11."""
        return answered(header.breaker_report(self._words, time, highest, fraction, rtt, size, rate))

    def report_ecn(
        self, time: int, highest: int, lost: int, marked: int, expected: int, rtt: int, size: int, rate: int
    ) -> Answer:
        """A report came: of the packets expected since the last one, these were lost and these marked with CE. Refused with 9, 10
        or 11."""
        return answered(header.breaker_report_ecn(self._words, time, highest, lost, marked, expected, rtt, size, rate))

    def tick(self, time: int) -> Answer:
        """A timer's tick: only whether the timeout has passed. Refused with 9, 10 or 11."""
        return answered(header.breaker_tick(self._words, time))

    def heard(self, time: int) -> Answer:
        """A packet that is no report was heard, which keeps the link alive. Refused with 9, 10 or 11."""
        return answered(header.breaker_heard(self._words, time))
