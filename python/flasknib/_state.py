"""A state of the library: an object that owns its words."""
from typing import Any, Iterable, Optional, Tuple, Type, TypeVar

from ._lend import Words, words_of

Own = TypeVar("Own", bound="State")


class State:
    """Words that the library reads and writes. They can be looked at, kept, and made a state again.

    >>> import copy, flasknib
    >>> source = flasknib.Source()
    >>> _ = source.arrive(17, flasknib.Mark.CE)
    >>> kept = source.words
    >>> flasknib.Source.of(kept) == source == copy.copy(source)
    True

    Words that are no state's are refused by the next call:

    >>> flasknib.Source.of([1] * 9).lost
    Traceback (most recent call last):
    flasknib.Refused: refused 9: the record is malformed
    """

    _words: Words

    @classmethod
    def of(cls: Type[Own], words: Iterable[int]) -> Own:
        """The state with these words."""
        state = cls.__new__(cls)
        state._words = words_of(words)
        return state

    @property
    def words(self) -> Tuple[int, ...]:
        """A copy of the words, as the header lays them out."""
        return tuple(self._words)

    def __reduce__(self) -> Any:
        return type(self).of, (self.words,)

    def __eq__(self, other: object) -> bool:
        return isinstance(other, State) and type(other) is type(self) and self.words == other.words

    __hash__ = None  # type: ignore[assignment]


class Word:
    """A word of a state by its place; a signed one is stored as its two's complement."""

    def __init__(self, place: int, meaning: str, signed: bool = False):
        self.place, self.signed, self.__doc__ = place, signed, meaning

    def __get__(self, state: Optional[State], owner: type) -> Any:
        if state is None:
            return self
        word = state._words[self.place]
        return signed(word) if self.signed else word


def signed(word: int) -> int:
    return word - 2**64 if word >= 2**63 else word
