"""A unit read codeblock by codeblock, and a stream's words as its parts come: iterators over ``read`` and ``take``."""
from __future__ import annotations

from typing import TYPE_CHECKING, Iterable, Iterator, NamedTuple

from . import calls
from .numbers import Number
from .results import Corrected

if TYPE_CHECKING:
    from typing_extensions import Buffer


class Block(NamedTuple):
    """A codeblock of a unit: ``correct``'s numbers and its information octets, none where it is refused."""

    corrected: Corrected
    information: bytes

    @property
    def number(self) -> Number:
        """``correct``'s number."""
        return self.corrected.number


class Word(NamedTuple):
    """A word of a stream: ``correct``'s numbers and the corrected word, all zeros where it is refused."""

    corrected: Corrected
    octets: bytes

    @property
    def number(self) -> Number:
        """``correct``'s number."""
        return self.corrected.number


class Reader(Iterator[Block]):
    """An iterator over the codeblocks of a transmission unit, codes 1 and 3.

    ``number`` is 0 while the reading goes on, and after a whole unit; 1, 11 or 12 where there is no reader, which then has no
    codeblock; 5 or 6 after a codeblock that is refused, which is the last one given. The unit is read where it is, so it
    should stay as it was.
    """

    def __init__(self, code: int, unit: Buffer, limit: int) -> None:
        self._unit = unit
        self._reading = calls.reader(code, unit, limit)
        self._out = bytearray(calls.information_octets(code))

    @property
    def number(self) -> Number:
        """How the reading stands."""
        return self._reading.number

    def __next__(self) -> Block:
        if self.number != Number.DONE:
            raise StopIteration
        handed = calls.read(self._reading, self._unit, self._out)
        if handed.none:
            raise StopIteration
        self._reading = handed.next
        return Block(handed.corrected, bytes(self._out) if handed.number == Number.DONE else b"")


class Taker:
    """Words of code 5 out of a stream that comes in parts of any length.

    The edition is the issue number of CCSDS 131.0-B, which fixes the randomiser; 0 where it is not stated. ``number`` is 0, or
    19 for an edition that is not known: the taker is then one for the old randomiser.
    """

    def __init__(self, limit: int, edition: int = 0) -> None:
        self.number, self._taking = calls.taker_for(edition, limit)

    def take(self, part: Buffer) -> Iterator[Word]:
        """The words that are complete in the part, each when it is asked for. The part is taken up as far as the words are
        asked for: go through them to the end before the next part."""
        with memoryview(part) as whole:
            if not whole.nbytes:
                return
            with whole.cast("B") as octets:
                place = 0
                while place < len(octets):
                    with octets[place:] as rest:
                        taken = calls.take(self._taking, rest)
                    self._taking = taken.next
                    place += taken.taken
                    if taken.complete:
                        yield Word(taken.corrected, taken.word)

    def words(self, parts: Iterable[Buffer]) -> Iterator[Word]:
        """The words of a stream, part after part: as ``taker.words(iter(lambda: file.read(65536), b""))``."""
        for part in parts:
            yield from self.take(part)
