"""What the calls return: a named tuple for each record of the header, fields in its order."""
from __future__ import annotations

from typing import NamedTuple, Tuple

from .numbers import Number


class Checked(NamedTuple):
    """``check``: how many checks are broken, and the lowest; the number of checks if none is."""

    number: Number
    broken: int
    lowest: int


class Answered(NamedTuple):
    """``quick``: whether no check is broken, and how many were read to know it."""

    number: Number
    yes: bool
    evaluated: int


class Opened(NamedTuple):
    """``open``: the lowest broken check, and how many of the word's leading octets are its information."""

    number: Number
    lowest: int
    octets: int


class Corrected(NamedTuple):
    """``correct`` and ``correct_samples``: flips made, broken checks at the start and at the end, bits that differ, lowest broken check."""

    number: Number
    flips: int
    first: int
    last: int
    unlike: int
    lowest: int


class FlipRecord(NamedTuple):
    """A flip of the run: its bit (of code 5 in the run's numbering), its excess, the broken checks left after it."""

    bit: int
    excess: int
    left: int


class Listed(NamedTuple):
    """``list``: ``correct``'s numbers; with refusal 5 also the lowest bit of greatest excess, and that excess."""

    number: Number
    flips: int
    first: int
    last: int
    unlike: int
    lowest: int
    bit: int
    excess: int


class Stepped(NamedTuple):
    """``step``: whether no check is broken; else the bit that was flipped and its excess."""

    number: Number
    quiet: bool
    bit: int
    excess: int


class Reached(NamedTuple):
    """``nearest``: the fewest flips that give a codeword, and which bits; unused places are 0."""

    number: Number
    least: int
    bits: Tuple[int, int, int]


class Mended(NamedTuple):
    """``bch_check``: how many of the 63 bits were mended, 0 or 1."""

    number: Number
    mended: int


class Imported(NamedTuple):
    """``import_blocks``: the lowest block at fault, for 21 to 23."""

    number: Number
    block: int


class Reading(NamedTuple):
    """A reading of a unit, between two codeblocks: ``number`` is 0 while it goes on."""

    kept: Corrected
    code: int
    limit: int
    place: int

    @property
    def number(self) -> Number:
        """0; 1, 11 or 12 where there is no reader; 5 or 6 after a refused codeblock."""
        return self.kept.number


class Handed(NamedTuple):
    """``read``: ``correct``'s numbers for the codeblock, whether there was none left, and the reading from here on."""

    corrected: Corrected
    none: bool
    next: Reading

    @property
    def number(self) -> Number:
        """``correct``'s number for the codeblock, or 3."""
        return self.corrected.number


class Taking(NamedTuple):
    """A taker between two parts of a stream; ``octets`` are the 1020 that it has room for."""

    place: int
    edition: int
    limit: int
    octets: bytes


class Made(NamedTuple):
    """``taker_for``: a taker for an edition; with 19 one for the old randomiser."""

    number: Number
    taker: Taking


class Taken(NamedTuple):
    """``take``: the taker from here on, octets taken of the part, and the word if one is complete."""

    next: Taking
    taken: int
    complete: bool
    corrected: Corrected
    word: bytes
