"""The two sequences that randomise telemetry words, as docs/TELEMETRY.md has them.

The library removes them itself and gives no octets of a refused word. The command needs them to write such a word as it was
received, and to say that the other sequence would have been the right one. A test holds them to the library and to the judge.
"""
from __future__ import annotations

from functools import lru_cache
from typing import NamedTuple, Tuple

from .. import calls


class Register(NamedTuple):
    """A shift register: its lowest bit leaves, and the sum of those bits that are tapped comes in at the top."""

    bits: int
    taps: Tuple[int, ...]
    state: int


#: x^8+x^7+x^5+x^3+1, and x^17+x^14+1.
FIRST = Register(8, (7, 5, 3, 0), 0xFF)
SECOND = Register(17, (14, 0), 0x18E38)

#: The editions of each sequence; 0 is one that is not stated.
EDITIONS = {FIRST: (0, 1, 2, 3), SECOND: (4, 5)}


def register(edition: int) -> Register:
    """An edition's sequence."""
    return SECOND if edition in EDITIONS[SECOND] else FIRST


def other(edition: int) -> int:
    """An edition of the other sequence: the newest, or none that is stated."""
    return EDITIONS[FIRST][0] if register(edition) == SECOND else EDITIONS[SECOND][-1]


@lru_cache(maxsize=None)
def sequence(drawn: Register) -> int:
    """The bits that are added to a word, as one number."""
    whole, state = 0, drawn.state
    for _ in range(8 * calls.word_octets(5)):
        whole = whole << 1 | state & 1
        state = state >> 1 | (sum(state >> tap & 1 for tap in drawn.taps) & 1) << drawn.bits - 1
    return whole


def removed(edition: int, octets: bytes) -> bytes:
    """A word without an edition's sequence; or with it, where it was without."""
    return (int.from_bytes(octets, "big") ^ sequence(register(edition))).to_bytes(len(octets), "big")
