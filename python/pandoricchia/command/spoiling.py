"""Wrong bits, noise and information that look random: fixed by the seed and by what they are for, however the work is spread."""
from __future__ import annotations

import math
import random
from typing import Iterable, Iterator, Set

from .. import calls
from . import recordings


def chance(*what: object) -> random.Random:
    """Draws of its own for each thing that is named, as a seed and a word's index; the same with every Python.

    A seed may be any octets: those that are no text count as they are."""
    return random.Random(" ".join(map(str, what)).encode("utf-8", "surrogateescape"))


def bits(code: int) -> int:
    """The bits of a word that may be flipped. Of code 5 not the last two: they are filling, and no check covers them."""
    return 8 * calls.word_octets(code) - (2 if code == 5 else 0)


def places(draws: random.Random, wrong: int, below: int) -> Iterator[int]:
    """So many different numbers below a bound."""
    found: Set[int] = set()
    while len(found) < wrong:
        place = draws.getrandbits(below.bit_length())
        if place < below and place not in found:
            found.add(place)
            yield place


def places_at(draws: random.Random, rate: float, below: int) -> Iterator[int]:
    """Numbers below a bound, each drawn at this rate: gap after gap, so that a low rate is quick."""
    if rate <= 0:
        return
    place = -1
    while True:
        gap = math.log(1 - draws.random()) / math.log1p(-rate) if rate < 1 else 0
        place += 1 + int(min(gap, below))
        if place >= below:
            return
        yield place


def flipped(word: Iterable[int], at: Iterable[int]) -> bytes:
    """The word with these bits flipped; bit 0 is the most significant bit of octet 0."""
    octets = bytearray(word)
    for bit in at:
        octets[bit // 8] ^= 0x80 >> bit % 8
    return bytes(octets)


def noise(draws: random.Random) -> Iterator[float]:
    """Normal draws of standard deviation 1 without end, two at a time by Box and Muller; none is beyond 9."""
    while True:
        angle, size = 2 * math.pi * draws.random(), math.sqrt(-2 * math.log(1 - draws.random()))
        yield size * math.cos(angle)
        yield size * math.sin(angle)


def information(draws: random.Random, code: int) -> bytes:
    """Information of a word."""
    return recordings.information(draws.randbytes(calls.information_octets(code)), code)
