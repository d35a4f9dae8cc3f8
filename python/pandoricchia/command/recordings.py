"""Recordings: one octet code, two octets limit (high first), then words to the end; or the words alone, with --code."""
from __future__ import annotations

from argparse import Namespace
from typing import Iterator, NamedTuple, Sequence, Tuple

from .. import calls
from ..numbers import Number
from .files import Failed, Refusal, Source, plural

#: No run has as many flips: a limit that is none.
NO_LIMIT = 65535

#: Octets of a recording before its words.
HEAD = 3

#: Octets of a part, or one word where that is longer. Memory is a few parts, however long the recording is.
PART = 65536


class Head(NamedTuple):
    """What a recording's first three octets say, and those octets; none of them before words alone."""

    code: int
    limit: int
    octets: bytes

    @property
    def offered(self) -> bool:
        """Whether there is such a code."""
        return calls.word_octets(self.code) > 0


class Part(NamedTuple):
    """Some words of a recording, and the index of the first. The last word of the last part may be cut short."""

    start: int
    octets: bytes

    def words(self, length: int) -> Iterator[Tuple[int, memoryview]]:
        """Each word of so many octets with its index; for a code that is not offered, one word without octets."""
        octets = memoryview(self.octets)
        if not length:
            yield self.start, octets[:0]
            return
        for k, place in enumerate(range(0, len(octets), length), self.start):
            yield k, octets[place:place + length]


def head(source: Source, options: Namespace) -> Head:
    """The head of a recording, or what --code and --limit say."""
    octets = b"" if options.code is not None else source.read(HEAD)
    if options.code is not None:
        code, limit = options.code, NO_LIMIT
        if source.size is not None:
            alone(source, code, source.size)
    elif len(octets) == HEAD:
        code, limit = octets[0], int.from_bytes(octets[1:], "big")
    else:  # a recording of code 0, which is not offered
        code, limit = 0, 0
    return Head(code, limit if options.limit is None else options.limit, octets)


def alone(source: Source, code: int, octets: int) -> None:
    """Failed where an input of so many octets was said to be words alone, and its length and its first octet tell of a recording."""
    words, more = divmod(octets, calls.word_octets(code))
    if more == HEAD and source.first()[:1] == bytes([code]):
        said = f"three octets, of which the first is {code}, and {plural(words, 'whole word')}"
        raise Failed(f"{source.name}: {said}: that is a recording, which has its code in it; leave --code out")


def not_offered(source: Source, found: Head, codes: Sequence[int] = (1, 2, 3, 4, 5)) -> Refusal:
    """What is said of a recording whose code is not offered, or not by this verb, which takes these."""
    if len(found.octets) < HEAD and not found.code:
        held = plural(len(found.octets), "octet") if found.octets else "nothing"
        return Refusal(f"{source.name}: no recording: {held} in it, and a recording begins with three octets, its code and its limit")
    said = f"{source.name}: number {int(Number.CODE)}: {Number.CODE.text}: code {found.code}, where it takes {listed(codes)}"
    return Refusal(said if found.offered else said + "; words alone need --code")


def listed(codes: Sequence[int]) -> str:
    """Codes in a sentence."""
    return f"code {codes[0]}" if len(codes) == 1 else f"codes {', '.join(map(str, codes[:-1]))} and {codes[-1]}"


def information(octets: bytes, code: int) -> bytes:
    """Octets as the information of a word: of code 4 the six last bits, which are none, become 0."""
    return octets[:-1] + bytes([octets[-1] & 0xC0]) if code == 4 else octets


def header(code: int, limit: int) -> bytes:
    """A recording's first three octets."""
    return bytes([code]) + limit.to_bytes(2, "big")


def words(source: Source, found: Head, most: int = PART) -> Iterator[Part]:
    """The words behind a head, in parts; of words that came by a pipe it shows at their end alone that they have a head of their own."""
    yield from parts(source, calls.word_octets(found.code), most)
    if not found.octets:
        alone(source, found.code, source.place)


def parts(source: Source, length: int, most: int = PART) -> Iterator[Part]:
    """What is left of an input, in parts of whole words of so many octets; of one word, or of at most so many octets."""
    many = max(1, most // length)
    index = 0
    while True:
        octets = source.read(many * length)
        if octets:
            yield Part(index, octets)
        if len(octets) < many * length:
            return
        index += many
