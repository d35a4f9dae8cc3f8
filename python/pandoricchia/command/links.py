"""The verbs of the links around the words: unit write, unit read, frames, blocks import, blocks export, bch."""
from __future__ import annotations

from argparse import Namespace
from typing import Callable

from .. import calls
from ..numbers import Number
from ..reading import Reader
from ..results import Taken
from . import randomiser
from .files import Failed, Refusal, Sink, Source, kept, no_words, octets_out, plural, say
from .logs import STREAMED
from .progress import Progress
from .recordings import NO_LIMIT, PART, header, parts
from .words import counted, refused_word

#: The most that the bench programs hold: information of a unit, a unit, and one octet more than any recording in blocks.
INFORMATION, UNIT, BLOCKS = 65536, 131096, 65537

BCH_INFORMATION, BCH_WORD = 7, 8


def _whole(source: Source, most: int, what: str) -> bytes:
    """All of an input, which is bounded."""
    octets = source.read(most + 1)
    if len(octets) > most:
        raise Failed(f"{source.name}: more than {most} octets of {what}")
    return octets


def unit_write(options: Namespace) -> int:
    """The unit of the information."""
    with Source(options.input) as source, octets_out(options.output) as out:
        information = _whole(source, INFORMATION, "information")
        unit = bytearray(calls.unit_octets(options.code, len(information)))
        number = calls.write_unit(options.code, information, unit)
        if number != Number.DONE:
            said = f"number {int(number)}: {number.text}"
            raise Refusal(f"no unit is written: {said}" + (": there is no information in it" if not information else ""))
        out.write(unit)
    return 0


def unit_read(options: Namespace) -> int:
    """What `unitread` prints; the information octets go to --output."""
    with Source(options.input) as source, Sink(None) as printed:
        unit = _whole(source, UNIT, "a unit")
        reader = Reader(options.code, unit, NO_LIMIT if options.limit is None else options.limit)
        columns = b"codeblock answer flips first last unlike lowest information\n"
        if reader.number != Number.DONE:
            printed.write(columns + b"0 %d 0 0 0 0 0 -\n" % reader.number)
            raise Refusal(f"{source.name}: number {int(reader.number)}: {reader.number.text}")
        with kept(options.output) as out:
            printed.write(columns)
            index = -1
            for index, block in enumerate(reader):
                line = " ".join(str(int(value)) for value in (index, *block.corrected))
                printed.write(f"{line} {block.information.hex().upper() or '-'}\n".encode())
                out.write(block.information)
        counted(source, index + 1, options, "codeblock")
    return 0 if reader.number == Number.DONE else 1


class _Taking:
    """What becomes of a stream's words, one after another."""

    def __init__(self, options: Namespace, limit: int) -> None:
        self._edition, self._limit, self._received = options.edition, limit, options.received
        self._kept = options.output is not None
        self.words = self.taken = self.other = 0
        self._out = bytearray(calls.word_octets(STREAMED))

    def word(self, taken: Taken) -> bytes:
        """The octets that are kept of a word: corrected, or as it was received where it is refused or that was asked for."""
        done = taken.corrected.number == Number.DONE
        received = taken.next.octets  # the taker holds them still
        self.words, self.taken = self.words + 1, self.taken + done
        if not self.taken:  # while nothing is, it may be that the edition is another
            heard = randomiser.removed(randomiser.other(self._edition), received)
            self.other += calls.correct(STREAMED, heard, self._limit, self._out).number == Number.DONE
        if not self._kept:
            return b""
        return taken.word if done and not self._received else randomiser.removed(self._edition, received)

    def told(self) -> str:
        """What is said of a stream of which nothing was taken."""
        editions = randomiser.EDITIONS[randomiser.register(randomiser.other(self._edition))]
        said = f"nothing was taken of {plural(self.words, 'word')} by the sequence of --edition {self._edition}"
        return f"{said}; {self.other:,} would be by the other, that of editions {', '.join(map(str, editions))}"


def frames(options: Namespace) -> int:
    """What `frames` prints; a recording of the words goes to --output."""
    limit = NO_LIMIT if options.limit is None else options.limit
    with Source(options.input) as source:
        with Sink(None) as printed, kept(options.output) as out:
            made = calls.taker_for(options.edition, limit)
            if made.number != Number.DONE:
                raise Failed(f"--edition: number {int(made.number)}: {made.number.text}")
            state, place, taking = made.taker, 0, _Taking(options, limit)
            printed.write(b"word offset answer flips first last unlike lowest\n")
            out.write(header(STREAMED, limit))
            with Progress("frames", source.size, lines=True) as bar:
                for part in iter(lambda: source.read(PART), b""):
                    octets, lines = memoryview(part), []
                    while octets:
                        taken = calls.take(state, octets)
                        state, octets, place = taken.next, octets[taken.taken:], place + taken.taken
                        if taken.complete:
                            lines.append("%d %d %d %d %d %d %d %d\n" % (taking.words, place - len(taken.word), *taken.corrected))
                            out.write(taking.word(taken))
                    printed.write("".join(lines).encode())
                    bar.at(source.place)
            if not taking.words:
                raise Refusal(f"{no_words(source)}: no marker 1A CF FC 1D has a whole word behind it")
        if not taking.taken:
            say(f"{options.label}: {source.name}: {taking.told()}")
        counted(source, taking.words, options)
    return 0 if taking.taken == taking.words else 1


def _convert(options: Namespace, call: Callable[[bytes], bytearray]) -> int:
    with Source(options.input) as source, octets_out(options.output) as out:
        out.write(call(source.read(BLOCKS)))
    return 0


def blocks_import(options: Namespace) -> int:
    """What `fromblocks` writes."""

    def call(blocks: bytes) -> bytearray:
        out = bytearray(calls.imported_octets(blocks))
        number, block = calls.import_blocks(blocks, out)
        if number != Number.DONE:
            raise Refusal(f"refused: number {int(number)} block {block}: {number.text}")
        return out

    return _convert(options, call)


def blocks_export(options: Namespace) -> int:
    """What `toblocks` writes."""

    def call(octets: bytes) -> bytearray:
        out = bytearray(calls.exported_octets(len(octets)))
        number = calls.export_blocks(octets, out)
        if number != Number.DONE:
            raise Refusal(f"refused: number {int(number)}: {number.text}")
        return out

    return _convert(options, call)


def bch_encode(options: Namespace) -> int:
    """BCH words of the information."""
    with Source(options.input) as source, octets_out(options.output) as out, Progress("bch encode", source.size) as bar:
        word = bytearray(BCH_WORD)
        for part in parts(source, BCH_INFORMATION):
            octets = bytearray()
            for index, information in part.words(BCH_INFORMATION):
                number = calls.bch_encode(information, word)
                if number != Number.DONE:
                    raise Refusal(refused_word(index, number, len(information), BCH_INFORMATION))
                octets += word
            out.write(octets)
            bar.at(source.place)
    return 0


def bch_check(options: Namespace) -> int:
    """A line for each BCH word; the codewords go to --output, those that are refused as they were received."""
    all_taken = True
    with Source(options.input) as source, Sink(None) as printed, kept(options.output) as out:
        printed.write(b"word answer mended\n")
        with Progress("bch check", source.size, lines=True) as bar:
            for part in parts(source, BCH_WORD):
                lines, octets = [], []
                mended_word = bytearray(BCH_WORD)
                for index, word in part.words(BCH_WORD):
                    number, mended = calls.bch_check(options.detect_only, word, mended_word)
                    lines.append("%d %d %d\n" % (index, number, mended))
                    octets.append(bytes(mended_word) if number == Number.DONE else bytes(word))
                    all_taken = all_taken and number == Number.DONE
                printed.write("".join(lines).encode())
                out.write(b"".join(octets))
                bar.at(source.place)
        if not source.place:
            raise no_words(source)
    return 0 if all_taken else 1
