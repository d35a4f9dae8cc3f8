"""The same calls for those who want exceptions: each makes its output and gives it back, or raises ``Refused``.

    from pandoricchia import raising

    word = raising.encode(1, b"TURN OFF")
    mended, corrected = raising.correct(1, word, 10)

Calls that only give a length, as ``word_octets``, can't be refused and are in ``pandoricchia``.
"""
from __future__ import annotations

from typing import TYPE_CHECKING, Any, List, Tuple, TypeVar

from . import calls, reading
from .numbers import Number
from .results import Answered, Checked, Corrected, FlipRecord, Imported, Listed, Mended, Reached, Stepped

if TYPE_CHECKING:
    from typing_extensions import Buffer

_Result = TypeVar("_Result")


class Refused(Exception):
    """A refused call: its name, its ``number``, and as ``result`` all that it returned."""

    def __init__(self, call: str, number: Number, result: Any, records: Tuple[FlipRecord, ...] = ()) -> None:
        super().__init__(call, number, result, records)
        self.call = call
        self.number = number
        self.result = result
        #: What ``list`` wrote: it does so with refusals 5 to 8 too.
        self.records = records

    def __str__(self) -> str:
        return f"{self.call} is refused with number {int(self.number)}: {self.number.text}"


def _done(call: str, number: Number, result: _Result) -> _Result:
    if number != Number.DONE:
        raise Refused(call, number, result)
    return result


def encode(code: int, information: Buffer) -> bytearray:
    """The word of the information."""
    word = bytearray(calls.word_octets(code))
    number = calls.encode(code, information, word)
    _done("encode", number, number)
    return word


def check(code: int, word: Buffer) -> Checked:
    """The broken checks. Broken checks are no refusal."""
    result = calls.check(code, word)
    return _done("check", result.number, result)


def quick(code: int, word: Buffer) -> Answered:
    """Whether no check is broken. That one is, is no refusal."""
    result = calls.quick(code, word)
    return _done("quick", result.number, result)


def open(code: int, word: Buffer) -> memoryview:  # pylint: disable=redefined-builtin
    """A codeword's information: a view of the word's own leading octets."""
    result = calls.open(code, word)
    _done("open", result.number, result)
    return memoryview(word).cast("B")[: result.octets]


def correct(code: int, word: Buffer, limit: int) -> Tuple[bytearray, Corrected]:
    """The codeword at the run's end, and the run's numbers."""
    out = bytearray(calls.word_octets(code))
    result = calls.correct(code, word, limit, out)
    return out, _done("correct", result.number, result)


def correct_samples(code: int, samples: Buffer, limit: int) -> Tuple[bytearray, Corrected]:
    """The codeword at the end of the run by sample sizes, and the run's numbers."""
    out = bytearray(calls.word_octets(code))
    result = calls.correct_samples(code, samples, limit, out)
    return out, _done("correct_samples", result.number, result)


def list(code: int, word: Buffer, limit: int) -> Tuple[List[FlipRecord], Listed]:  # pylint: disable=redefined-builtin
    """The run's flips, and its numbers. Where it is refused by 5 to 8, the exception has the flips as ``records``."""
    checked = calls.check(code, word)
    table = calls.flip_table(max(0, min(limit, checked.broken)))
    result = calls.list(code, word, limit, table)
    records = calls.flip_records(table, result.flips)
    if result.number != Number.DONE:
        raise Refused("list", result.number, result, tuple(records))
    return records, result


def step(code: int, word: Buffer) -> Tuple[bytearray, Stepped]:
    """The word after one flip, or as it is where no check is broken; and which flip."""
    out = bytearray(calls.word_octets(code))
    result = calls.step(code, word, out)
    return out, _done("step", result.number, result)


def nearest(word: Buffer, reach: int) -> Tuple[bytearray, Reached]:
    """The nearest codeword of code 1 within the reach, and the flips to it."""
    out = bytearray(calls.word_octets(1))
    result = calls.nearest(word, reach, out)
    return out, _done("nearest", result.number, result)


def write_unit(code: int, information: Buffer) -> bytearray:
    """The transmission unit of the information."""
    out = bytearray(calls.unit_octets(code, memoryview(information).nbytes))
    number = calls.write_unit(code, information, out)
    _done("write_unit", number, number)
    return out


def bch_encode(information: Buffer) -> bytearray:
    """The BCH word of 7 octets of information."""
    word = bytearray(8)
    number = calls.bch_encode(information, word)
    _done("bch_encode", number, number)
    return word


def bch_check(detect_only: bool, word: Buffer) -> Tuple[bytearray, Mended]:
    """The BCH codeword, and how many bits were mended."""
    out = bytearray(8)
    result = calls.bch_check(detect_only, word, out)
    return out, _done("bch_check", result.number, result)


def import_blocks(blocks: Buffer) -> bytearray:
    """The octets of a recording from its blocks."""
    out = bytearray(calls.imported_octets(blocks))
    result: Imported = calls.import_blocks(blocks, out)
    _done("import_blocks", result.number, result)
    return out


def export_blocks(octets: Buffer) -> bytearray:
    """The blocks of a recording."""
    out = bytearray(calls.exported_octets(memoryview(octets).nbytes))
    number = calls.export_blocks(octets, out)
    _done("export_blocks", number, number)
    return out


class Reader(reading.Reader):
    """The codeblocks of a unit; raises where there is no reader, and at a codeblock that is refused."""

    def __init__(self, code: int, unit: Buffer, limit: int) -> None:
        super().__init__(code, unit, limit)
        _done("reader", self.number, self._reading)

    def __next__(self) -> reading.Block:
        block = super().__next__()
        return _done("read", block.number, block)


class Taker(reading.Taker):
    """Words out of a stream; raises for an edition that is not known. A refused word is no refused call: the stream goes on
    after it, and the word is given with its number."""

    def __init__(self, limit: int, edition: int = 0) -> None:
        super().__init__(limit, edition)
        _done("taker_for", self.number, self._taking)
