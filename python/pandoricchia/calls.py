"""Every call of the library, as the header has it: octets in, octets out, and what it returns as a named tuple.

Octets are any object with the buffer protocol (bytes, bytearray, memoryview, array, mmap, numpy's arrays) that is contiguous
in C's order. They are read and written where they are; an output must be writable, and must not overlap what is read. A
refused call returns its number and raises nothing: exceptions are for what C can't be asked, as a code that is no octet
(OverflowError), an output that is read-only (BufferError; ValueError by numpy) or an object without octets (TypeError).

The library keeps no state, and a call lets other threads run.
"""
from __future__ import annotations

import ctypes
from ctypes import c_float, c_size_t, c_uint8, c_uint16
from typing import TYPE_CHECKING, Any, List, Sequence

from ._library import LIBRARY, CorrectedRecord, FliprecordRecord, Lent, ReadingRecord, TakingRecord, fit
from .numbers import Number
from .results import (
    Answered,
    Checked,
    Corrected,
    FlipRecord,
    Handed,
    Imported,
    Listed,
    Made,
    Mended,
    Opened,
    Reached,
    Reading,
    Stepped,
    Taken,
    Taking,
)

if TYPE_CHECKING:
    from typing_extensions import Buffer

FlipTable = Sequence[Any]

# The formats of C's float, in the machine's order of octets.
_FLOATS = ("f", "@f", "=f", "<f")


def version() -> int:
    """The library's version: 65536 times its major number, 256 times its minor one, and its patch number."""
    return int(LIBRARY.pandoricchia_version())


def word_octets(code: int) -> int:
    """The octets of a word of a code; 0 for a code that is not offered."""
    return int(LIBRARY.pandoricchia_word_octets(fit("code", code, c_uint8)))


def information_octets(code: int) -> int:
    """The octets of a word's information; 0 for a code that is not offered."""
    return int(LIBRARY.pandoricchia_information_octets(fit("code", code, c_uint8)))


def encode(code: int, information: Buffer, word: Buffer) -> Number:
    """Information in, word out. Returns 0 to 4."""
    code = fit("code", code, c_uint8)
    with Lent(information) as source, Lent(word, writable=True) as written:
        source.apart(written)
        return Number(LIBRARY.pandoricchia_encode(code, source.address, source.octets, written.address, written.octets))


def check(code: int, word: Buffer) -> Checked:
    """Counts the broken checks. Its number is 0 to 2."""
    code = fit("code", code, c_uint8)
    with Lent(word) as source:
        given = LIBRARY.pandoricchia_check(code, source.address, source.octets)
    return Checked(Number(given.number), given.broken, given.lowest)


def quick(code: int, word: Buffer) -> Answered:
    """Whether no check is broken, read in order to the first broken one. Its number is 0 to 2."""
    code = fit("code", code, c_uint8)
    with Lent(word) as source:
        given = LIBRARY.pandoricchia_quick(code, source.address, source.octets)
    return Answered(Number(given.number), given.yes, given.evaluated)


def open(code: int, word: Buffer) -> Opened:  # pylint: disable=redefined-builtin
    """For a codeword of codes 1, 2, 3 and 5, how many of its leading octets are information. 0 to 2, 9, 14 or 15."""
    code = fit("code", code, c_uint8)
    with Lent(word) as source:
        given = LIBRARY.pandoricchia_open(code, source.address, source.octets)
    return Opened(Number(given.number), given.lowest, given.octets)


def correct(code: int, word: Buffer, limit: int, out: Buffer) -> Corrected:
    """The run of flips, up to a limit of 0 to 65,535; on 0 out is a codeword. Its number is 0 to 3 or 5 to 8."""
    code, limit = fit("code", code, c_uint8), fit("limit", limit, c_uint16)
    with Lent(word) as source, Lent(out, writable=True) as written:
        source.apart(written)
        given = LIBRARY.pandoricchia_correct(code, source.address, source.octets, limit, written.address, written.octets)
    return _corrected(given)


def correct_samples(code: int, samples: Buffer, limit: int, out: Buffer) -> Corrected:
    """``correct`` on the bits of a receiver's samples, and by their sizes; codes 1 to 4. 0 to 3, 5, 6, 8 or 16.

    The samples are 32-bit floats, one for each bit: an ``array.array("f")``, a memoryview of format ``f`` or numpy's float32.
    TypeError for any other format. They are read by their bit patterns: no mode of floating point changes an answer.
    """
    code, limit = fit("code", code, c_uint8), fit("limit", limit, c_uint16)
    with memoryview(samples) as view:
        if view.format not in _FLOATS:
            raise TypeError(f"samples are 32-bit floats, of format 'f', not {view.format!r}")
        with Lent(view) as source, Lent(out, writable=True) as written:
            source.apart(written)
            if source.octets and source.address % ctypes.alignment(c_float):
                raise ValueError("the samples are not at an address that four divides")
            given = LIBRARY.pandoricchia_correct_samples(
                code, source.address, source.octets // ctypes.sizeof(c_float), limit, written.address, written.octets
            )
    return _corrected(given)


def flip_table(places: int) -> FlipTable:
    """A table for ``list``, of so many places, each with ``bit``, ``excess`` and ``left``."""
    return (FliprecordRecord * places)()


def list(code: int, word: Buffer, limit: int, table: Any) -> Listed:  # pylint: disable=redefined-builtin
    """``correct``'s run, with a record for each flip in the table, on 0 and on 5 to 8. 0 to 2, 5 to 8 or 10.

    The table is ``flip_table``'s, or any writable buffer of records of 12 octets as C lays them out, at an address that four
    divides; as a numpy array of dtype ``np.dtype([("bit", "u4"), ("excess", "i1"), ("left", "u4")], align=True)``.
    """
    code, limit = fit("code", code, c_uint8), fit("limit", limit, c_uint16)
    with Lent(word) as source, Lent(table, writable=True) as written:
        source.apart(written)
        places, rest = divmod(written.octets, ctypes.sizeof(FliprecordRecord))
        if rest or places and written.address % ctypes.alignment(FliprecordRecord):
            raise ValueError("the table is not whole records of 12 octets at an address that four divides")
        given = LIBRARY.pandoricchia_list(code, source.address, source.octets, limit, written.address, places)
    run = _corrected(given)
    return Listed(*run, bit=given.bit, excess=given.excess)


def flip_records(table: FlipTable, flips: int) -> List[FlipRecord]:
    """The first so many records of a ``flip_table``."""
    return [FlipRecord(record.bit, record.excess, record.left) for record in table[:flips]]


def step(code: int, word: Buffer, out: Buffer) -> Stepped:
    """One flip of ``correct``'s run, codes 1 to 4. Its number is 0 to 3 or 5."""
    code = fit("code", code, c_uint8)
    with Lent(word) as source, Lent(out, writable=True) as written:
        source.apart(written)
        given = LIBRARY.pandoricchia_step(code, source.address, source.octets, written.address, written.octets)
    return Stepped(Number(given.number), given.quiet, given.bit, given.excess)


def nearest(word: Buffer, reach: int, out: Buffer) -> Reached:
    """Code 1: the fewest flips, up to a reach of 3, that give a codeword. Its number is 0, 2, 3, 17 or 18."""
    reach = fit("reach", reach, c_uint8)
    with Lent(word) as source, Lent(out, writable=True) as written:
        source.apart(written)
        given = LIBRARY.pandoricchia_nearest(source.address, source.octets, reach, written.address, written.octets)
    one, two, three = given.bits
    return Reached(Number(given.number), given.least, (one, two, three))


def unit_octets(code: int, information_len: int) -> int:
    """How many octets the unit of so many octets of information has; 0 where there is no unit."""
    code, information_len = fit("code", code, c_uint8), fit("information_len", information_len, c_size_t)
    return int(LIBRARY.pandoricchia_unit_octets(code, information_len))


def write_unit(code: int, information: Buffer, out: Buffer) -> Number:
    """The transmission unit of the information, codes 1 and 3. Returns 0 to 3."""
    code = fit("code", code, c_uint8)
    with Lent(information) as source, Lent(out, writable=True) as written:
        source.apart(written)
        return Number(LIBRARY.pandoricchia_write_unit(code, source.address, source.octets, written.address, written.octets))


def reader(code: int, unit: Buffer, limit: int) -> Reading:
    """A reading of a unit, which ``read`` goes on with. Its number is 0, 1, 11 or 12."""
    code, limit = fit("code", code, c_uint8), fit("limit", limit, c_uint16)
    with Lent(unit) as source:
        given = LIBRARY.pandoricchia_reader(code, source.address, source.octets, limit)
    return _reading(given)


def read(reading: Reading, unit: Buffer, out: Buffer) -> Handed:
    """The next codeblock of the same unit, as its information octets; ``next`` is for the next asking."""
    state = ReadingRecord(
        CorrectedRecord(*(fit("kept", value, c_uint8 if k == 0 else ctypes.c_uint32) for k, value in enumerate(reading.kept))),
        fit("code", reading.code, c_uint8),
        fit("limit", reading.limit, c_uint16),
        fit("place", reading.place, c_size_t),
    )
    with Lent(unit) as source, Lent(out, writable=True) as written:
        source.apart(written)
        given = LIBRARY.pandoricchia_read(state, source.address, source.octets, written.address, written.octets)
    return Handed(_corrected(given.corrected), given.none, _reading(given.next))


def taker(limit: int) -> Taking:
    """A taker at the start of a stream of code 5; no edition is stated."""
    return _taking(LIBRARY.pandoricchia_taker(fit("limit", limit, c_uint16)))


def taker_for(edition: int, limit: int) -> Made:
    """The same for an edition of CCSDS 131.0-B. Its number is 0 or 19."""
    given = LIBRARY.pandoricchia_taker_for(fit("edition", edition, c_uint8), fit("limit", limit, c_uint16))
    return Made(Number(given.number), _taking(given.taker))


def take(taking: Taking, part: Buffer) -> Taken:
    """Takes of the part until a word is complete or the part is used up; what is not taken is brought again."""
    state = TakingRecord(
        fit("place", taking.place, c_size_t), fit("edition", taking.edition, c_uint8), fit("limit", taking.limit, c_uint16)
    )
    with Lent(taking.octets) as held:
        if held.octets != ctypes.sizeof(state.octets):
            raise ValueError(f"a taker holds {ctypes.sizeof(state.octets)} octets, not {held.octets}")
        ctypes.memmove(state.octets, held.address, held.octets)
    with Lent(part) as source:
        given = LIBRARY.pandoricchia_take(state, source.address, source.octets)
    return Taken(_taking(given.next), given.taken, given.complete, _corrected(given.corrected), bytes(given.word))


def bch_encode(information: Buffer, word: Buffer) -> Number:
    """The older BCH words: 7 octets of information in, 8 of a word out. Returns 0, 2 or 3."""
    with Lent(information) as source, Lent(word, writable=True) as written:
        source.apart(written)
        return Number(LIBRARY.pandoricchia_bch_encode(source.address, source.octets, written.address, written.octets))


def bch_check(detect_only: bool, word: Buffer, out: Buffer) -> Mended:
    """The codeword, a single wrong bit mended unless ``detect_only``. Its number is 0, 2, 3 or 13."""
    with Lent(word) as source, Lent(out, writable=True) as written:
        source.apart(written)
        given = LIBRARY.pandoricchia_bch_check(
            bool(detect_only), source.address, source.octets, written.address, written.octets
        )
    return Mended(Number(given.number), given.mended)


def import_blocks(blocks: Buffer, out: Buffer) -> Imported:
    """The octets of a recording from blocks of 512 octets. Its number is 0, 3 or 20 to 23."""
    with Lent(blocks) as source, Lent(out, writable=True) as written:
        source.apart(written)
        given = LIBRARY.pandoricchia_import_blocks(source.address, source.octets, written.address, written.octets)
    return Imported(Number(given.number), given.block)


def imported_octets(blocks: Buffer) -> int:
    """The room that ``import_blocks`` needs; 0 where the blocks are refused."""
    with Lent(blocks) as source:
        return int(LIBRARY.pandoricchia_imported_octets(source.address, source.octets))


def export_blocks(octets: Buffer, out: Buffer) -> Number:
    """The blocks of a recording of up to 64,512 octets. Returns 0, 3 or 20."""
    with Lent(octets) as source, Lent(out, writable=True) as written:
        source.apart(written)
        return Number(LIBRARY.pandoricchia_export_blocks(source.address, source.octets, written.address, written.octets))


def exported_octets(octets_len: int) -> int:
    """The room that ``export_blocks`` needs for so many octets; 0 where they are refused."""
    return int(LIBRARY.pandoricchia_exported_octets(fit("octets_len", octets_len, c_size_t)))


# From records to named tuples.


def _corrected(given: Any) -> Corrected:
    return Corrected(Number(given.number), given.flips, given.first, given.last, given.unlike, given.lowest)


def _reading(given: Any) -> Reading:
    return Reading(_corrected(given.kept), given.code, given.limit, given.place)


def _taking(given: Any) -> Taking:
    return Taking(given.place, given.edition, given.limit, bytes(given.octets))
