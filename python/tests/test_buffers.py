"""Octets are read and written where they are, whatever object has them; and what can't be lent is said."""
from __future__ import annotations

import array
import ctypes
import mmap
import random
import sys
import threading
import unittest
from typing import Any

import pandoricchia
from pandoricchia._library import Lent

from .judge import sampled

try:
    import numpy
except ImportError:
    numpy = None  # type: ignore[assignment]

INFORMATION = b"TURN OFF"
WORD = bytes.fromhex("5455524E204F4646F74E480DCDCEFFF0")
RECEIVED = bytes.fromhex("5455564E204F4646F74E480DCDCEFFF0")


def mapped(octets: bytes) -> mmap.mmap:
    """The octets at the start of a page of their own."""
    page = mmap.mmap(-1, mmap.PAGESIZE)
    page[: len(octets)] = octets
    return page


class Buffers(unittest.TestCase):
    def test_read(self) -> None:
        for word in (
            RECEIVED,
            bytearray(RECEIVED),
            memoryview(RECEIVED),
            memoryview(bytearray(b"before" + RECEIVED + b"after"))[6:22],
            memoryview(b"before" + RECEIVED + b"after")[6:22],
            memoryview(RECEIVED).cast("I"),
            memoryview(RECEIVED).cast("B", (4, 4)),
            array.array("H", RECEIVED),
            (ctypes.c_uint8 * 16).from_buffer_copy(RECEIVED),
            memoryview(mapped(RECEIVED))[:16],
        ):
            with self.subTest(kind=type(word)):
                self.assertEqual(pandoricchia.check(1, word), (0, 5, 3))
                out = bytearray(16)
                self.assertEqual(pandoricchia.correct(1, word, 10, out), (0, 1, 5, 0, 1, 3))
                self.assertEqual(out, WORD)

    def test_written(self) -> None:
        page = mapped(b"")
        around = bytearray(b"?" * 20)
        for out in (
            bytearray(16),
            memoryview(around)[2:18],
            array.array("Q", bytes(16)),
            (ctypes.c_uint8 * 16)(),
            memoryview(page)[:16],
        ):
            with self.subTest(kind=type(out)):
                self.assertEqual(pandoricchia.encode(1, INFORMATION, out), pandoricchia.Number.DONE)
                self.assertEqual(bytes(out), WORD)
        self.assertEqual(around, b"??" + WORD + b"??")

    def test_where_they_are(self) -> None:
        octets = bytearray(RECEIVED)
        with Lent(RECEIVED) as read, Lent(octets, writable=True) as written, Lent(memoryview(octets)[5:9]) as part:
            self.assertEqual(read.address, ctypes.cast(ctypes.c_char_p(RECEIVED), ctypes.c_void_p).value)
            self.assertEqual((read.octets, written.octets, part.octets), (16, 16, 4))
            self.assertEqual(written.address, ctypes.addressof(ctypes.c_uint8.from_buffer(octets)))
            self.assertEqual(part.address, written.address + 5)
            with self.assertRaises(BufferError):
                octets.append(0)
        octets.append(0)

    def test_given_back(self) -> None:
        word, out = bytearray(RECEIVED), bytearray(16)
        counts = sys.getrefcount(word), sys.getrefcount(out), sys.getrefcount(RECEIVED)
        for _ in range(100):
            pandoricchia.correct(1, word, 10, out)
            pandoricchia.correct(1, RECEIVED, 10, out)
            with self.assertRaises(TypeError):
                pandoricchia.correct(1, word, 10, None)  # type: ignore[arg-type]
            with self.assertRaises(ValueError):
                pandoricchia.correct(1, word, 10, word)
        self.assertEqual((sys.getrefcount(word), sys.getrefcount(out), sys.getrefcount(RECEIVED)), counts)
        word.append(0)
        out.append(0)

    def test_not_lent(self) -> None:
        out = bytearray(16)
        for wrong in (None, "TURN OFF", 8, [1, 2]):
            with self.assertRaises(TypeError):
                pandoricchia.encode(1, wrong, out)  # type: ignore[arg-type]
        with self.assertRaises(BufferError):
            pandoricchia.check(1, memoryview(bytes(32))[::2])
        for read_only in (bytes(16), memoryview(bytes(16)), memoryview(out).toreadonly()):
            with self.assertRaises(BufferError):
                pandoricchia.encode(1, INFORMATION, read_only)
        self.assertEqual(out, bytes(16))

    def test_apart(self) -> None:
        octets = bytearray(RECEIVED + bytes(16))
        whole = memoryview(octets)
        for place in (0, 1, 15):
            with self.assertRaises(ValueError):
                pandoricchia.correct(1, whole[:16], 10, whole[place:place + 16])
        self.assertEqual(octets, RECEIVED + bytes(16))
        self.assertEqual(pandoricchia.correct(1, whole[:16], 10, whole[4:4]).number, pandoricchia.Number.OUTPUT_LENGTH)
        self.assertEqual(pandoricchia.correct(1, whole[:16], 10, whole[16:]).number, pandoricchia.Number.DONE)
        self.assertEqual(octets, RECEIVED + WORD)

    def test_empty(self) -> None:
        self.assertEqual(pandoricchia.check(1, b"").number, pandoricchia.Number.INPUT_LENGTH)
        self.assertEqual(pandoricchia.encode(1, INFORMATION, bytearray()), pandoricchia.Number.OUTPUT_LENGTH)
        self.assertEqual(pandoricchia.export_blocks(b"", bytearray()), pandoricchia.Number.DONE)

    def test_numbers_that_c_has_not(self) -> None:
        """257 is no code; in C it would be taken for 1."""
        out = bytearray(16)
        for code in (-1, 256, 257, 1 << 64):
            with self.assertRaises(OverflowError):
                pandoricchia.check(code, WORD)
            with self.assertRaises(OverflowError):
                pandoricchia.word_octets(code)
        for limit in (-1, 65536):
            with self.assertRaises(OverflowError):
                pandoricchia.correct(1, WORD, limit, out)
            with self.assertRaises(OverflowError):
                pandoricchia.taker(limit)
        for length in (-1, 1 << 64):
            with self.assertRaises(OverflowError):
                pandoricchia.unit_octets(1, length)
            with self.assertRaises(OverflowError):
                pandoricchia.exported_octets(length)
        with self.assertRaises(TypeError):
            pandoricchia.check(1.0, WORD)  # type: ignore[arg-type]
        reading = pandoricchia.reader(1, WORD, 3)
        with self.assertRaises(OverflowError):
            pandoricchia.read(reading._replace(place=-1), WORD, out)
        with self.assertRaises(ValueError):
            pandoricchia.take(pandoricchia.taker(3)._replace(octets=b"short"), WORD)

    def test_table(self) -> None:
        octets = bytearray(24)
        self.assertEqual(pandoricchia.list(1, RECEIVED, 10, octets).flips, 1)
        self.assertEqual(octets[:12], (21).to_bytes(4, sys.byteorder) + b"\5" + octets[5:8] + bytes(4))
        for table in (bytearray(23), memoryview(bytearray(25))[1:]):
            with self.assertRaises(ValueError):
                pandoricchia.list(1, RECEIVED, 10, table)

    def test_samples(self) -> None:
        floats = sampled(random.Random(2), RECEIVED, 1)
        octets = floats.tobytes()
        around = memoryview(bytearray(4) + octets + bytes(4))
        for samples in (
            floats,
            memoryview(floats),
            memoryview(octets).cast("f"),
            memoryview(octets).cast("f", (8, 16)),
            around[4:-4].cast("f"),
            (ctypes.c_float * 128).from_buffer_copy(octets),
        ):
            with self.subTest(kind=type(samples)):
                out = bytearray(16)
                self.assertEqual(pandoricchia.correct_samples(1, samples, 10, out), (0, 1, 5, 0, 1, 3))
                self.assertEqual(out, WORD)
        out = bytearray(16)
        for wrong in (octets, bytearray(512), array.array("d", floats), array.array("i", octets), memoryview(octets), None, [1.0] * 128):
            with self.assertRaises(TypeError):
                pandoricchia.correct_samples(1, wrong, 10, out)  # type: ignore[arg-type]
        with self.assertRaises(ValueError):
            pandoricchia.correct_samples(1, around[1:-7].cast("f"), 10, out)
        with self.assertRaises(BufferError):
            pandoricchia.correct_samples(1, memoryview(floats + floats)[::2], 10, out)
        with self.assertRaises(ValueError):
            pandoricchia.correct_samples(1, floats, 10, memoryview(floats).cast("B")[:16])
        self.assertEqual(out, bytes(16))
        self.assertEqual(pandoricchia.correct_samples(1, array.array("f"), 10, out).number, pandoricchia.Number.INPUT_LENGTH)
        floats.append(0)

    def test_threads(self) -> None:
        words = [bytearray(16) for _ in range(4)]

        def work(out: bytearray) -> None:
            for _ in range(500):
                pandoricchia.correct(1, RECEIVED, 10, out)

        threads = [threading.Thread(target=work, args=(out,)) for out in words]
        for thread in threads:
            thread.start()
        for thread in threads:
            thread.join()
        self.assertEqual(words, [bytearray(WORD)] * 4)

    @unittest.skipIf(numpy is None, "numpy is not installed")
    def test_numpy(self) -> None:
        many: Any = numpy.frombuffer(RECEIVED * 3, dtype=numpy.uint8).reshape(3, 16)
        self.assertFalse(many.flags.writeable)
        out: Any = numpy.zeros((3, 16), dtype=numpy.uint8)
        for row in range(3):
            self.assertEqual(pandoricchia.correct(numpy.uint8(1), many[row], numpy.int64(10), out[row]).flips, 1)
        self.assertEqual(out.tobytes(), WORD * 3)
        with self.assertRaises((BufferError, ValueError)):
            pandoricchia.check(1, many[:, 0])
        with self.assertRaises((BufferError, ValueError)):
            pandoricchia.encode(1, INFORMATION, many[0])
        floats: Any = numpy.array(sampled(random.Random(2), RECEIVED, 1), dtype=numpy.float32)
        self.assertEqual(pandoricchia.correct_samples(1, floats, 10, out[0]).flips, 1)
        for other in (floats.astype(numpy.float64), floats.astype(">f4"), floats.astype(numpy.float16)):
            with self.assertRaises(TypeError):
                pandoricchia.correct_samples(1, other, 10, out[0])
        kind = numpy.dtype([("bit", "u4"), ("excess", "i1"), ("left", "u4")], align=True)
        table: Any = numpy.zeros(4, dtype=kind)
        self.assertEqual(pandoricchia.list(1, RECEIVED, 4, table).flips, 1)
        self.assertEqual(table[0].tolist(), (21, 5, 0))
