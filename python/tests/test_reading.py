"""The iterators: a unit's codeblocks, and a stream's words however its parts are cut."""
from __future__ import annotations

import ctypes
import random
import unittest
from typing import List, Tuple

import pandoricchia
from pandoricchia import raising

from .judge import JUDGE, TOP, Frame, plain, spoiled


def judged(stream: bytes, edition: int, limit: int) -> List[Tuple[object, bytes]]:
    """The words that the judge finds in the whole stream."""
    found, frame, place = [], Frame(), 0
    octets = (ctypes.c_uint8 * len(stream)).from_buffer_copy(stream)
    while JUDGE.judge_frame(octets, len(stream), place, edition, limit, frame):
        found.append((plain(frame.corrected), bytes(frame.word)))
        place = frame.offset + 1020
    return found


class Readers(unittest.TestCase):
    def test_unit(self) -> None:
        chance = random.Random(7)
        for code in (1, 3):
            for length in (1, 8, 32, 100):
                sent = chance.randbytes(length)
                unit = raising.write_unit(code, sent)
                reader = pandoricchia.Reader(code, unit, 3)
                blocks = list(reader)
                octets = b"".join(block.information for block in blocks)
                self.assertEqual(octets[:length], sent)
                self.assertEqual(set(octets[length:]) | {0x55}, {0x55})
                self.assertEqual([block.number for block in blocks], [0] * len(blocks))
                self.assertEqual(reader.number, pandoricchia.Number.DONE)
                self.assertEqual(list(reader), [])
                self.assertEqual(list(raising.Reader(code, unit, 3)), blocks)

    def test_refused_codeblock(self) -> None:
        unit = raising.write_unit(1, bytes(24))
        start = len(unit) - len(raising.write_unit(1, bytes(16))) + 8
        unit[start:start + 16] = spoiled(random.Random(3), bytes(unit[start:start + 16]), 30)
        reader = pandoricchia.Reader(1, unit, 0)
        blocks = list(reader)
        self.assertEqual((blocks[-1].number, blocks[-1].information), (6, b""))
        self.assertEqual(reader.number, pandoricchia.Number.LIMIT)
        self.assertEqual(list(reader), [])
        with self.assertRaises(pandoricchia.Refused) as caught:
            list(raising.Reader(1, unit, 0))
        self.assertEqual((caught.exception.number, caught.exception.result), (6, blocks[-1]))

    def test_no_unit(self) -> None:
        unit = raising.write_unit(1, bytes(8))
        for code, octets, number in ((2, unit, 1), (1, bytes(40), 11), (1, unit[:-1], 12)):
            reader = pandoricchia.Reader(code, octets, 3)
            self.assertEqual((reader.number, list(reader)), (number, []))
            with self.assertRaises(pandoricchia.Refused) as caught:
                raising.Reader(code, octets, 3)
            self.assertEqual(caught.exception.number, number)


class Takers(unittest.TestCase):
    def test_streams(self) -> None:
        for name, edition in (("frames", 0), ("frames_edition_5", 5), ("frames_edition_5", 4)):
            recording = (TOP / f"samples/{name}.stream").read_bytes()
            limit, stream = int.from_bytes(recording[:2], "big"), recording[2:]
            words = judged(stream, edition, limit)
            self.assertGreater(len(words), 4)
            for cut in (1, 3, 1000, 1020, 1024, 5000, len(stream)):
                parts = [stream[place:place + cut] for place in range(0, len(stream), cut)]
                taken = pandoricchia.Taker(limit, edition).words([b"", *parts])
                self.assertEqual([(plain(word.corrected), word.octets) for word in taken], words, (name, cut))

    def test_log(self) -> None:
        recording = (TOP / "samples/frames.stream").read_bytes()
        lines = (TOP / "samples/frames.log").read_text(encoding="ascii").splitlines()[1:]
        words = list(raising.Taker(int.from_bytes(recording[:2], "big")).take(memoryview(recording)[2:]))
        self.assertEqual([" ".join(map(str, plain(word.corrected))) for word in words], [line.split(" ", 2)[2] for line in lines])

    def test_state(self) -> None:
        """The calls under the iterator: what is not taken is brought again."""
        recording = (TOP / "samples/frames.stream").read_bytes()
        state, stream, count = pandoricchia.taker(4), recording[2:], 0
        self.assertEqual(state, pandoricchia.taker_for(0, 4).taker)
        while stream:
            taken = pandoricchia.take(state, stream)
            self.assertTrue(taken.complete or taken.taken == len(stream))
            count += taken.complete
            state, stream = taken.next, stream[taken.taken:]
        self.assertEqual(count, 10)

    def test_editions(self) -> None:
        for edition in range(256):
            number = JUDGE.judge_edition(ctypes.c_uint8(edition)) & 0xFF
            self.assertEqual(pandoricchia.taker_for(edition, 4).number, number)
            self.assertEqual(pandoricchia.Taker(4, edition).number, number)
            if number:
                with self.assertRaises(pandoricchia.Refused):
                    raising.Taker(4, edition)
