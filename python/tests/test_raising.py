"""The layer that makes outputs and raises: the same octets and numbers, and every refusal an exception."""
from __future__ import annotations

import array
import math
import pickle
import random
import unittest

import pandoricchia
from pandoricchia import Number, Refused, raising

from .judge import CODES, information, sampled, spoiled


class Raising(unittest.TestCase):
    def refused(self, number: int, call: str, *arguments: object) -> Refused:
        """The exception that the call must raise, with this number."""
        with self.assertRaises(Refused) as caught:
            getattr(raising, call)(*arguments)
        self.assertEqual((caught.exception.call, caught.exception.number), (call, number))
        return caught.exception

    def test_there_and_back(self) -> None:
        chance = random.Random(11)
        for code in CODES:
            sent = information(chance, code)
            word = raising.encode(code, sent)
            self.assertEqual(raising.check(code, word).broken, 0)
            self.assertTrue(raising.quick(code, word).yes)
            heard = spoiled(chance, bytes(word[:-1]), 1) + bytes(word[-1:])
            mended, corrected = raising.correct(code, heard, 10)
            self.assertEqual((mended, corrected.flips), (word, 1))
            records, listed = raising.list(code, heard, 10)
            self.assertEqual((len(records), tuple(listed[:6])), (1, tuple(corrected)))
            if code != 4:
                self.assertEqual(raising.open(code, word), sent)
            if code != 5:
                self.assertEqual(raising.step(code, heard)[0], word)
                self.assertEqual(raising.correct_samples(code, sampled(chance, heard, 9), 10), (word, corrected))
        self.assertEqual(raising.import_blocks(raising.export_blocks(sent)), sent)
        self.assertEqual(raising.export_blocks(b""), b"")
        older = raising.bch_encode(b"seven..")
        self.assertEqual(raising.bch_check(False, spoiled(chance, bytes(older[:7]), 1) + older[7:]), (older, (0, 1)))
        self.assertEqual(raising.nearest(bytes([128]) + bytes(15), 3), (bytes(16), (0, 1, (0, 0, 0))))

    def test_open_is_a_view(self) -> None:
        word = raising.encode(1, b"TURN OFF")
        view = raising.open(1, word)
        word[0] = 0
        self.assertEqual(view, b"\0URN OFF")

    def test_refusals(self) -> None:
        self.refused(1, "encode", 6, bytes(8))
        self.refused(2, "encode", 1, bytes(9))
        self.refused(4, "encode", 4, bytes([255] * 895))
        self.refused(1, "check", 0, b"")
        self.refused(2, "quick", 1, bytes(15))
        self.refused(9, "open", 1, bytes([128]) + bytes(15))
        self.refused(6, "correct", 1, bytes([128]) + bytes(15), 0)
        self.refused(16, "correct_samples", 1, array.array("f", [math.nan] * 128), 0)
        self.refused(1, "correct_samples", 5, array.array("f", bytes(4 * 8160)), 9)
        self.refused(1, "step", 5, bytes(1020))
        self.refused(17, "nearest", bytes([128]) + bytes(15), 0)
        self.refused(18, "nearest", bytes(16), 4)
        self.refused(1, "write_unit", 2, bytes(8))
        self.refused(2, "write_unit", 1, b"")
        self.refused(2, "bch_encode", bytes(8))
        self.refused(13, "bch_check", True, bytes(8))
        self.refused(20, "import_blocks", bytes(511))
        self.refused(21, "import_blocks", bytes(512))
        self.refused(20, "export_blocks", bytes(64513))

    def test_list_refused(self) -> None:
        heard = spoiled(random.Random(5), bytes(16), 4)
        error = self.refused(6, "list", 1, heard, 1)
        self.assertEqual((len(error.records), error.result.flips), (1, 1))
        with self.assertRaises(OverflowError):
            raising.list(1, heard, -1)

    def test_said(self) -> None:
        error = self.refused(2, "correct", 1, bytes(3), 10)
        self.assertEqual(str(error), "correct is refused with number 2: input length differs")
        self.assertIs(error.number, Number.INPUT_LENGTH)
        self.assertEqual(error.result, pandoricchia.correct(1, bytes(3), 10, bytearray(16)))
        again = pickle.loads(pickle.dumps(error))
        self.assertEqual((str(again), again.number, again.result), (str(error), error.number, error.result))
