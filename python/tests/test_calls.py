"""Every call against the judge, on random inputs with right and wrong codes and lengths, and on the sample recordings."""
from __future__ import annotations

import array
import math
import random
import unittest

import pandoricchia

from .judge import CODES, TOP, ask, both, information, plain, received, sampled, spoiled

MANY = {1: 300, 2: 200, 3: 120, 4: 20, 5: 20}


class Calls(unittest.TestCase):
    def setUp(self) -> None:
        self.chance = random.Random(20261115)

    def out(self, length: int) -> bytearray:
        """An output that is not empty before: a refused call leaves it as it was."""
        return bytearray(self.chance.randbytes(length))

    def test_encode(self) -> None:
        for code in CODES:
            length = pandoricchia.word_octets(code)
            for _ in range(MANY[code]):
                self.assertEqual(both(self, "encode", code, information(self.chance, code), self.out(length)), 0)
        self.assertEqual(both(self, "encode", 4, bytes([255] * 895), self.out(1022)), pandoricchia.Number.LAST_SIX)

    def test_words(self) -> None:
        seen = set()
        for code in CODES:
            length = pandoricchia.word_octets(code)
            for _ in range(MANY[code]):
                word, limit = received(self.chance, code), self.chance.choice((0, 1, 3, 10, 65535))
                both(self, "check", code, word)
                both(self, "quick", code, word)
                both(self, "open", code, word)
                both(self, "step", code, word, self.out(length))
                seen.add(both(self, "correct", code, word, limit, self.out(length)).number)
        self.assertTrue(seen >= {0, 5, 6}, seen)

    def test_list(self) -> None:
        for code in CODES:
            for _ in range(MANY[code]):
                word, limit = received(self.chance, code), self.chance.choice((0, 1, 3, 10, 65535))
                places = self.chance.choice((0, 2, 12, 600))
                table = pandoricchia.flip_table(places)
                answer = pandoricchia.list(code, word, limit, table)
                octets = bytearray(12 * places)
                theirs = (type(table)).from_buffer(octets)
                said = ask("list", code, word, limit, theirs, places)
                self.assertEqual(plain(answer), plain(said))
                records = pandoricchia.flip_records(table, places)
                self.assertEqual(plain(tuple(records)), plain(tuple(pandoricchia.flip_records(theirs, places))))

    def test_samples(self) -> None:
        seen = set()
        for code in (1, 2, 3, 4):
            length = pandoricchia.word_octets(code)
            for _ in range(MANY[code]):
                word, limit = received(self.chance, code), self.chance.choice((0, 1, 3, 10, 65535))
                samples = sampled(self.chance, word, self.chance.choice((1, 3, 1000)))
                seen.add(both(self, "correct_samples", code, samples, limit, self.out(length)).number)
                samples[self.chance.randrange(len(samples))] = self.chance.choice((math.inf, -math.inf, math.nan))
                seen.add(both(self, "correct_samples", code, samples, limit, self.out(length)).number)
                outs = self.out(length), bytearray(length)
                equal = pandoricchia.correct_samples(code, sampled(self.chance, word, 1), limit, outs[0])
                self.assertEqual(equal, pandoricchia.correct(code, word, limit, outs[1]))
                self.assertTrue(equal.number or outs[0] == outs[1])
        self.assertTrue(seen >= {0, 5, 6, 16}, seen)

    def test_samples_of_the_auditor(self) -> None:
        """The judge's numbers of both runs on the same bits, and the words: the one that was sent by the sizes alone."""
        samples = array.array("f", map(float, (TOP / "samples/auditor_sizes.txt").read_text(encoding="ascii").split()))
        log = (TOP / "samples/auditor_sizes.log").read_text(encoding="ascii").splitlines()
        said = [[int(value) for value in line.split()[1:]] for line in log if line.startswith("correct")]
        word, outs = (TOP / "samples/auditor.bin").read_bytes()[3 + 16:], (bytearray(16), bytearray(16))
        given = pandoricchia.correct(1, word, 65535, outs[0]), pandoricchia.correct_samples(1, samples, 65535, outs[1])
        self.assertEqual([list(plain(numbers))[:5] for numbers in given], said)
        self.assertNotEqual(outs[0], bytes(16))
        self.assertEqual(outs[1], bytes(16))

    def test_nearest(self) -> None:
        for _ in range(8):
            word = spoiled(self.chance, bytes(16), self.chance.choice((0, 1, 2, 3)))
            both(self, "nearest", word, self.chance.choice((0, 1, 2, 3, 3)), self.out(16))
        both(self, "nearest", self.chance.randbytes(16), 2, self.out(16))
        both(self, "nearest", bytes(16), 4, self.out(16))
        both(self, "nearest", bytes(16), 255, self.out(16))
        both(self, "nearest", bytes(15), 3, self.out(16))
        both(self, "nearest", bytes(16), 3, self.out(17))

    def test_codes_and_lengths(self) -> None:
        for code in (*range(9), 255):
            length, part = pandoricchia.word_octets(code), pandoricchia.information_octets(code)
            for more in (-1, 0, 1):
                for room in (-1, 0, 1):
                    word, info = bytes(max(0, length + more)), bytes(max(0, part + more))
                    out = self.out(max(0, length + room))
                    both(self, "encode", code, info, out)
                    both(self, "correct", code, word, 5, out)
                    both(self, "correct_samples", code, array.array("f", bytes(4 * max(0, 8 * length + more))), 5, out)
                    both(self, "step", code, word, out)
                both(self, "check", code, word)
                both(self, "quick", code, word)
                both(self, "open", code, word)
                both(self, "list", code, word, 5, bytearray())

    def test_units(self) -> None:
        for code in (0, 1, 2, 3, 4, 5, 255):
            for length in (0, 1, 7, 8, 9, 31, 32, 33, 100):
                octets = both(self, "unit_octets", code, length)
                self.assertEqual(pandoricchia.unit_octets(code, length), octets)
                for room in (octets, octets + 1):
                    both(self, "write_unit", code, self.chance.randbytes(length), self.out(room))
        self.assertEqual(both(self, "unit_octets", 1, 2**64 - 1), pandoricchia.unit_octets(1, 2**64 - 1))

    def test_reading(self) -> None:
        for _ in range(60):
            code = self.chance.choice((1, 3))
            unit = bytearray(pandoricchia.unit_octets(code, 40))
            pandoricchia.write_unit(code, self.chance.randbytes(40), unit)
            heard = spoiled(self.chance, bytes(unit), self.chance.choice((0, 0, 1, 2, 12)))
            heard = heard[: len(heard) - self.chance.choice((0, 0, 0, 1, 9))]
            ours, theirs = pandoricchia.reader(code, heard, 3), ask("reader", code, heard, 3)
            self.assertEqual(plain(ours), plain(theirs))
            for ask_again in range(8):
                outs = [bytearray(pandoricchia.information_octets(code) + (ask_again == 2)) for _ in range(2)]
                handed, said = pandoricchia.read(ours, heard, outs[0]), ask("read", theirs, heard, outs[1])
                self.assertEqual(plain(handed), plain(said))
                self.assertEqual(outs[0], outs[1])
                ours, theirs = handed.next, said.next

    def test_bch(self) -> None:
        for _ in range(200):
            word = bytearray(8)
            self.assertEqual(both(self, "bch_encode", self.chance.randbytes(7), word), 0)
            pandoricchia.bch_encode(self.chance.randbytes(7), word)
            heard = spoiled(self.chance, bytes(word), self.chance.choice((0, 1, 1, 2, 3)))
            for detect_only in (False, True):
                both(self, "bch_check", detect_only, heard, self.out(8))
        for length, room in ((6, 8), (7, 7), (8, 8), (9, 9)):
            both(self, "bch_encode", bytes(length), self.out(room))
            both(self, "bch_check", False, bytes(length), self.out(room))

    def test_blocks(self) -> None:
        for length in (0, 1, 503, 504, 505, 2000, 64512, 64513):
            octets = self.chance.randbytes(length)
            room = both(self, "exported_octets", length)
            both(self, "export_blocks", octets, self.out(room + 1))
            blocks = bytearray(room)
            both(self, "export_blocks", octets, blocks)
            pandoricchia.export_blocks(octets, blocks)
            for heard in (bytes(blocks), bytes(blocks[:-1]), spoiled(self.chance, bytes(blocks), min(1, room))):
                need = both(self, "imported_octets", heard)
                both(self, "import_blocks", heard, self.out(need))
                both(self, "import_blocks", heard, self.out(need + 1))

    def test_recordings(self) -> None:
        """The judge's logs of samples, line by line; and every word of them opened."""
        seen = set()
        for log in sorted((TOP / "samples").glob("code[1-5]*.log")):
            recording = log.with_suffix(".bin").read_bytes()
            code, limit, words = recording[0], int.from_bytes(recording[1:3], "big"), memoryview(recording)[3:]
            length = pandoricchia.word_octets(code)
            out, lines = bytearray(length), ["word answer flips first last unlike"]
            for index, place in enumerate(range(0, len(words), length)):
                given = pandoricchia.correct(code, words[place:place + length], limit, out)
                lines.append(" ".join(str(int(value)) for value in (index, *given[:5])))
                seen.add(both(self, "open", code, bytes(words[place:place + length])).number)
            self.assertEqual("\n".join(lines) + "\n", log.read_text(encoding="ascii"), log.name)
        word = bytearray(1020)
        pandoricchia.encode(5, bytes(892), word)
        word[-1] |= 1
        seen.add(both(self, "open", 5, bytes(word)).number)
        self.assertTrue(seen >= {0, 1, 2, 9, 14, 15}, seen)
