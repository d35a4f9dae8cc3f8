"""The command's verbs on units, streams, blocks and BCH words, against the bench programs' stored runs and the judge."""
from __future__ import annotations

import ctypes
import pathlib
import random
import shutil
import tempfile
import unittest
from typing import List

import pandoricchia
from pandoricchia import raising
from pandoricchia.command import randomiser

from .command import SAMPLES, TOP, command
from .judge import JUDGE, Frame, ask, spoiled


class Links(unittest.TestCase):
    def setUp(self) -> None:
        self.chance = random.Random(20261115)
        self.place = pathlib.Path(tempfile.mkdtemp())
        self.addCleanup(shutil.rmtree, self.place)
        self.out = self.place / "out"

    def test_unit_programs(self) -> None:
        """The programs' stored runs: code and limit are their first octets, and options here."""
        given, wanted = ((TOP / "crates/unitwrite" / name).read_bytes() for name in ("stdin", "stdout"))
        self.assertEqual(command("unit", "write", "--code", given[0], given=given[1:]), (0, wanted, ""))
        given, wanted = ((TOP / "crates/unitread" / name).read_bytes() for name in ("stdin", "stdout"))
        limit = int.from_bytes(given[1:3], "big")
        ran = command("unit", "read", "--code", given[0], "--limit", limit, given=given[3:])
        self.assertEqual((ran.out, ran.said), (wanted, ""))

    def test_units(self) -> None:
        for code in (1, 3):
            sent = self.chance.randbytes(100)
            unit = command("unit", "write", "--code", code, given=sent).out
            self.assertEqual(unit, bytes(raising.write_unit(code, sent)))
            self.assertEqual(command("unit", "read", "--code", code, "--output", self.out, given=unit).status, 0)
            self.assertEqual(self.out.read_bytes()[:100], sent)
            ran = command("unit", "read", "--code", code, "--count", given=unit)
            many = ran.out.count(b"\n") - 1
            self.assertEqual(ran.said, f"pandoricchia unit read: standard input: {many} codeblocks\n")
            spoilt = unit[:8] + self.chance.randbytes(64) + unit[72:]
            ran = command("unit", "read", "--code", code, "--limit", 0, given=spoilt)
            self.assertEqual((ran.status, ran.out.splitlines()[1].split()[1], ran.out.splitlines()[-1][-1:]), (1, b"6", b"-"))
        head = b"codeblock answer flips first last unlike lowest information\n"
        said = "pandoricchia unit read: standard input: number 11: the whole start is not there\n"
        self.assertEqual(command("unit", "read", "--code", 1, given=b"no unit"), (1, head + b"0 11 0 0 0 0 0 -\n", said))
        said = "pandoricchia unit write: no unit is written: number 2: input length differs: there is no information in it\n"
        self.assertEqual(command("unit", "write", "--code", 1), (1, b"", said))
        said = "pandoricchia unit write: standard input: more than 65536 octets of information\n"
        self.assertEqual(command("unit", "write", "--code", 1, given=bytes(65537)), (2, b"", said))

    def test_frames(self) -> None:
        for name, edition in (("frames", 0), ("frames_edition_5", 5)):
            stream, log = ((SAMPLES / (name + ending)).read_bytes() for ending in (".stream", ".log"))
            limit = int.from_bytes(stream[:2], "big")
            words = ("frames", "--limit", limit, "--edition", edition)
            ran = command(*words, "--output", self.out, given=stream[2:])
            self.assertEqual(ran, (1, log, ""))
            heard = self.received(stream[2:], edition)
            found = pandoricchia.Taker(limit, edition).take(stream[2:])
            taken = [word.octets if word.number == 0 else heard[k] for k, word in enumerate(found)]
            self.assertEqual(self.out.read_bytes(), b"\x05" + stream[:2] + b"".join(taken))
            self.assertIn(b"6", [line.split()[2] for line in log.splitlines()])
            # as they were received: what correct says of them is what frames says
            self.assertEqual(command(*words, "--received", "--output", self.out, "--count", given=stream[2:]).said,
                             f"pandoricchia frames: standard input: {len(heard)} words\n")
            self.assertEqual(self.out.read_bytes(), b"\x05" + stream[:2] + b"".join(heard))
            wanted = [line.split()[:1] + line.split()[2:7] for line in log.splitlines()]
            self.assertEqual([line.split() for line in command("correct", self.out).out.splitlines()], wanted)
        said = "pandoricchia frames: --edition: number 19: edition not known\n"
        self.assertEqual(command("frames", "--edition", 6), (2, b"", said))

    def received(self, stream: bytes, edition: int) -> List[bytes]:
        """The words of a stream as they were received, with the randomiser removed by the judge."""
        found, place, frame = [], 0, Frame()
        while JUDGE.judge_frame(stream, len(stream), place, edition, 0, ctypes.byref(frame)):
            place = frame.offset + 1020
            word = ctypes.create_string_buffer(stream[frame.offset:place], 1020)
            JUDGE.judge_randomise(ctypes.c_uint8(edition), word, ctypes.c_size_t(1020))
            found.append(word.raw)
        return found

    def test_nothing_taken(self) -> None:
        """No words, and words of which none is taken: another edition would have been the right one, or none."""
        columns = b"word offset answer flips first last unlike lowest\n"
        none = "no words in it: nothing was received: no marker 1A CF FC 1D has a whole word behind it\n"
        self.out.write_bytes(b"before")
        for stream in (b"", self.chance.randbytes(5000), b"\x1a\xcf\xfc\x1d" + bytes(1019)):
            ran = command("frames", "--output", self.out, given=stream)
            self.assertEqual(ran, (1, columns, f"pandoricchia frames: standard input: {none}"))
        self.assertEqual(self.out.read_bytes(), b"before")
        for name, edition, others in (("frames", 5, "0, 1, 2, 3"), ("frames_edition_5", 2, "4, 5")):
            stream, log = ((SAMPLES / (name + ending)).read_bytes() for ending in (".stream", ".log"))
            answers = [line.split()[2] for line in log.splitlines()[1:]]
            ran = command("frames", "--limit", 4, "--edition", edition, given=stream[2:])
            said = f"nothing was taken of {len(answers)} words by the sequence of --edition {edition}"
            said += f"; {answers.count(b'0')} would be by the other, that of editions {others}"
            self.assertEqual((ran.status, ran.said), (1, f"pandoricchia frames: standard input: {said}\n"))
        noise = b"".join(b"\x1a\xcf\xfc\x1d" + self.chance.randbytes(1020) for _ in range(2))
        said = "nothing was taken of 2 words by the sequence of --edition 0; 0 would be by the other, that of editions 4, 5\n"
        self.assertEqual(command("frames", given=noise).said, f"pandoricchia frames: standard input: {said}")

    def test_sequences(self) -> None:
        """Both sequences are the judge's, and the library's: a word that is nothing but the sequence is taken without a flip."""
        for edition in range(6):
            word = ctypes.create_string_buffer(1020)
            JUDGE.judge_randomise(ctypes.c_uint8(edition), word, ctypes.c_size_t(1020))
            self.assertEqual(randomiser.removed(edition, bytes(1020)), word.raw)
            found = list(pandoricchia.Taker(0, edition).take(b"\x1a\xcf\xfc\x1d" + word.raw))
            self.assertEqual([(one.number, one.corrected.flips, one.octets) for one in found], [(0, 0, bytes(1020))])
            self.assertEqual(randomiser.register(randomiser.other(edition)) == randomiser.register(edition), False)

    def test_blocks(self) -> None:
        for length in (0, 1, 504, 505, 64512):
            octets = self.chance.randbytes(length)
            blocks = command("blocks", "export", given=octets)
            self.assertEqual(blocks, (0, bytes(raising.export_blocks(octets)), ""))
            self.assertEqual(command("blocks", "import", given=blocks.out), (0, octets, ""))
        fault = bytearray(raising.export_blocks(bytes(1200)))
        fault[512 + 300] ^= 4
        said = "pandoricchia blocks import: refused: number 21 block 1: a block's frame check\n"
        self.assertEqual(command("blocks", "import", given=bytes(fault)), (1, b"", said))
        for length in (64513, 200000):
            ran = command("blocks", "export", given=bytes(length))
            self.assertEqual((ran.status, ran.out), (1, b""))
            self.assertIn("number 20", ran.said)

    def test_bch(self) -> None:
        sent = self.chance.randbytes(7 * 20)
        words = command("bch", "encode", given=sent).out
        self.assertEqual(words, b"".join(bytes(raising.bch_encode(sent[k:k + 7])) for k in range(0, 140, 7)))
        heard = b"".join(spoiled(self.chance, words[8 * k:8 * k + 8], k % 3) for k in range(20)) + b"cut"
        for more, detect_only in (((), False), (("--detect-only",), True)):
            ran = command("bch", "check", "--output", self.out, *more, given=heard)
            wanted, mended = ["word answer mended"], b""
            for k, place in enumerate(range(0, len(heard), 8)):
                word, out = heard[place:place + 8], bytearray(8)
                answer = ask("bch_check", detect_only, word, out)
                wanted.append(f"{k} {answer.number} {answer.mended}")
                mended += word if answer.number else bytes(out)
            self.assertEqual((ran.status, ran.out.decode().splitlines(), self.out.read_bytes()), (1, wanted, mended))
        said = "pandoricchia bch encode: word 0: number 2: input length differs: 6 octets where 7 make a word\n"
        self.assertEqual(command("bch", "encode", given=b"6 octs"), (1, b"", said))
        said = "pandoricchia bch check: standard input: no words in it: nothing was received\n"
        self.assertEqual(command("bch", "check"), (1, b"word answer mended\n", said))
