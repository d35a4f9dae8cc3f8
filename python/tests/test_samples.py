"""The command's verbs on a receiver's samples, against the judge, the auditor's run and `correct`."""
from __future__ import annotations

import array
import math
import os
import pathlib
import random
import shutil
import struct
import subprocess
import sys
import tempfile
import unittest
from typing import List, Tuple

import pandoricchia

from .command import SAMPLES, TOP, command
from .judge import ask, information, received
from .pages import Page
from .test_words import MANY, lines, no_words, not_offered, taken

CODES = (1, 2, 3, 4)
COLUMNS = b"word answer flips first last unlike\n"
# Loads a library, and says whether subnormals are taken as 0 from then on, and whether samples of -1e-40 are ones before and after.
LOADING = """
import array, ctypes, sys
import pandoricchia

samples, tiny, octets = array.array("f", [-1e-40] * 128), 5e-324, bytearray(16)
wanted = pandoricchia.correct(1, b"\\xff" * 16, 9, octets), bytes(octets)

def ones():
    out = bytearray(16)
    return (pandoricchia.correct_samples(1, samples, 9, out), bytes(out)) == wanted

before = ones()
ctypes.CDLL(sys.argv[1])
print(tiny * 1.5 == 0, before, ones())
"""


def bits(octets: bytes) -> List[int]:
    """The bits of octets, the most significant first."""
    return [octet >> place & 1 for octet in octets for place in range(7, -1, -1)]


def floats(octets: bytes) -> Tuple[float, ...]:
    """The samples of a file."""
    return struct.unpack(f"<{len(octets) // 4}f", octets)


def file(samples: List[float]) -> bytes:
    """The file of samples."""
    return struct.pack(f"<{len(samples)}f", *samples)


class Samples(unittest.TestCase):
    def setUp(self) -> None:
        self.chance = random.Random(20261116)
        self.place = pathlib.Path(tempfile.mkdtemp())
        self.addCleanup(shutil.rmtree, self.place)
        self.out = self.place / "out"

    def sent(self, code: int) -> bytes:
        """A recording of codewords."""
        words = bytes([code, 0, 9])
        for _ in range(MANY[code]):
            word = bytearray(pandoricchia.word_octets(code))
            ask("encode", code, information(self.chance, code), word)
            words += word
        return words

    def test_made(self) -> None:
        """A sample for each bit, of a short last word too; noise is drawn from the seed, however the work is spread."""
        for code in CODES:
            sent = self.sent(code) + b"cut"
            ran = command("samples", "make", "--noise", 0, given=sent)
            self.assertEqual((ran.status, ran.said), (0, ""))
            self.assertEqual(floats(ran.out), tuple(-1.0 if bit else 1.0 for bit in bits(sent[3:])))
            noisy = command("samples", "make", "--noise", 0.3, "--seed", 7, given=sent)
            self.assertEqual((noisy.status, noisy.said, len(noisy.out)), (0, "", len(ran.out)))
            self.assertEqual(command("samples", "make", "--noise", 0.3, "--seed", 7, "--jobs", 2, given=sent), noisy)
            self.assertEqual(command("samples", "make", "--noise", 0.3, "--seed", 7, "--code", code, given=sent[3:]), noisy)
            self.assertNotEqual(command("samples", "make", "--noise", 0.3, "--seed", 8, given=sent), noisy)
            self.assertEqual(command("samples", "make", "--noise", 0.3, "--seed", 7, "--output", self.out, given=sent), (0, b"", ""))
            self.assertEqual(self.out.read_bytes(), noisy.out)
        self.assertEqual(command("samples", "make", given=b"\x01\0\0"), (0, b"", ""))

    def test_noise(self) -> None:
        """The noise is normal: its mean, its deviation, and how much of it lies within one and two deviations."""
        sent = b"\x01\0\0" + bytes(16 * 1000)
        for words, deviation in (((), 0.5), (("--noise", 2), 2.0)):
            drawn = [sample - 1 for sample in floats(command("samples", "make", *words, given=sent).out)]
            many = len(drawn)
            self.assertLess(abs(sum(drawn) / many), 0.02 * deviation)
            self.assertAlmostEqual(math.sqrt(sum(one * one for one in drawn) / many) / deviation, 1, 1)
            for times, share in ((1, 0.683), (2, 0.954)):
                self.assertAlmostEqual(sum(abs(one) < times * deviation for one in drawn) / many, share, 2)
        loud = floats(command("samples", "make", "--noise", "1e30", given=sent).out)
        self.assertTrue(all(map(math.isfinite, loud)))

    def test_draws(self) -> None:
        """What a seed draws is the same everywhere."""
        drawn = floats(command("samples", "make", "--seed", 7, "--code", 1, given=b"\x80" + bytes(15)).out)
        self.assertEqual([round(sample, 4) for sample in drawn[:4]], [-1.1071, 1.2154, 0.747, 1.5249])

    def test_corrected(self) -> None:
        """Lines and words are the judge's; a refused word is written as its bits were read."""
        refused = 0
        for code in CODES:
            heard = command("samples", "make", "--noise", 0.55 if code < 4 else 0.33, given=self.sent(code)).out
            length = pandoricchia.word_octets(code)
            wanted, mended = [], bytes([code, 0, 6])
            for k in range(MANY[code]):
                samples = floats(heard[32 * length * k:32 * length * (k + 1)])
                out = bytearray(length)
                answer = ask("correct_samples", code, array.array("f", samples), 6, out)
                wanted.append([k, answer.number, answer.flips, answer.first, answer.last, answer.unlike])
                read = int("".join("1" if sample < 0 else "0" for sample in samples), 2).to_bytes(length, "big")
                mended += read if answer.number else bytes(out)
                refused += answer.number != 0
            for jobs in (1, 2):
                ran = command("samples", "correct", "--code", code, "--limit", 6, "--jobs", jobs, "--output", self.out, given=heard)
                self.assertEqual((ran.status, ran.said, ran.out.splitlines(True)[0]), (taken(ran.out), "", COLUMNS))
                self.assertEqual((lines(ran.out), self.out.read_bytes()), (wanted, mended))
            self.assertEqual(command("samples", "correct", "--code", code, "--limit", 6, given=heard), ran)
        self.assertGreater(refused, 10)

    def test_auditor(self) -> None:
        """The auditor's samples lead to the word that was sent, and no limit is one that no run reaches."""
        numbers = [float(number) for number in (SAMPLES / "auditor_sizes.txt").read_text(encoding="ascii").split()]
        stored = (SAMPLES / "auditor_sizes.log").read_text(encoding="ascii").splitlines()
        line = next(line for line in stored if line.startswith("correct_samples")).split(maxsplit=1)[1]
        ran = command("samples", "correct", "--code", 1, "--output", self.out, given=file(numbers))
        self.assertEqual(ran, (0, COLUMNS + f"0 {line}\n".encode(), ""))
        self.assertEqual(self.out.read_bytes(), b"\x01\xff\xff" + bytes(16))

    def test_equal_sizes(self) -> None:
        """Without noise all sizes are equal, and it is `correct`: log, words and status."""
        for code in CODES:
            words = b"".join(received(self.chance, code) for _ in range(MANY[code]))
            for recording in (bytes([code, 0, 4]) + words + b"cut", bytes([code, 255, 255]) + words):
                given, other = self.place / "given", self.place / "other"
                given.write_bytes(recording)
                heard = command("samples", "make", "--noise", 0, given).out
                limit = int.from_bytes(recording[1:3], "big")
                ran = command("samples", "correct", "--code", code, "--limit", limit, "--output", self.out, given=heard)
                self.assertEqual(ran, command("correct", given, "--output", other))
                self.assertEqual(self.out.read_bytes(), other.read_bytes())

    def test_not_finite(self) -> None:
        """Answer 16; in the word that is written what is not a number reads as 0."""
        nan, inf = math.nan, math.inf
        words = [[-1.0] * 128, [1.0] * 126 + [-0.0, nan], [-inf] + [1.0] * 127, [inf] * 128, [-nan] * 8 + [-1.0] * 120, [-0.0] * 128]
        ran = command("samples", "correct", "--code", 1, "--output", self.out, given=file(sum(words, [])))
        self.assertEqual([line[1] for line in lines(ran.out)], [lines(ran.out)[0][1], 16, 16, 16, 16, 0])
        self.assertEqual([line[2:] for line in lines(ran.out)[1:]], [[0, 0, 0, 0]] * 5)
        written = self.out.read_bytes()[3 + 16:]
        self.assertEqual(written, bytes(16) + b"\x80" + bytes(15) + bytes(16) + b"\0" + b"\xff" * 15 + bytes(16))
        self.assertEqual((ran.status, ran.said), (1, ""))

    def test_cut_short(self) -> None:
        """A last word that is cut short, or whose last sample is: answer 2, and whole octets of the bits that were read."""
        word = file([-1.0, 1.0] * 64)
        self.assertEqual(command("samples", "correct", "--code", 1, "--output", self.out), (1, COLUMNS, no_words("samples correct")))
        self.assertFalse(self.out.exists())
        for octets, read in ((1, 0), (3, 0), (4, 0), (31, 0), (32, 1), (35, 1), (63, 1), (64, 2), (508, 15), (511, 15)):
            ran = command("samples", "correct", "--code", 1, "--output", self.out, given=word[:octets])
            self.assertEqual(ran, (1, COLUMNS + b"0 2 0 0 0 0\n", ""), octets)
            self.assertEqual(self.out.read_bytes(), b"\x01\xff\xff" + b"\xaa" * read)
        quiet = file([1.0] * 256)
        ran = command("samples", "correct", "--code", 1, "--output", self.out, given=quiet + word[:33])
        self.assertEqual(ran, (1, COLUMNS + b"0 0 0 0 0 0\n1 0 0 0 0 0\n2 2 0 0 0 0\n", ""))
        self.assertEqual(self.out.read_bytes(), b"\x01\xff\xff" + bytes(32) + b"\xaa")

    def test_not_offered(self) -> None:
        """A recording of code 5, or of no code: one line, and an output that is there stays."""
        self.out.write_bytes(b"before")
        for recording in (b"\x05\0\0" + bytes(1020), b"\0\0\0", b"\x06\0\0words", b"\x01", b""):
            said = not_offered("samples make", recording, codes="codes 1, 2, 3 and 4")
            self.assertEqual(command("samples", "make", "--output", self.out, given=recording), (1, b"", said))
        self.assertEqual(self.out.read_bytes(), b"before")
        ran = command("samples", "make", "--noise", -1)
        said = "argument --noise: '-1' is no noise from 0 to 1e+30; see pandoricchia samples make --help"
        self.assertEqual(ran, (2, b"", f"pandoricchia samples make: {said}\n"))

    def test_told(self) -> None:
        """Its log has a summary and a report, which says what is proved of such a log."""
        heard = command("samples", "make", "--noise", 0.6, given=self.sent(1)).out + file([math.nan] * 128)
        log = command("samples", "correct", "--code", 1, given=heard).out
        said = "pandoricchia samples correct: standard input: 41 words\n"
        self.assertEqual(command("samples", "correct", "--code", 1, "--count", given=heard).said, said)
        answers = [line[1] for line in lines(log)]
        ran = command("summary", given=log)
        self.assertEqual((ran.status, ran.said), (1, ""))
        self.assertTrue(ran.out.decode().startswith(f"41 words: {answers.count(0)} taken, {41 - answers.count(0)} refused\n"))
        self.assertIn("     16             1  a sample is infinite or not a number\n", ran.out.decode())
        ran = command("report", given=log)
        page = Page(self, ran.out)
        self.assertEqual((ran.status, ran.said), (1, ""))
        self.assertIn("answer 16: 1 word", page.bars())
        self.assertIn("A log of pandoricchia samples correct is of another run", page.text)

    def test_modes(self) -> None:
        """A library that is linked with -ffast-math has subnormals taken as 0 in the whole program: the answers stay."""
        compiler = shutil.which("cc") or shutil.which("gcc")
        if compiler is None:
            self.skipTest("linking with -ffast-math needs a C compiler")
        source, library = self.place / "fast.c", self.place / "fast.so"
        source.write_text("int fast;\n")
        subprocess.run([compiler, "-shared", "-fPIC", "-ffast-math", "-o", str(library), str(source)], check=True)
        words = [sys.executable, "-c", LOADING, str(library)]
        ran = subprocess.run(words, stdout=subprocess.PIPE, check=True, env={**os.environ, "PYTHONPATH": str(TOP / "python")})
        zeros, before, after = ran.stdout.decode().split()
        self.assertEqual((before, after), ("True", "True"))
        if zeros != "True":
            self.skipTest("a library linked with -ffast-math sets no mode here")
