"""Constant memory: an input that is three times as long takes no more of it."""
from __future__ import annotations

import pathlib
import shutil
import tempfile
import tracemalloc
import unittest

from .command import SAMPLES, command

#: Octets of a part that the command reads, and how much more the longer input may take.
PART, MORE = 65536, 131072


class Memory(unittest.TestCase):
    def setUp(self) -> None:
        self.place = pathlib.Path(tempfile.mkdtemp())
        self.addCleanup(shutil.rmtree, self.place)

    def most(self, octets: bytes, head: bytes, parts: float, *words: object) -> int:
        """The most memory that the command has at a time, its standard output and the output file's octets not among it."""
        given = self.place / "given"
        with given.open("wb") as file:
            file.write(head)
            for _ in range(int(parts * PART) // len(octets)):
                file.write(octets)
        return self.peak(*words, given)

    def peak(self, *words: object) -> int:
        """The most memory that the command has at a time."""
        tracemalloc.start()
        try:
            status = command(*words).status
            peak = tracemalloc.get_traced_memory()[1]
        finally:
            tracemalloc.stop()
        self.assertIn(status, (0, 1))
        return peak

    def same(self, octets: bytes, head: bytes, parts: float, *words: object) -> None:
        """The command takes as much for an input of so many parts as for one that is three times as long."""
        self.most(octets, head, min(1, parts), *words)  # what is kept after the first run is not counted
        short, long = (self.most(octets, head, times * parts, *words, "--output", self.place / "out") for times in (1, 3))
        more = 2 * MORE if "--jobs" in words else MORE  # how many parts are on their way at a time varies
        self.assertLess(long, short + more, words)

    def test_words(self) -> None:
        recording = (SAMPLES / "code5.bin").read_bytes()
        words = recording[3:3 + 1020 * 5]
        for verb in ("correct", "spoil --wrong 1", "report"):
            self.same(words, recording[:3], 3, *verb.split())
        self.same(words, recording[:3], 8, "correct", "--jobs", 2)
        self.same(bytes(892), b"", 3, "encode", "--code", 5)

    def test_samples(self) -> None:
        self.same(bytes(1022), b"\x04\0\0", 1 / 8, "samples", "make")  # four parts, as samples are 32 times as long
        self.same(b"\0\0\x80?" * 8175 + b"\0\0\x80\xbf", b"", 3, "samples", "correct", "--code", 4)

    def test_stream(self) -> None:
        self.same((SAMPLES / "frames.stream").read_bytes()[2:], b"", 3, "frames", "--limit", 4)

    def test_logs(self) -> None:
        head, *lines = (SAMPLES / "code5.log").read_bytes().splitlines(True)
        for times in (1, 3):  # indexes go on, so the lines are not the same
            log = self.place / f"log{times}"
            with log.open("wb") as file:
                file.write(head)
                file.writelines(b"%d %s" % (k, lines[k % len(lines)].split(b" ", 1)[1]) for k in range(4000 * times))
        short, long = (self.peak("summary", self.place / f"log{times}", "--output", self.place / "out") for times in (1, 3))
        self.assertLess(long, short + MORE)
