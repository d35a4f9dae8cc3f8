"""Reports of recordings, and campaigns."""
from __future__ import annotations

import pathlib
import shutil
import tempfile
import unittest

import pandoricchia

from .command import SAMPLES, command
from .pages import WIDTHS, Page, browser, labels, looked_at, overlap, shown
from .test_words import no_words, not_offered


class Pictures(unittest.TestCase):
    def setUp(self) -> None:
        self.place = pathlib.Path(tempfile.mkdtemp())
        self.addCleanup(shutil.rmtree, self.place, ignore_errors=True)

    def test_recordings(self) -> None:
        """The page of a recording counts what the page of its log counts, and has every run."""
        for recording in sorted(SAMPLES.glob("code[1-5]*.bin")):
            ran = command("report", recording, "--worst", 30)
            log = command("report", recording.with_suffix(".log"), "--worst", 30)
            self.assertEqual((ran.status, ran.said), (log.status, ""))
            page, other = Page(self, ran.out), Page(self, log.out)
            drawn = [said for said in page.bars() if not said.startswith("flip ")]
            self.assertEqual(drawn, other.bars(), recording.name)
            code, limit = recording.read_bytes()[0], int.from_bytes(recording.read_bytes()[1:3], "big")
            self.assertIn(f"Words of code {code}", page.text)
            self.assertIn(f"under a limit of {limit:,} flips", page.text)
        self.assertEqual(command("report", "--jobs", 2, recording, "--worst", 30), ran)

    def test_runs(self) -> None:
        page = Page(self, command("report", SAMPLES / "auditor.bin").out)
        self.assertIn("Word 0: checks still broken after each flip", page.titles())
        table = pandoricchia.flip_table(511)
        word = (SAMPLES / "auditor.bin").read_bytes()[3:19]
        listed = pandoricchia.list(1, word, 65535, table)
        for k, (bit, excess, left) in enumerate(pandoricchia.flip_records(table, listed.flips), 1):
            said = f"flip {k}: bit {bit}, excess {excess}, {left} check{'' if left == 1 else 's'} left"
            self.assertIn(said, page.bars())
        self.assertIn(word.hex().upper(), page.text)

    def test_bare(self) -> None:
        words = (SAMPLES / "code3.bin").read_bytes()[3:]
        self.assertIn("Words of code 3", Page(self, command("report", "--code", 3, "--limit", 4, given=words).out).text)
        for recording in (b"\x09\0\0words", b"\x01\0", b""):
            said = not_offered("report", recording).replace("\n", "; and it is no log\n")
            self.assertEqual(command("report", given=recording), (1, b"", said))
        self.assertEqual(command("report", given=b"\x03\0\0").status, 1)
        self.assertEqual(command("report", given=b"\x03\0\0").said, no_words("report"))

    def test_like_a_log(self) -> None:
        """Words alone whose information begins as a log does are words."""
        words = command("encode", "--code", 1, "--bare", given=b"word and").out
        self.assertIn("Words of code 1, (128,64)", Page(self, command("report", "--code", 1, given=words).out).text)

    def test_in_proportion(self) -> None:
        """Many wrong bits in every word of code 5 are said of all; single words need a look if they stand out."""
        sent = command("encode", "--code", 5, given=bytes(892 * 30)).out
        heard = command("spoil", "--wrong", 7, given=sent).out[:-1020] + command("spoil", "--wrong", 16, given=sent).out[-1020:]
        ran = command("report", given=heard)
        page = Page(self, ran.out)
        self.assertEqual(ran.status, 0)
        said = "30 of 30 words taken (100.0 %) have more bits changed than is promised for code 5, which is 2; at most 16."
        self.assertIn(said, page.text)
        self.assertIn("1 with more than 14 bits changed", page.text)
        self.assertNotIn("<li class=bad>", ran.out.decode())

    def test_campaign(self) -> None:
        out = self.place / "page.html"
        ran = command("campaign", "--words", 6, "--wrong", 3, "--seed", 9, "--output", out)
        self.assertEqual((ran.status, ran.said), (0, ""))
        self.assertEqual(command("campaign", "--words", 6, "--wrong", 3, "--seed", 9, "--jobs", 2), ran)
        tables = ran.out.decode().split("\n\n")
        self.assertEqual(len(tables), 5)
        for code, table in enumerate(tables, 1):
            rows = [[int(field) for field in line.split()] for line in table.splitlines()[2:]]
            self.assertEqual([row[0] for row in rows], [0, 1, 2, 3])
            self.assertEqual([sum(row[1:]) for row in rows], [6, 6, 6, 6])
            promised = 2 if code > 1 else 1
            self.assertEqual([row[1] for row in rows[:promised + 1]], [6] * (promised + 1))
        page = Page(self, out.read_bytes())
        self.assertEqual(len(page.charts), 5)
        self.assertIn("0 wrong bits, right: 6 of 6", page.bars())
        self.assertIn("No coding gain", page.text)

    def test_room(self) -> None:
        """No label of a campaign's chart lies over another, however many wrong bits it goes through."""
        out = self.place / "page.html"
        for code, wrong in ((1, 0), (1, 30), (1, 31), (1, 128), (2, 256)):
            command("campaign", "--code", code, "--words", 1, "--wrong", wrong, "--output", out)
            for chart in Page(self, out.read_bytes()).charts:
                for width, narrow in WIDTHS:
                    said = labels(chart, width, narrow)
                    for k, (text, box) in enumerate(said):
                        self.assertFalse([other for other, place in said[:k] if overlap(box, place)], (width, text))

    def test_browser(self) -> None:
        if not browser():
            self.skipTest("showing a page needs chromium")
        pages = {"report": ("report", SAMPLES / "code1.bin"), "campaign": ("campaign", "--code", 1, "--words", 5, "--wrong", 9)}
        for name, words in pages.items():
            out = self.place / f"{name}.html"
            command(*words, "--output", out)
            document, console = shown(out, self.place / "profile")
            self.assertEqual(console, "")
            self.assertEqual(document.count("<svg"), out.read_text(encoding="utf-8").count("<svg"))
            for width in (400, 1280):
                self.assertEqual(looked_at(out, self.place / "profile", width)[0], [], name)
