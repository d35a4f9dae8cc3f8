"""Reports of logs, read as a page is read, and shown in a browser where there is one. None of it needs the library."""
from __future__ import annotations

import hashlib
import pathlib
import re
import shutil
import tempfile
import unittest

from pandoricchia.command.page import DARK, LIGHT, STYLE

from .command import LOGS, SAMPLES, TOP, command
from .pages import WIDTHS, Page, browser, contrast, dots, labels, looked_at, overlap, shown

WHY = TOP / "crates/why/stdout"


class Reports(unittest.TestCase):
    def setUp(self) -> None:
        self.place = pathlib.Path(tempfile.mkdtemp())
        self.addCleanup(shutil.rmtree, self.place, ignore_errors=True)

    def test_samples(self) -> None:
        for log in LOGS:
            ran, short = command("report", log), command("summary", log)
            self.assertEqual((ran.status, ran.said), (short.status, short.said.replace("summary", "report")), log.name)
            page = Page(self, ran.out)
            self.assertIn(hashlib.sha256(log.read_bytes()).hexdigest(), page.text)
            self.assertIn("What was proved of these numbers", page.text)
            words = len(log.read_text(encoding="ascii").splitlines()) - 1
            self.assertIn(f"{words}words", page.text)
            self.assertEqual("Words by answer" in page.titles(), words > 0)

    def test_counts(self) -> None:
        page = Page(self, command("report", SAMPLES / "code5.log").out)
        self.assertEqual(
            page.titles(),
            ["Words by answer", "Words that were taken, by flips and by unlike bits", "Broken checks at the start against flips"],
        )
        said = "answer 0: 10 words;answer 6: 3 words;flips 1: 3 words;unlike 4: 1 word;1 refused: 98 broken checks, 0 flips"
        for said in said.split(";"):
            self.assertIn(said, page.bars())
        self.assertIn("4bits changed at most in a word that was taken", page.text)
        self.assertIn("This log has no flips", page.text)

    def test_told(self) -> None:
        """A word's index is its name, as the log has it; and a log has its limit already."""
        lines = b"".join(b"%d 0 0 0 0 0\n" % k for k in range(1200))
        page = command("report", given=b"word answer flips first last unlike\n" + lines + b"1200 5 1 4 2 1\n").out.decode()
        self.assertIn("<td>1200</td>", page)
        said = "pandoricchia report: standard input: --limit is for words, and this is a log: they are corrected already\n"
        self.assertEqual(command("report", "--limit", 5, given=(SAMPLES / "code5.log").read_bytes()), (2, b"", said))

    def test_runs(self) -> None:
        """Of a log of why the worst words have their runs."""
        page = Page(self, command("report", WHY, "--worst", 20).out)
        self.assertIn("Word 14: checks still broken after each flip", page.titles())
        self.assertIn("flip 1: bit 75, excess 1, 3 checks left", page.bars())
        self.assertIn("The nearest codeword is 2 flips from the word as it was received: bits 80 and 109.", page.text)
        self.assertIn("bit 75 comes nearest to a flip, with excess -1.", page.text)

    def test_names(self) -> None:
        """A file's name is shown as it is."""
        log = self.place / "<b>&.log"
        shutil.copy(SAMPLES / "paper.log", log)
        self.assertIn(str(log), Page(self, command("report", log).out).text)

    def test_nothing_received(self) -> None:
        """A log without words: the page does not say that all was taken, and the status is not that of success."""
        ran = command("report", SAMPLES / "no_words.log")
        said = f"pandoricchia report: {SAMPLES}/no_words.log: no words in it: nothing was received\n"
        self.assertEqual((ran.status, ran.said), (1, said))
        page = Page(self, ran.out)
        self.assertIn("There are no words in it: nothing was received.", page.text)
        self.assertNotIn("every word was taken", page.text)

    def test_stream(self) -> None:
        """A log of frames is of code 5, and its words have their offsets."""
        ran = command("report", SAMPLES / "frames.log", "--worst", 3)
        page = Page(self, ran.out)
        self.assertIn("Words of code 5, (8160,7136), by their log", page.text)
        self.assertIn("A log does not say which limit it is of.", page.text)
        self.assertIn("at most half of the broken checks", page.text)
        worst = [line.split() for line in (SAMPLES / "frames.log").read_text(encoding="ascii").splitlines()[1:] if line.split()[2] == "6"]
        self.assertIn(f"<td>{worst[0][0]}</td><td>{worst[0][1]}</td><td>6</td>", ran.out.decode())
        self.assertIn("pandoricchia frames --received", page.text)
        short = command("summary", SAMPLES / "frames.log").out.decode()
        self.assertIn(f"word {worst[0][0]} at offset {worst[0][1]}: answer 6", short)

    def test_code(self) -> None:
        """With --code a log is of words of that code, and what is promised is that code's; it is not read as words."""
        log = SAMPLES / "code1.log"
        page = Page(self, command("report", "--code", 1, log).out)
        self.assertIn("Words of code 1, (128,64), by their log", page.text)
        self.assertIn("promised for code 1, which is 2", page.text)
        self.assertIn("promised for any code, which is 2", Page(self, command("report", log).out).text)

    def test_red(self) -> None:
        """A box is red where something is refused, and nowhere else."""
        head = "word answer flips first last unlike\n"
        for line, bad in (("0 0 9 36 0 9\n", 0), ("0 5 1 4 2 1\n", 1)):
            page = command("report", given=(head + line).encode()).out.decode()
            self.assertEqual(page.count("<li class=bad>"), bad)

    def test_many(self) -> None:
        """Many words that a chart can't tell apart: the page stays small, and no dot lies above the bound."""
        lines = [f"{5 * (k % 3 == 0)} {k % (first // 2 + 1)} {first} {k % 2} 0" for k, first in enumerate(range(4, 1000))]
        lines += [f"0 {flips} {first} 0 0" for first in range(100, 900, 9) for flips in range(0, first // 2, 9)]
        log = "".join(f"{k} {line}\n" for k, line in enumerate(lines))
        ran = command("report", given=("word answer flips first last unlike\n" + log).encode())
        self.assertLess(len(ran.out), 1_500_000)
        dots = [said for said in Page(self, ran.out).bars() if "broken check" in said]
        self.assertGreater(len(dots), 500)
        for said in dots:
            first, flips = (int(number.replace(",", "")) for number in re.findall(r"([\d,]+) (?:broken|flip)", said))
            self.assertLessEqual(flips, first, said)

    def test_room(self) -> None:
        """No label of a chart lies over another, and no dot over a number of an axis, however many words it stands for."""
        head, line = "word answer flips first last unlike\n", "{0} 0 {1} {2} 0 {1}\n"
        logs = [log.read_text(encoding="ascii") for log in LOGS] + [WHY.read_text(encoding="ascii")]
        for flips, many in ((1, 100), (14, 200), (14, 1500), (40, 3), (60, 3)):
            logs.append(head + "".join(line.format(k, k % flips, 4 * (k % flips)) for k in range(flips * many)))
        for log in logs:
            page = Page(self, command("report", "--worst", 30, given=log.encode()).out)
            for title, chart in zip(page.titles(), page.charts):
                for width, narrow in WIDTHS:
                    said = labels(chart, width, narrow)
                    for k, (text, box) in enumerate(said):
                        for other, place in said[:k]:
                            self.assertFalse(overlap(box, place), (title, width, text, other))
                    if "against flips" in title:
                        drawn = dots(chart, width)
                        self.assertFalse(any(overlap(box, dot) for text, box in said if text.isdigit() for dot in drawn), (title, width))

    def test_browser(self) -> None:
        if not browser():
            self.skipTest("showing a report needs chromium")
        out = self.place / "page.html"
        self.assertEqual(command("report", WHY, "--worst", 20, "--output", out).status, 1)
        document, console = shown(out, self.place / "profile")
        self.assertEqual(console, "")
        for said in ("<title>Words of a log</title>", "Words by answer", "Word 14: answer 5", "What was proved of these numbers", "</svg>"):
            self.assertTrue(said in document, said)
        self.assertEqual(document.count("<svg"), out.read_text(encoding="utf-8").count("<svg"))

    def test_looked_at(self) -> None:
        """On a phone, on a desk and on a dark page nothing stands out of the page, no letters lie over others, and all can be read."""
        if not browser():
            self.skipTest("looking at a report needs chromium")
        out = self.place / "page.html"
        command("report", WHY, "--worst", 4, "--output", out)
        for width, dark in ((360, False), (400, False), (1280, False), (400, True)):
            wrong, (ground, letters) = looked_at(out, self.place / "profile", width, dark)
            self.assertEqual(wrong, [], width)
            self.assertGreater(contrast(ground, letters), 7)
            self.assertEqual(sum(ground) < sum(letters), dark)

    def test_colours(self) -> None:
        """Letters and lines stand out from the ground, light and dark."""
        for colours in (LIGHT, DARK):
            seen = {name: tuple(int(colour[k:k + 2], 16) for k in (1, 3, 5)) for name, colour in colours.items()}
            for name, least in (("text", 7), ("grey", 4.5), ("ink", 4.5), ("red", 4.5), ("light", 1.8), ("amber", 2), ("pale", 1.2)):
                self.assertGreater(contrast(seen["paper"], seen[name]), least, name)
        self.assertEqual(LIGHT.keys(), DARK.keys())
        self.assertIn("@media screen and (prefers-color-scheme: dark)", STYLE)  # so paper is never dark
