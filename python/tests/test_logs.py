"""Summaries of logs. None of it needs the library."""
from __future__ import annotations

import collections
import unittest
from typing import List, Tuple

from pandoricchia import numbers

from .command import LOGS, command

HEAD = b"word answer flips first last unlike\n"


class Summaries(unittest.TestCase):
    def test_samples(self) -> None:
        """Every sample's log, counted once more."""
        for log in LOGS:
            columns, *lines = [line.split() for line in log.read_text(encoding="ascii").splitlines()]
            words = [dict(zip(columns[1:], map(int, line[1:]))) for line in lines]
            answers = collections.Counter(word["answer"] for word in words)
            ran = command("summary", log)
            said = "" if words else f"pandoricchia summary: {log}: no words in it: nothing was received\n"
            self.assertEqual((ran.status, ran.said), (0 if set(answers) == {0} else 1, said), log.name)
            text = ran.out.decode()
            many = "1 word" if len(words) == 1 else f"{len(words)} words"
            self.assertTrue(text.startswith(f"{many}: {answers[0]} taken, {len(words) - answers[0]} refused\n"), log.name)
            shown = [line.split(maxsplit=2) for line in text.split("\n\n")[1].splitlines()[1:]]
            wanted = [[str(answer), str(count), numbers.text(answer)] for answer, count in sorted(answers.items())]
            self.assertEqual(shown, wanted, log.name)
            if answers[0]:
                for column, part in (("flips", 2), ("unlike", 3)):
                    counts = collections.Counter(word[column] for word in words if word["answer"] == 0)
                    shown = [line.split() for line in text.split("\n\n")[part].splitlines()[2:]]
                    self.assertEqual(shown, [[str(value), str(count)] for value, count in sorted(counts.items())], log.name)

    def test_text(self) -> None:
        log = HEAD + b"0 0 0 0 0 0\n1 0 3 11 0 1\n  flip 24 5 6\n  flip 19 3 3\n  flip 24 3 0\n2 0 3 9 0 3\n3 5 1 4 2 1\n"
        log += b"  flip 7 1 2\n  stuck 75 -1\n"
        wanted = """4 words: 3 taken, 1 refused

 answer         words  meaning
      0             3  done
      5             1  checks broken, no excess above 0

Flips of the words that were taken:
  flips         words
      0             1
      3             2

Bits in which they were changed:
 unlike         words
      0             1
      1             1
      3             1

1 of 3 words taken (33.3 %) have more bits changed than is promised for any code, which is 2; at most 3.

Words that need a look: 1 refused; 1 with more than 2 bits changed; 1 with a bit flipped back
  word 3: answer 5, checks broken, no excess above 0; 1 flip, 1 bit unlike, broken checks 4 at the start and 2 at the end
  word 1: answer 0, done; 3 flips, 1 bit unlike, broken checks 11 at the start and 0 at the end (a bit flipped back)
  word 2: answer 0, done; 3 flips, 3 bits unlike, broken checks 9 at the start and 0 at the end (more than 2 bits changed)
"""
        self.assertEqual(command("summary", given=log), (1, wanted.encode(), ""))
        worst = command("summary", "--worst", 1, given=log).out.decode().splitlines()
        self.assertEqual(worst, wanted.splitlines()[:-2])
        quiet = command("summary", given=HEAD + b"0 0 1 3 0 1\n")
        self.assertEqual((quiet.status, quiet.out.splitlines()[-1]), (0, b"No word needs a look."))
        ran = command("summary", given=HEAD)
        self.assertEqual((ran.status, ran.out.splitlines()[0]), (1, b"0 words: 0 taken, 0 refused"))
        self.assertEqual(ran.out.splitlines()[-1], b"Nothing was received.")

    def test_promised(self) -> None:
        """A word needs a look by what is promised for the code, and in proportion to the others."""

        def looks(changed: List[int], *more: object) -> Tuple[str, str]:
            lines = b"".join(b"%d 0 %d %d 0 %d\n" % (k, bits, 4 * bits, bits) for k, bits in enumerate(changed))
            said = command("summary", *more, given=HEAD + lines).out.decode().split("\n\n")
            return said[-2] if "promised" in said[-2] else "", said[-1].splitlines()[0]

        none = "No word needs a look."
        self.assertEqual(looks([0, 0, 1, 2]), ("", none))
        self.assertEqual(looks([0, 0, 1, 2], "--code", 5), ("", none))
        self.assertEqual(looks([0, 0, 1, 2], "--code", 1), ("", none))
        self.assertEqual(
            looks([0, 0, 1, 3], "--code", 1),
            ("1 of 4 words taken (25.0 %) have more bits changed than is promised for code 1, which is 2; at most 3.",
             "Words that need a look: 1 with more than 2 bits changed"),
        )
        for code in (1, 2, 3, 4, 5):  # all alike: it is the link
            said = f"9 of 9 words taken (100.0 %) have more bits changed than is promised for code {code}, which is 2; at most 12."
            self.assertEqual(looks([8, 9, 10, 11, 12, 8, 7, 8, 8], "--code", code), (said, none))
        self.assertEqual(looks([8] * 9 + [17], "--code", 5)[1], "Words that need a look: 1 with more than 16 bits changed")
        self.assertEqual(looks([8] * 9 + [16], "--code", 5)[1], none)

    def test_whole(self) -> None:
        """A line that is missing or moved refuses a log; --words demands so many."""
        lines = [b"%d 0 0 0 0 0\n" % k for k in range(5)]
        said = "pandoricchia summary: standard input: "
        for held, wrong in (
            (lines[1:], "line 2 is of word 1, where that of 0 comes"),
            (lines[:2] + lines[3:], "line 4 is of word 3, where that of 2 comes"),
            (lines[:2] + lines[1:], "line 4 is of word 1, where that of 2 comes"),
            (lines[:3] + [lines[4], lines[3]], "line 5 is of word 4, where that of 3 comes"),
        ):
            self.assertEqual(command("summary", given=HEAD + b"".join(held)), (2, b"", f"{said}{wrong}: lines are missing or moved\n"))
        log = HEAD + b"".join(lines)
        for verb in ("summary", "report"):
            self.assertEqual(command(verb, "--words", 5, given=log).status, 0)
            for many in (0, 4, 6):
                said = f"pandoricchia {verb}: standard input: 5 words, where --words demands {many}\n"
                self.assertEqual(command(verb, "--words", many, given=log), (2, b"", said))
        said = "pandoricchia summary: standard input: 4 words, where --words demands 5\n"
        self.assertEqual(command("summary", "--words", 5, given=HEAD + b"".join(lines[:4])), (2, b"", said))

    def test_no_logs(self) -> None:
        for log, said in (
            (b"", "no log of words"),
            (b"\x01\0\x05" + bytes(16), "no log of words"),
            (b"word answer broken lowest\n0 0 0 64\n", "its first line has not the columns"),
            (b"\xff\xfe", "no log of words; correct and why print one of a recording"),
            (HEAD + b"0 0 0\n", "line 2 is no line of a log"),
            (HEAD + b"0 0 0 0 0 0\n1 0 0 0 0 x\n", "line 3 is no line of a log"),
            (HEAD + b"0 0 0 0 0 0\n\n", "line 3 is no line of a log"),
            (HEAD + b"0 0 -1 0 0 0\n", "line 2 is no line of a log"),
            (HEAD + b"0 0 0 0 0 0\n  flip 1 x 2\n", "line 3 is no line of a log"),
            (HEAD + b"0 0 0 0 0 0\n \n", "line 3 is no line of a log"),
            (HEAD + b"0 0 0 0 0 0\n1 0 0 0 0", "line 3 is cut short"),
            (HEAD + bytes(1 << 20), "no log of words"),
            (HEAD + b"0 0 0 0 0 0\n" + b"  flip 0 1 1\n" * 600, "more lines than can stand under a word"),
        ):
            ran = command("summary", given=log)
            self.assertEqual((ran.status, ran.out, ran.said.count("\n")), (2, b"", 1), log)
            self.assertIn(said, ran.said)
