"""Help, man page and completion: each verb has an example that it takes, and the stored files are the parser's."""
from __future__ import annotations

import pathlib
import re
import shlex
import shutil
import subprocess
import tempfile
import unittest
from typing import List

from pandoricchia import numbers
from pandoricchia.command.completion import bash, zsh
from pandoricchia.command.manual import GLOSSARY, leaves, manual
from pandoricchia.command.parser import parser

from .command import TOP, command

VERBS = (
    "encode", "spoil", "check", "quick", "correct", "open", "why", "nearest", "samples make", "samples correct", "unit write",
    "unit read", "frames", "blocks import", "blocks export", "bch encode", "bch check", "summary", "report", "campaign", "completion",
)

COMPLETION = TOP / "completion"


class Manual(unittest.TestCase):
    def test_verbs(self) -> None:
        self.assertEqual([verb.prog for verb in leaves(parser())], ["pandoricchia " + verb for verb in VERBS])
        for verb in VERBS:
            ran = command(*verb.split(), "--help")
            self.assertEqual((ran.status, ran.said), (0, ""), verb)
            self.assertIn(f"example:\n  pandoricchia {verb} ", ran.out.decode())

    def test_examples(self) -> None:
        for verb in leaves(parser()):
            for example in (verb.epilog or "").splitlines()[1:]:
                words = shlex.split(re.split("[|>;]", example)[0])
                self.assertEqual(parser().parse_args(words[1:]).label, verb.prog)

    def test_whole(self) -> None:
        ran = command("--help")
        self.assertEqual(ran.status, 0)
        for verb in VERBS:
            self.assertRegex(ran.out.decode(), rf"\n    {verb.split()[0]}\s")

    def test_page(self) -> None:
        self.assertEqual((TOP / "man/pandoricchia.1").read_text(encoding="ascii"), manual(), "`make man` makes it again")

    def test_lint(self) -> None:
        if not shutil.which("mandoc"):
            self.skipTest("looking over the man page needs mandoc")
        lint = subprocess.run(["mandoc", "-Tlint", str(TOP / "man/pandoricchia.1")], capture_output=True, text=True, check=False)
        self.assertEqual(lint.stdout, "")

    def test_answers(self) -> None:
        """The man page has every answer with its meaning."""
        page = manual()
        for number in numbers.Number:
            self.assertIn(f"\n.B {int(number)}\n{number.text[0].upper()}{number.text[1:]}.\n".replace("-", "\\-"), page)

    def test_glossary(self) -> None:
        """README and the man page have the same ten lines."""
        self.assertEqual(len(GLOSSARY), 10)
        readme = (TOP / "README.md").read_text(encoding="utf-8")
        section = re.search(r"^## Words of the field\n(.*?)^## ", readme, re.M | re.S)
        assert section
        rows = re.findall(r"^\| \*\*(\w+)\*\* \| (.*) \|$", section.group(1), re.M)
        self.assertEqual(tuple(rows), GLOSSARY)
        page = " ".join(manual().split())
        for word, meaning in GLOSSARY:
            self.assertIn(f".B {word} {meaning[0].upper()}{meaning[1:]}.".replace("-", "\\-"), page)


class Completion(unittest.TestCase):
    def setUp(self) -> None:
        self.place = pathlib.Path(tempfile.mkdtemp())
        self.addCleanup(shutil.rmtree, self.place)

    def test_stored(self) -> None:
        for name, made, shell in (("pandoricchia.bash", bash(), "bash"), ("_pandoricchia", zsh(), "zsh")):
            self.assertEqual((COMPLETION / name).read_text(encoding="ascii"), made, "`make man` makes it again")
            self.assertEqual(command("completion", shell), (0, made.encode(), ""))
        self.assertEqual(command("completion", "fish").status, 2)

    def test_loads(self) -> None:
        """Each shell takes its file."""
        for shell, name in (("bash", "pandoricchia.bash"), ("zsh", "_pandoricchia")):
            if not shutil.which(shell):
                self.skipTest(f"loading its completion needs {shell}")
            ran = subprocess.run([shell, "-n", COMPLETION / name], capture_output=True, text=True, check=False)
            self.assertEqual((ran.returncode, ran.stdout + ran.stderr), (0, ""), shell)

    def completed(self, *words: str) -> List[str]:
        """What bash completes behind these words, the last of which is begun."""
        if not shutil.which("bash"):
            self.skipTest("completing needs bash")
        script = 'source "$1"; shift; compopt() { :; }; COMP_WORDS=("$@"); COMP_CWORD=$(($# - 1)); _pandoricchia'
        script += '; printf "%s\\n" "${COMPREPLY[@]}"'
        given = ["bash", "-c", script, "bash", str(COMPLETION / "pandoricchia.bash"), "pandoricchia", *words]
        ran = subprocess.run(given, capture_output=True, text=True, check=True)
        self.assertEqual(ran.stderr, "")
        return ran.stdout.split()

    def test_bash(self) -> None:
        """Verbs, verbs of verbs, options where a dash begins one, codes; files are readline's."""
        self.assertEqual(set(self.completed("")), {verb.split()[0] for verb in VERBS})
        self.assertEqual(self.completed("c"), ["check", "correct", "campaign", "completion"])
        self.assertEqual(self.completed("unit", ""), ["write", "read"])
        self.assertEqual(self.completed("unit", "read", "--co"), ["--code", "--count"])
        self.assertEqual(self.completed("unit", "read", "--code", ""), ["1", "3"])
        self.assertEqual(self.completed("samples", "correct", "-c", ""), ["1", "2", "3", "4"])
        self.assertEqual(self.completed("completion", ""), ["bash", "zsh"])
        self.assertEqual(self.completed("-"), ["-h", "--help", "--version"])
        for words in (("correct", ""), ("correct", "--output", ""), ("correct", "--limit", ""), ("report", "heard.b")):
            self.assertEqual(self.completed(*words), [], words)
        for verb in leaves(parser()):
            options = [name for action in verb._actions for name in action.option_strings]
            self.assertEqual(self.completed(*verb.prog.split()[1:], "-"), options, verb.prog)

    def test_zsh(self) -> None:
        """zsh finds the function in a folder of its path, and what the function asks for is what the parser has."""
        if not shutil.which("zsh"):
            self.skipTest("completing needs zsh")
        shutil.copy(COMPLETION / "_pandoricchia", self.place)
        script = (
            f"fpath=({self.place} $fpath); autoload -Uz compinit; compinit -u -d {self.place}/dump; print $_comps[pandoricchia];"
            # instead of zsh's own: what would be completed
            "_arguments() { print -rl -- \"$@\" | grep -o -- '^-[^[]*' }; _describe() { print -rl -- ${(P)2} };"
            "words=(pandoricchia); state=verb; _pandoricchia; autoload +X _pandoricchia; _pandoricchia_unit_read"
        )
        ran = subprocess.run(["zsh", "-f", "-c", script], capture_output=True, text=True, check=False)
        printed = ran.stdout.splitlines()
        self.assertEqual((ran.returncode, printed[0]), (0, "_pandoricchia"), ran.stderr)
        self.assertIn("--version", printed)
        self.assertIn("--count", printed)
