"""Status and line of what fails; outputs that come into place whole or not at all; pipes and signals."""
from __future__ import annotations

import os
import pathlib
import shutil
import signal
import stat
import subprocess
import sys
import tempfile
import time
import unittest
from pandoricchia import _library

from .command import SAMPLES, TOP, command, process

CODE1 = SAMPLES / "code1.bin"


class Failures(unittest.TestCase):
    def setUp(self) -> None:
        self.place = pathlib.Path(tempfile.mkdtemp())
        self.addCleanup(shutil.rmtree, self.place)
        self.out = self.place / "out"

    def test_usage(self) -> None:
        """One line, which names the help, and nothing on standard output."""
        for words in (
            "", "nothing", "correct a b", "correct --limit 65536", "correct --limit x", "correct --code 6", "correct --jobs 0",
            "encode", "encode --code 0", "spoil", "spoil --wrong 1 --rate 0.1", "spoil --rate 2", "spoil --wrong -1", "nearest --reach 4",
            "nearest --code 2", "unit", "unit read", "unit write --code 2", "frames --edition x", "blocks", "bch", "campaign --words 0",
            "correct --out x", "report --worst -1", "samples", "samples correct", "samples correct --code 0", "samples correct --code 5",
            "samples make --code 5", "samples make --noise -1", "samples make --noise nan", "samples make --noise inf",
            "samples make --noise loud",
        ):
            ran = command(*words.split())
            self.assertEqual((ran.status, ran.out, ran.said.count("\n")), (2, b"", 1), words)
            self.assertRegex(ran.said, "^pandoricchia.*: .*; see pandoricchia.* --help\n$")
        ran = command("unit", "read", "--code", 1, "a", "b")
        self.assertEqual(ran.said, "pandoricchia unit read: not understood: b; see pandoricchia unit read --help\n")
        for verb, codes in (("nearest", "1"), ("unit read", "1, 3"), ("samples correct", "1, 2, 3, 4")):
            said = f"argument -c/--code: '5' is no code of this verb ({codes}); see pandoricchia {verb} --help"
            self.assertEqual(command(*verb.split(), "--code", 5).said, f"pandoricchia {verb}: {said}\n")
        ran = command("spoil", "--wrong", 129, CODE1)
        self.assertEqual(ran, (2, b"", "pandoricchia spoil: --wrong: a word of code 1 has 128 bits that can be wrong\n"))
        ran = command("campaign", "--code", 1, "--wrong", 129)
        self.assertEqual(ran, (2, b"", "pandoricchia campaign: --wrong: a word of code 1 has 128 bits that can be wrong\n"))

    def test_reads(self) -> None:
        for verb in (
            "correct", "summary", "report", "blocks import", "unit read --code 1", "bch check", "encode --code 1", "samples make",
            "samples correct --code 1",
        ):
            words = verb.split()
            name = " ".join(word for word in words if word[0] != "-" and word != "1")
            ran = command(*words, self.place / "none")
            self.assertEqual((ran.status, ran.said), (2, f"pandoricchia {name}: {self.place}/none: No such file or directory\n"))
            ran = command(*words, self.place, "--output", self.out)
            self.assertEqual((ran.status, ran.said), (2, f"pandoricchia {name}: {self.place}: Is a directory\n"))
            self.assertEqual(list(self.place.iterdir()), [])

    def test_writes(self) -> None:
        for verb in ("correct", "report", "spoil --wrong 1", "blocks export", "open", "samples make", "samples correct --code 1"):
            ran = command(*verb.split(), CODE1, "--output", self.place / "none" / "out")
            self.assertEqual((ran.status, ran.out), (2, b""))
            self.assertEqual(ran.said.split(": ", 1)[1], f"{self.place}/none/out: No such file or directory\n")
            ran = command(*verb.split(), CODE1, "--output", "/dev/full")
            self.assertEqual((ran.status, ran.said.split(": ", 1)[1]), (2, "/dev/full: No space left on device\n"))
        for verb, words in (("correct", ()), ("samples make", ()), ("samples correct", ("--code", 1))):
            with open("/dev/full", "wb") as full:
                running = process(*verb.split(), *words, CODE1, stdout=full, stderr=subprocess.PIPE)
            said = f"pandoricchia {verb}: standard output: No space left on device\n"
            self.assertEqual((running.communicate()[1].decode(), running.returncode), (said, 2))

    def test_before_the_work(self) -> None:
        """An output that can't be is said before anything else is done, and not after a campaign of an hour."""
        words = ("--output", self.place / "none" / "out")
        for verb in ("report", "summary"):
            ran = command(verb, *words, given=b"no log")
            self.assertEqual(ran, (2, b"", f"pandoricchia {verb}: {self.place}/none/out: No such file or directory\n"))
        none = {_library.ENVIRONMENT: str(self.place / "none.so")}
        running = process("campaign", *words, env=none, stdout=subprocess.PIPE, stderr=subprocess.PIPE)
        self.assertIn(b"none/out: No such file or directory\n", running.communicate()[1])

    def test_printed_and_written(self) -> None:
        """What is printed and what is written do not go to one place, where one would spoil the other."""
        self.out.write_bytes(b"before")
        for name, stream in (("-", subprocess.PIPE), ("/dev/stdout", subprocess.PIPE), (self.out, self.out.open("ab"))):
            running = process("correct", CODE1, "--output", name, stdout=stream, stderr=subprocess.PIPE)
            out, said = running.communicate()
            self.assertEqual((running.returncode, out or b""), (2, b""))
            wanted = f"pandoricchia correct: --output {name}: that is standard output, where what is printed goes\n"
            self.assertEqual(said.decode(), wanted)
            if not isinstance(stream, int):
                stream.close()
        self.assertEqual(self.out.read_bytes(), b"before")
        running = process("correct", CODE1, "--output", "/dev/null", stdout=subprocess.DEVNULL)
        self.assertEqual(running.wait(), 1)

    def test_named_pipes(self) -> None:
        """A pipe that a shell names, as in --output >(gzip), and standard output by its name."""
        sent = CODE1.read_bytes()[3:]
        wanted = command("bch", "encode", given=sent[:70]).out
        for name in ("/dev/stdout", "/dev/fd/1"):
            running = process("bch", "encode", "--output", name, stdin=subprocess.PIPE, stdout=subprocess.PIPE)
            self.assertEqual((running.communicate(sent[:70])[0], running.returncode), (wanted, 0))

    def test_closed(self) -> None:
        """Closed standard streams: no file comes to stand in their place."""
        words = [sys.executable, "-m", "pandoricchia", "correct", str(CODE1), "--output", str(self.out)]
        environment = {**os.environ, "PYTHONPATH": str(TOP / "python")}
        ran = subprocess.run(["sh", "-c", '"$@" >&-', "sh", *words], env=environment, stderr=subprocess.PIPE, check=False)
        self.assertEqual((ran.returncode, ran.stderr), (2, b"pandoricchia correct: standard output: Bad file descriptor\n"))
        self.assertEqual(list(self.place.iterdir()), [])
        del words[4]
        ran = subprocess.run(["sh", "-c", '"$@" <&-', "sh", *words], env=environment, capture_output=True, check=False)
        self.assertEqual((ran.returncode, ran.stderr), (2, b"pandoricchia correct: standard input: Bad file descriptor\n"))
        self.assertEqual((ran.stdout, list(self.place.iterdir())), (b"", []))

    def test_in_place(self) -> None:
        """The output may be the input; it keeps its mode, and a link to it stays one."""
        recording = CODE1.read_bytes()
        self.out.write_bytes(recording)
        self.out.chmod(0o640)
        link = self.place / "link"
        link.symlink_to(self.out)
        log = (SAMPLES / "code1.log").read_bytes()
        self.assertEqual(command("correct", self.out, "--output", link), (1, log, ""))
        self.assertTrue(link.is_symlink())
        self.assertEqual(stat.S_IMODE(self.out.stat().st_mode), 0o640)
        self.assertEqual(len(self.out.read_bytes()), len(recording))
        self.assertNotEqual(self.out.read_bytes(), recording)
        self.assertEqual(sorted(path.name for path in self.place.iterdir()), ["link", "out"])

    def test_pipe(self) -> None:
        """Nobody reads: it ends by the signal and says nothing."""
        long = self.place / "long.bin"
        long.write_bytes(b"\x01\0\x05" + bytes(16 * 40000))
        for more in ((), ("--jobs", 2)):
            running = process("correct", long, *more, stdout=subprocess.PIPE, stderr=subprocess.PIPE)
            assert running.stdout is not None and running.stderr is not None
            running.stdout.read(20)
            running.stdout.close()
            self.assertEqual(running.stderr.read(), b"")
            running.stderr.close()
            self.assertEqual(running.wait(), -signal.SIGPIPE)

    def test_ended(self) -> None:
        """A signal ends it, and what is unfinished is put away."""
        running = process("correct", "--output", self.out, stdin=subprocess.PIPE, stdout=subprocess.DEVNULL)
        assert running.stdin is not None
        running.stdin.write(b"\x01\0\x05" + bytes(65536))
        running.stdin.flush()
        for _ in range(600):
            if list(self.place.iterdir()):
                break
            time.sleep(0.05)
        self.assertEqual(len(list(self.place.iterdir())), 1)
        running.terminate()
        self.assertEqual(running.wait(), -signal.SIGTERM)
        running.stdin.close()
        self.assertEqual(list(self.place.iterdir()), [])

    def test_not_text(self) -> None:
        """Names and seeds may be any octets; on a page those that are no text have their numbers."""
        for name, shown in ((b"bad\xff.bin", "bad\\xff.bin"), ("файл.bin".encode(), "файл.bin")):
            path = os.path.join(os.fsencode(self.place), name)
            shutil.copy(os.fsencode(CODE1), path)
            for env in ({}, {"LC_ALL": "C"}, {"LC_ALL": "C", "PYTHONUTF8": "0", "PYTHONCOERCECLOCALE": "0"}):
                for verb in ("report", "correct", "samples make"):
                    running = process(*verb.split(), path, env=env, stdout=subprocess.PIPE, stderr=subprocess.PIPE)
                    out, said = running.communicate()
                    self.assertEqual((running.returncode, said), (0 if verb == "samples make" else 1, b""), (verb, env))
                    self.assertEqual(verb == "report" and shown.encode() in out, verb == "report")
                running = process("correct", path + b".none", env=env, stderr=subprocess.PIPE)
                said = running.communicate()[1]
                self.assertEqual((running.returncode, said.count(b"\n"), name in said), (2, 1, True), env)
        drawn = []
        for seed in (b"\xff", b"\xff", b"\xfe"):
            running = process("spoil", "--wrong", 9, "--seed", seed, CODE1, stdout=subprocess.PIPE, stderr=subprocess.PIPE)
            out, said = running.communicate()
            self.assertEqual((running.returncode, said), (0, b""))
            drawn.append(out)
        self.assertEqual((drawn[0] == drawn[1], drawn[0] == drawn[2]), (True, False))
        words = ("campaign", "--code", 1, "--words", 1, "--wrong", 0)
        running = process(*words, "--seed", b"<\xff>", "--output", self.out, stdout=subprocess.DEVNULL)
        self.assertEqual(running.wait(), 0)
        self.assertIn("seed &lt;\\xff&gt;.", self.out.read_text(encoding="utf-8"))

    def test_interrupted_at_once(self) -> None:
        """An interrupt while modules are loaded ends it by the signal, and nothing is said."""
        (self.place / "sitecustomize.py").write_text(
            "import os, signal, sys\n"
            "class Finder:\n"
            "    def find_spec(self, name, path=None, target=None):\n"
            "        if name == os.environ['INTERRUPTED_AT']:\n"
            "            os.kill(os.getpid(), signal.SIGINT)\n"
            "sys.meta_path.insert(0, Finder())\n"
        )
        launcher = self.place / "pandoricchia.py"
        launcher.write_text((TOP / "python/pandoricchia.in").read_text(encoding="utf-8").replace("@PYTHON@", str(TOP / "python")))
        ways = [(["-m", "pandoricchia"], "pandoricchia.command.entry"), (["-m", "pandoricchia"], "pandoricchia.command.parser")]
        ways += [([str(launcher)], name) for name in ("pandoricchia", "pandoricchia.calls", "pandoricchia.command.parser")]
        for words, name in ways:
            environment = {**os.environ, "PYTHONPATH": f"{self.place}:{TOP / 'python'}", "INTERRUPTED_AT": name}
            ran = subprocess.run(
                [sys.executable, *words, "correct", CODE1], env=environment, capture_output=True, check=False,
                preexec_fn=lambda: signal.signal(signal.SIGINT, signal.SIG_DFL),  # these tests may run where it is ignored
            )
            self.assertEqual((ran.returncode, ran.stdout, ran.stderr), (-signal.SIGINT, b"", b""), (words, name))

    def test_ignored(self) -> None:
        """A signal that is ignored, as by nohup, stays ignored."""
        running = process(
            "correct", "--output", self.out, stdin=subprocess.PIPE, stdout=subprocess.PIPE,
            preexec_fn=lambda: signal.signal(signal.SIGHUP, signal.SIG_IGN),
        )
        assert running.stdin is not None and running.stdout is not None
        running.stdin.write(CODE1.read_bytes())
        running.stdin.flush()
        for _ in range(600):
            if list(self.place.iterdir()):  # it has begun
                break
            time.sleep(0.05)
        running.send_signal(signal.SIGHUP)
        self.assertEqual((running.communicate()[0], running.returncode), ((SAMPLES / "code1.log").read_bytes(), 1))
        self.assertTrue(self.out.exists())

    def test_no_library(self) -> None:
        """A line where the library is not there; help and summaries do without."""
        none = {_library.ENVIRONMENT: str(self.place / "none.so")}
        running = process("correct", CODE1, env=none, stdout=subprocess.PIPE, stderr=subprocess.PIPE)
        out, said = running.communicate()
        self.assertEqual((running.returncode, out, said.count(b"\n")), (2, b"", 1))
        self.assertIn(b"pandoricchia correct: the shared library of pandoricchia can't be loaded", said)
        running = process("summary", SAMPLES / "code1.log", env=none, stdout=subprocess.PIPE)
        self.assertIn(b"15 words", running.communicate()[0])
        self.assertEqual(running.returncode, 1)
