"""The command's verbs on words, against the stored logs, the judge and the bench programs' stored runs."""
from __future__ import annotations

import pathlib
import random
import shutil
import subprocess
import tempfile
import unittest
from typing import List, Tuple

import pandoricchia
from pandoricchia import raising

from .command import SAMPLES, TOP, command, process
from .judge import CODES, ask, information, plain, received, spoiled

MANY = {1: 40, 2: 20, 3: 10, 4: 4, 5: 4}


def taken(log: bytes) -> int:
    """The status that a log should have: whether there is a word in it, and every answer is 0."""
    answers = [line.split()[1] for line in log.splitlines()[1:] if not line.startswith(b" ")]
    return 0 if answers and set(answers) == {b"0"} else 1


def not_offered(verb: str, recording: bytes, name: object = "standard input", codes: str = "codes 1, 2, 3, 4 and 5") -> str:
    """What is said of a recording as a whole whose code is not offered, or not by the verb; or which is none."""
    if len(recording) < 3:
        held = {0: "nothing", 1: "1 octet", 2: "2 octets"}[len(recording)]
        said = f"no recording: {held} in it, and a recording begins with three octets, its code and its limit"
    else:
        said = f"number 1: code not offered by this call: code {recording[0]}, where it takes {codes}"
        said += "" if recording[0] in CODES else "; words alone need --code"
    return f"pandoricchia {verb}: {name}: {said}\n"


def no_words(verb: str, name: object = "standard input") -> str:
    """What is said of an input in which nothing was received."""
    return f"pandoricchia {verb}: {name}: no words in it: nothing was received\n"


def lines(ran: bytes) -> List[List[int]]:
    """A log's numbers."""
    return [[int(field) for field in line.split()] for line in ran.splitlines()[1:]]


def different(one: bytes, other: bytes) -> int:
    """In how many bits two words differ."""
    return bin(int.from_bytes(one, "big") ^ int.from_bytes(other, "big")).count("1")


class Logs(unittest.TestCase):
    """`correct` prints what wordbench prints, `why` what why prints."""

    def test_samples(self) -> None:
        logs = sorted(log for log in SAMPLES.glob("*.log") if log.with_suffix(".bin").exists())
        self.assertGreater(len(logs), 20)
        for log in logs:
            wanted, recording = log.read_bytes(), log.with_suffix(".bin")
            octets = recording.read_bytes()
            for name, words, given in ((recording, (recording,), b""), ("standard input", (), octets)):
                said = no_words("correct", name) if wanted.count(b"\n") == 1 else ""
                said = not_offered("correct", octets, name) if b"\n0 1 " in wanted else said
                self.assertEqual(command("correct", *words, given=given), (taken(wanted), wanted, said), log.name)
            reasons = command("why", recording)
            self.assertEqual(b"".join(line for line in reasons.out.splitlines(True) if not line.startswith(b" ")), wanted, log.name)

    def test_stored(self) -> None:
        for program, verb in (("wordbench", "correct"), ("why", "why")):
            wanted = (TOP / "crates" / program / "stdout").read_bytes()
            self.assertEqual(command(verb, TOP / "crates" / program / "stdin"), (taken(wanted), wanted, ""))

    def test_jobs(self) -> None:
        """A recording of several parts: lines and words in order, however the work is spread."""
        chance = random.Random(5)
        words = b"".join(received(chance, 1) for _ in range(200)) * 25
        recording = b"\x01\x00\x05" + words + b"short"
        one, three = (command("correct", "--jobs", jobs, given=recording) for jobs in (1, 3))
        self.assertEqual(one, three)
        self.assertEqual([line[0] for line in lines(one.out)], list(range(5001)))
        self.assertEqual(lines(one.out)[-1], [5000, 2, 0, 0, 0, 0])
        self.assertEqual(lines(one.out)[4999][1:], lines(one.out)[199][1:])

    def test_bare(self) -> None:
        for code in CODES:
            recording = (SAMPLES / f"code{code}.bin").read_bytes()
            log = (SAMPLES / f"code{code}.log").read_bytes()
            self.assertEqual(command("correct", "--code", code, "--limit", 4, given=recording[3:]).out, log)
            self.assertEqual(command("correct", "--limit", 4, given=recording[:1] + b"\0\0" + recording[3:]).out, log)
            none = (SAMPLES / f"code{code}_limit_65535").with_suffix(".bin").read_bytes()
            self.assertEqual(
                command("correct", "--code", code, given=none[3:]).out, (SAMPLES / f"code{code}_limit_65535.log").read_bytes()
            )


class Words(unittest.TestCase):
    def setUp(self) -> None:
        self.chance = random.Random(20261115)
        self.place = pathlib.Path(tempfile.mkdtemp())
        self.addCleanup(shutil.rmtree, self.place)

    def some(self, code: int) -> Tuple[bytes, List[bytes]]:
        """A recording under a limit of 3, and its words."""
        words = [received(self.chance, code) for _ in range(MANY[code])]
        return bytes([code, 0, 3]) + b"".join(words), words

    def test_corrected(self) -> None:
        out = self.place / "out"
        for code in CODES:
            recording, words = self.some(code)
            ran = command("correct", "--output", out, given=recording + b"x")
            wanted = recording[:3]
            for word in words:
                mended = bytearray(len(word))
                number = ask("correct", code, word, 3, mended).number
                wanted += word if number else bytes(mended)
            self.assertEqual(out.read_bytes(), wanted + b"x")
            self.assertEqual(ran.status, 1)
            self.assertEqual(command("correct", "--code", code, "--limit", 3, "--output", out, given=recording[3:]).out, b"".join(
                ran.out.splitlines(True)[:-1]))
            self.assertEqual(out.read_bytes(), wanted[3:])

    def test_checked(self) -> None:
        for code in CODES:
            recording, words = self.some(code)
            ran = command("check", given=recording)
            self.assertEqual(ran.out.splitlines()[0], b"word answer broken lowest")
            self.assertEqual(lines(ran.out), [[k, *plain(ask("check", code, word))] for k, word in enumerate(words)])
            ran = command("quick", given=recording)
            self.assertEqual(ran.out.splitlines()[0], b"word answer yes evaluated")
            self.assertEqual(lines(ran.out), [[k, *plain(ask("quick", code, word))] for k, word in enumerate(words)])
            self.assertEqual(ran.status, 1)
            quiet = bytes([code, 0, 0]) + bytes(3 * pandoricchia.word_octets(code))
            self.assertEqual((command("check", given=quiet).status, command("quick", given=quiet).status), (0, 0))
        ran = command("check", given=b"\x06\0\0abc")
        self.assertEqual(ran, (1, b"word answer broken lowest\n0 1 0 0\n", not_offered("check", b"\x06\0\0")))

    def test_encoded(self) -> None:
        for code in CODES:
            informations = [information(self.chance, code) for _ in range(MANY[code])]
            wanted = bytes([code, 0, 9])
            for octets in informations:
                word = bytearray(pandoricchia.word_octets(code))
                ask("encode", code, octets, word)
                wanted += word
            for jobs in (1, 2):
                ran = command("encode", "--code", code, "--limit", 9, "--jobs", jobs, given=b"".join(informations))
                self.assertEqual(ran, (0, wanted, ""))
            self.assertEqual(command("encode", "--code", code, "--bare", given=b"".join(informations)).out, wanted[3:])
        self.assertEqual(command("encode", "--code", 3), (0, b"\x03\xff\xff", ""))
        self.assertEqual(command("encode", "--code", 1, "--fill", given=b"abc").out[3:], bytes(raising.encode(1, b"abcUUUUU")))
        ran = command("encode", "--code", 4, "--fill", given=b"abc")
        self.assertEqual(ran, (0, b"\x04\xff\xff" + raising.encode(4, b"abc" + b"U" * 891 + b"@"), ""))

    def test_encode_refused(self) -> None:
        """All or nothing: an output that is there stays."""
        out = self.place / "out"
        out.write_bytes(b"before")
        ran = command("encode", "--code", 1, "--output", out, given=b"eight oct")
        said = "word 1: number 2: input length differs: 1 octet where 8 make a word; --fill fills it up"
        self.assertEqual(ran, (1, b"", f"pandoricchia encode: {said}\n"))
        ran = command("encode", "--code", 4, "--fill", "--output", out, given=b"\xff" * 895)
        self.assertEqual(ran, (1, b"", "pandoricchia encode: word 0: number 4: one of the six last bits set\n"))
        self.assertEqual([path.name for path in self.place.iterdir()], ["out"])
        self.assertEqual(out.read_bytes(), b"before")

    def test_spoilt(self) -> None:
        for code in CODES:
            length = pandoricchia.word_octets(code)
            sent = bytes([code, 0, 9]) + bytes(MANY[code] * length) + b"end"
            for wrong in (0, 1, 5):
                ran = command("spoil", "--wrong", wrong, "--seed", 7, given=sent)
                self.assertEqual((ran.status, ran.said, len(ran.out), ran.out[:3], ran.out[-3:]), (0, "", len(sent), sent[:3], b"end"))
                for k in range(MANY[code]):
                    word = ran.out[3 + k * length:3 + (k + 1) * length]
                    self.assertEqual(different(word, bytes(length)), wrong)
                    self.assertTrue(code != 5 or word[-1] & 3 == 0)
                self.assertEqual(command("spoil", "--wrong", wrong, "--seed", 7, "--jobs", 2, given=sent), ran)
                self.assertEqual(command("spoil", "--wrong", wrong, "--seed", 7, "--code", code, given=sent[3:]).out, ran.out[3:])
                self.assertEqual(command("spoil", "--wrong", wrong, "--seed", 8, given=sent).out == ran.out, wrong == 0)
        sent = b"\x01\0\0" + bytes(16 * 2000)
        wrong = different(command("spoil", "--rate", 0.01, given=sent).out, sent)
        self.assertTrue(2000 < wrong < 3200, wrong)
        self.assertEqual(command("spoil", "--rate", 0, given=sent).out, sent)
        self.assertEqual(command("spoil", "--rate", 1, given=sent).out[3:], b"\xff" * 32000)
        self.assertEqual(command("spoil", "--wrong", 128, given=sent).out[3:], b"\xff" * 32000)

    def test_draws(self) -> None:
        """What a seed draws is the same everywhere: a campaign can be told by its seed."""
        drawn = command("spoil", "--wrong", 3, "--seed", 7, "--code", 1, given=bytes(16)).out
        self.assertEqual(drawn.hex(), "00040000000000004000000040000000")
        drawn = command("spoil", "--rate", 0.1, "--seed", "x", "--code", 1, given=bytes(16)).out
        self.assertEqual(drawn.hex(), "000000480202100011a2002202000020")

    def test_opened(self) -> None:
        out = self.place / "out"
        for code in (1, 2, 3, 5):
            sent = [information(self.chance, code) for _ in range(3)]
            words = [bytes(raising.encode(code, octets)) for octets in sent]
            words[1] = spoiled(self.chance, words[1], 1)
            ran = command("open", "--output", out, given=bytes([code, 0, 0]) + b"".join(words))
            self.assertEqual(out.read_bytes(), sent[0] + sent[2])
            shown = [line.split() for line in ran.out.decode().splitlines()]
            self.assertEqual(shown[0], ["word", "answer", "lowest", "information"])
            self.assertEqual([line[3] for line in shown[1:]], [sent[0].hex().upper(), "-", sent[2].hex().upper()])
            self.assertEqual([(int(line[1]), int(line[2])) for line in shown[1:]], [tuple(pandoricchia.open(code, w)[:2]) for w in words])
            self.assertEqual(ran.status, 1)

    def test_not_offered(self) -> None:
        """A code that a verb does not take: one line in the log and one on standard error, and an output that is there stays."""
        out = self.place / "out"
        out.write_bytes(b"before")
        for verb, recording, log, codes in (
            ("correct", b"\x09\0\0words", b"word answer flips first last unlike\n0 1 0 0 0 0\n", "codes 1, 2, 3, 4 and 5"),
            ("correct", b"\x01\0", b"word answer flips first last unlike\n0 1 0 0 0 0\n", ""),
            ("correct", b"", b"word answer flips first last unlike\n0 1 0 0 0 0\n", ""),
            ("open", b"\x04\0\0" + bytes(3 * 1022), b"word answer lowest information\n0 1 0 -\n", "codes 1, 2, 3 and 5"),
            ("nearest", b"\x02\0\0" + bytes(32), b"word answer least bits\n0 1 0\n", "code 1"),
        ):
            said = not_offered(verb, recording, codes=codes)
            self.assertEqual(command(verb, "--output", out, given=recording), (1, log, said))
        self.assertEqual(command("open", "--code", 4, given=bytes(2044)).out, b"word answer lowest information\n0 1 0 -\n")
        ran = command("spoil", "--wrong", 1, "--output", out, given=b"\x09\0\0words")
        self.assertEqual(ran, (1, b"", not_offered("spoil", b"\x09\0\0")))
        self.assertEqual(out.read_bytes(), b"before")

    def test_nothing_received(self) -> None:
        """A recording without words is no success, and an output that is there stays."""
        out = self.place / "out"
        out.write_bytes(b"before")
        for verb in ("correct", "check", "quick", "open", "why", "nearest"):
            more = ("--output", out) if verb in ("correct", "open", "nearest") else ()
            ran = command(verb, *more, given=b"\x01\0\5")
            self.assertEqual((ran.status, ran.out.count(b"\n"), ran.said), (1, 1, no_words(verb)))
            ran = command(verb, "--code", 1, *more)
            self.assertEqual((ran.status, ran.out.count(b"\n"), ran.said), (1, 1, no_words(verb)))
        self.assertEqual(out.read_bytes(), b"before")

    def test_own_head(self) -> None:
        """Words are said to be alone by --code, and are a recording: its length tells, of a file before anything is printed."""
        out, path = self.place / "out", self.place / "heard.bin"
        for code, verbs in ((1, ("correct", "spoil --wrong 1", "nearest", "samples make")), (5, ("correct", "check", "why", "open"))):
            recording = (SAMPLES / f"code{code}.bin").read_bytes()
            length = pandoricchia.word_octets(code)
            whole = recording[:3 + (len(recording) - 3) // length * length]
            path.write_bytes(whole)
            many = (len(whole) - 3) // length
            said = f"three octets, of which the first is {code}, and {many} whole words"
            said += ": that is a recording, which has its code in it; leave --code out\n"
            for verb in verbs:
                words = verb.split()
                more = ("--output", out) if verb not in ("check", "why") else ()
                label = " ".join(words[:1] if words[0] != "samples" else words)
                ran = command(*words, "--code", code, path, *more)
                self.assertEqual(ran, (2, b"", f"pandoricchia {label}: {path}: {said}"), verb)
                self.assertFalse(out.exists())
            self.assertEqual(command("report", "--code", code, path), (2, b"", f"pandoricchia report: {path}: {said}"))
            running = process("correct", "--code", code, stdin=subprocess.PIPE, stdout=subprocess.PIPE, stderr=subprocess.PIPE)
            printed, error = running.communicate(whole)  # of a pipe it shows at the end
            self.assertEqual((running.returncode, error.decode()), (2, f"pandoricchia correct: standard input: {said}"))
            self.assertEqual(printed.count(b"\n"), many + 2)
        two = (SAMPLES / "code1.bin").read_bytes()[3:3 + 32]
        for octets in (two, two + b"\x01\0", b"\x02\0\0" + two, b"\x01\0\0\0" + two):
            path.write_bytes(octets)
            self.assertEqual(command("correct", "--code", 1, path).said, "")
        with open(path, "rb") as file:  # some of it may be read already
            path.write_bytes(b"\x01\0\5" + two)
            file.seek(3)
            running = process("correct", "--code", 1, "--limit", 5, stdin=file, stdout=subprocess.PIPE)
            self.assertEqual(running.communicate()[0], command("correct", path).out)

    def test_counted(self) -> None:
        """With --count the last line on standard error says how many words there were, a short last one among them."""
        recording = (SAMPLES / "code1.bin").read_bytes()
        for verb in ("correct", "why"):
            ran = command(verb, given=recording)
            wanted = ran._replace(said=f"pandoricchia {verb}: standard input: 15 words\n")
            self.assertEqual(command(verb, "--count", given=recording), wanted)

    def test_nearest(self) -> None:
        out = self.place / "out"
        words = [spoiled(self.chance, bytes(16), wrong) for wrong in (0, 1, 2, 3)] + [b"\xaa" * 16]
        for reach in (0, 3):
            ran = command("nearest", "--reach", reach, "--output", out, given=b"\x01\0\0" + b"".join(words))
            wanted, mended = [], b"\x01\0\0"
            for k, word in enumerate(words):
                found = bytearray(16)
                answer = ask("nearest", word, reach, found)
                wanted.append([k, answer.number, answer.least, *list(answer.bits)[:answer.least]])
                mended += word if answer.number else bytes(found)
            self.assertEqual((lines(ran.out), out.read_bytes(), ran.status), (wanted, mended, 1))
