"""Recordings for the bench program and streams for frames, the same ones every time. The judge, built as a shared object,
encodes and corrects."""
import ctypes
import os
import shutil
import subprocess

TOP = os.path.dirname(os.path.dirname(os.path.abspath(__file__)))
BUILT = os.path.join(TOP, "target", "outside")
WORD = {1: 16, 2: 32, 3: 64, 4: 1022, 5: 1020}
INFORMATION = {1: 8, 2: 16, 3: 32, 4: 895, 5: 892}


def compiler():
    return shutil.which("cc") or shutil.which("gcc") or shutil.which("clang")


def running(name):
    """The words that run a program: the one of a folder that PROGRAMS names, as it is; else the one that was proved, which is x86-64."""
    folder = os.environ.get("PROGRAMS")
    if folder:
        return [os.path.join(TOP, folder, name)]
    return [os.path.join(TOP, "outside", "run_x86"), os.path.join(TOP, "target", "bin", name)]


def build(name, *words):
    """Compiles files of outside/ to target/outside/NAME, and gives its path."""
    os.makedirs(BUILT, exist_ok=True)
    path = os.path.join(BUILT, name)
    files = [os.path.join(TOP, "outside", word) if word.endswith(".c") else word for word in words]
    subprocess.run([compiler(), "-std=c11", "-O2", "-Wall", "-Wextra", "-o", path] + files, check=True)
    return path


class Corrected(ctypes.Structure):
    _fields_ = [("number", ctypes.c_uint8)] + [(name, ctypes.c_uint32) for name in ("flips", "first", "last", "unlike", "lowest")]


class Stepped(ctypes.Structure):
    _fields_ = [("number", ctypes.c_uint8), ("quiet", ctypes.c_bool), ("bit", ctypes.c_uint32), ("excess", ctypes.c_int8)]


class Judge:
    def __init__(self):
        self.calls = ctypes.CDLL(build("judge.so", "-shared", "-fPIC", "judge.c"))
        self.calls.judge_correct.restype = Corrected
        self.calls.judge_step.restype = Stepped

    def encode(self, code, information):
        word = ctypes.create_string_buffer(WORD[code])
        number = self.calls.judge_encode(
            code, information, ctypes.c_size_t(len(information)), word, ctypes.c_size_t(WORD[code])) & 0xFF
        assert number == 0, number
        return word.raw

    def correct(self, code, word, limit):
        out = ctypes.create_string_buffer(WORD[code])
        return self.calls.judge_correct(
            code, word, ctypes.c_size_t(len(word)), ctypes.c_uint16(limit), out, ctypes.c_size_t(WORD[code]))

    def step(self, code, word):
        """Whether a bit was flipped, and the word afterwards."""
        out = ctypes.create_string_buffer(WORD[code])
        answer = self.calls.judge_step(
            code, word, ctypes.c_size_t(len(word)), out, ctypes.c_size_t(WORD[code]))
        return answer.number == 0 and not answer.quiet, out.raw


class Source:
    """Numbers that look random and are the same everywhere: xorshift of 64 bits."""

    def __init__(self, seed):
        self.state = seed * 0x9E3779B97F4A7C15 % 2**64 or 1

    def below(self, n):
        x = self.state
        x ^= x << 13 & 2**64 - 1
        x ^= x >> 7
        x ^= x << 17 & 2**64 - 1
        self.state = x
        return (x >> 11) % n

    def octets(self, n):
        return bytes(self.below(256) for _ in range(n))


def flipped(word, bits):
    """The word with these bits flipped; bit 0 is the most significant bit of octet 0."""
    octets = bytearray(word)
    for bit in bits:
        octets[bit // 8] ^= 0x80 >> bit % 8
    return bytes(octets)


class Words:
    """Words of one code, each made for what is to become of it."""

    def __init__(self, judge, code, seed):
        self.judge, self.code, self.source = judge, code, Source(seed)
        # code 5 sends two zero bits last, which no check covers
        self.bits = 8 * WORD[code] - (2 if code == 5 else 0)

    def quiet(self):
        information = bytearray(self.source.octets(INFORMATION[self.code]))
        if self.code == 4:
            information[-1] &= 0xC0
        return self.judge.encode(self.code, bytes(information))

    def places(self, n, below):
        """n different numbers below a bound."""
        places = set()
        while len(places) < n:
            places.add(self.source.below(below))
        return places

    def wrong(self, n):
        """A codeword with n wrong bits."""
        places = self.places(n, self.bits)
        return flipped(self.quiet(), places)

    def answered(self, number, limit, fewest, most):
        """A codeword with fewest to most wrong bits that the judge answers with this number."""
        for _ in range(1000):
            word = self.wrong(fewest + self.source.below(most - fewest + 1))
            if self.judge.correct(self.code, word, limit).number == number:
                return word
        raise AssertionError("code %d: no word with number %d found" % (self.code, number))

    def stuck(self, flips):
        """Number 5 after so many flips: a run on zeros with many wrong bits, taken up near its end. Code 5 has code 4's."""
        code, unsent = (4, 18) if self.code == 5 else (self.code, 0)
        while True:
            word = bytes(WORD[code])
            for _ in range(250 if code == 4 else self.bits // 10):
                word = flipped(word, [unsent + self.source.below(self.bits)])
            passed = []
            more = True
            while more:
                passed.append(word)
                more, word = self.judge.step(code, word)
            word = passed[-1 - flips]
            sent = shortened(word) if self.code == 5 else word
            if self.judge.correct(self.code, sent, flips).number == 5:
                return sent

    def unsent(self):
        """Code 5: code 4's word of information bit 0 alone, without its first 18 bits."""
        return shortened(self.judge.encode(4, flipped(bytes(INFORMATION[4]), [0])))

    def unsent_and_wrong(self, unsent, n):
        """Code 5: a word of code 4 that has this many of its first 18 bits set, without them, and with n wrong bits."""
        information = bytearray(self.source.octets(INFORMATION[4]))
        information[:3] = bytes([0, 0, information[2] & 0x3F])
        information[-1] &= 0xC0
        word = shortened(self.judge.encode(4, flipped(information, self.places(unsent, 18))))
        return flipped(word, self.places(n, self.bits))

    def other_parity(self):
        """Number 8, codes 4 and 5: a codeword with all of the first parity block flipped."""
        first = 7154 if self.code == 4 else 7136
        return flipped(self.quiet(), range(first, first + 511))


def shortened(word):
    """A word of code 4 as code 5 sends it: the first 18 bits dropped, two zeros appended."""
    number = int.from_bytes(word, "big") & (1 << 8176 - 18) - 1
    return (number << 2).to_bytes(WORD[5], "big")


def recording(code, limit, words):
    return bytes([code]) + limit.to_bytes(2, "big") + b"".join(words)


MARKER = bytes([0x1A, 0xCF, 0xFC, 0x1D])


def sequence(octets, edition=0):
    """An edition's randomiser from its beginning: x^8 + x^7 + x^5 + x^3 + 1 from all ones; in issues 4 and 5 x^17 + x^14 + 1."""
    newer = edition in (4, 5)
    bits = [int(bit) for bit in ("00011100011100011" if newer else "11111111")]
    while len(bits) < 8 * octets:
        bits.append(bits[-3] ^ bits[-17] if newer else bits[-1] ^ bits[-3] ^ bits[-5] ^ bits[-8])
    return int("".join(map(str, bits[: 8 * octets])), 2).to_bytes(octets, "big")


def frame(word, edition=0):
    """A word of code 5 as it comes in a stream: the marker, and the word randomised."""
    return MARKER + bytes(a ^ b for a, b in zip(word, sequence(len(word), edition)))


def mixed_stream(judge, frames, seed, edition=0):
    """Noise, markers that begin inside failed matches, clean, spoilt and refused words, one with a marker in its octets, a cut one."""
    words, source = Words(judge, 5, seed), Source(seed + 1000)
    made = []
    for k in range(frames):
        made.append(source.octets(source.below(30)))
        made.append(MARKER[: source.below(4)])
        kind = k % 5
        sent = frame(words.wrong((0, 1, 4, 60, 0)[kind]), edition)
        made.append(sent if kind != 4 else sent[:300] + MARKER + sent[304:])
    return b"".join(made) + source.octets(11) + frame(words.quiet(), edition)[:500]
