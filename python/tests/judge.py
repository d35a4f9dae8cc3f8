"""The judge of outside/judge.c, built as a shared object that PANDORICCHIA_JUDGE names; and random words for both."""
from __future__ import annotations

import array
import ctypes
import os
import pathlib
import random
from typing import Any, List

from pandoricchia import _library, calls

TOP = pathlib.Path(__file__).resolve().parents[2]
CODES = (1, 2, 3, 4, 5)

JUDGE = ctypes.CDLL(os.environ["PANDORICCHIA_JUDGE"])
_library.declare(
    JUDGE,
    "judge_",
    {
        name: kinds
        for name, kinds in _library.CALLS.items()
        if name not in ("version", "word_octets", "information_octets", "taker", "taker_for", "take")
    },
)


class Frame(ctypes.Structure):
    """A word that the judge finds in a stream."""

    _fields_ = [("offset", ctypes.c_size_t), ("corrected", _library.CorrectedRecord), ("word", ctypes.c_uint8 * 1020)]


JUDGE.judge_frame.restype = ctypes.c_bool
JUDGE.judge_frame.argtypes = [
    ctypes.c_void_p,
    ctypes.c_size_t,
    ctypes.c_size_t,
    ctypes.c_uint8,
    ctypes.c_uint16,
    ctypes.POINTER(Frame),
]


def plain(value: Any) -> Any:
    """A record or a named tuple as tuples, ints and bytes, to be compared."""
    if isinstance(value, ctypes.Structure):
        return tuple(plain(getattr(value, field[0])) for field in value._fields_)
    if isinstance(value, tuple):
        return tuple(plain(part) for part in value)
    if isinstance(value, ctypes.Array):
        return bytes(value) if isinstance(value, ctypes.c_uint8 * len(value)) else tuple(value)
    return value if isinstance(value, bytes) else int(value)


def ask(name: str, *arguments: Any) -> Any:
    """The judge's answer. Octets go to it by ctypes's own ways, not by the package's: bytes and an array are read, a bytearray is
    written."""
    handed: List[Any] = []
    for argument in arguments:
        if isinstance(argument, bytes):
            handed += [ctypes.cast(ctypes.c_char_p(argument), ctypes.c_void_p), len(argument)]
        elif isinstance(argument, bytearray):
            handed += [ctypes.addressof((ctypes.c_uint8 * len(argument)).from_buffer(argument)), len(argument)]
        elif isinstance(argument, array.array):
            handed += argument.buffer_info()
        else:
            handed.append(argument)
    return getattr(JUDGE, "judge_" + name)(*handed)


def both(test: Any, name: str, *arguments: Any) -> Any:
    """Asks library and judge, each with outputs of its own that hold the same octets, and compares answers and outputs."""
    ours, theirs = ([bytearray(a) if isinstance(a, bytearray) else a for a in arguments] for _ in range(2))
    answer = getattr(calls, name)(*ours)
    said = (name,) + tuple(a.hex() if isinstance(a, (bytes, bytearray)) else a for a in arguments)
    test.assertEqual(plain(answer), plain(ask(name, *theirs)), said)
    test.assertEqual(ours, theirs, said)
    return answer


def information(chance: random.Random, code: int) -> bytes:
    """Random information; of code 4 its last six bits are 0."""
    octets = bytearray(chance.randbytes(calls.information_octets(code)))
    if code == 4:
        octets[-1] &= 0xC0
    return bytes(octets)


def spoiled(chance: random.Random, word: bytes, wrong: int) -> bytes:
    """The word with so many bits flipped."""
    octets = bytearray(word)
    for bit in chance.sample(range(8 * len(octets)), wrong):
        octets[bit // 8] ^= 0x80 >> bit % 8
    return bytes(octets)


def sampled(chance: random.Random, word: bytes, sizes: int) -> "array.array[float]":
    """Samples of a word, each of one of so many sizes."""
    bits = (octet >> place & 1 for octet in word for place in range(7, -1, -1))
    return array.array("f", [(-1 if bit else 1) * chance.randint(1, sizes) / 8 for bit in bits])


def received(chance: random.Random, code: int) -> bytes:
    """A word as it may be received: a codeword with some wrong bits, or noise."""
    length = calls.word_octets(code)
    if chance.random() < 0.1:
        return chance.randbytes(length)
    word = bytearray(length)
    ask("encode", code, information(chance, code), word)
    return spoiled(chance, bytes(word), chance.choice((0, 0, 1, 1, 2, 3, 4, 6, 9)))
