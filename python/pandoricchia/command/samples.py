"""The verbs on a receiver's samples: samples make, samples correct.

A file of samples has nothing else in it: 32-bit floats, little-endian, one for each bit, word after word. A machine with the other
order turns them round.
"""
from __future__ import annotations

import sys
from argparse import Namespace
from array import array
from functools import partial

from .. import calls
from ..numbers import Number
from . import spoiling
from .files import Source, octets_out
from .jobs import ordered
from .progress import Progress
from .recordings import NO_LIMIT, PART, Part, head, header, not_offered, parts, words
from .words import LOG, Ask, Done, log

#: The codes that have samples.
CODES = (1, 2, 3, 4)

#: Octets of a sample, and of the samples of an octet.
SAMPLE = 4
SAMPLES = 8 * SAMPLE

#: The most noise: every sample is finite under it.
LOUDEST = 1e30


def little(samples: array[float]) -> array[float]:
    """Samples from this machine's order of octets to the file's, or back; they are turned where they are."""
    if sys.byteorder == "big":
        samples.byteswap()
    return samples


def bits_read(samples: array[float]) -> bytes:
    """The bits of samples as whole octets: 1 where the sample is below 0. The library writes nothing for a refused word."""
    many = len(samples) // 8
    return spoiling.flipped(bytes(many), (bit for bit in range(8 * many) if samples[bit] < 0))


# The work on a part, which another process may do.


def make_part(ask: Ask, part: Part) -> Done:
    """The samples of words; of a short last word those of its bits."""
    octets = []
    for index, word in part.words(calls.word_octets(ask.code)):
        sent = (-1 if octet >> place & 1 else 1 for octet in word for place in range(7, -1, -1))
        noise = spoiling.noise(spoiling.chance(ask.seed, "noise", index))
        octets.append(little(array("f", [one + ask.noise * more for one, more in zip(sent, noise)])).tobytes())
    return Done([], octets, True)


def correct_part(ask: Ask, part: Part) -> Done:
    """`correct`'s lines, by samples; the corrected words, those that are refused as their bits were read."""
    lines, octets, taken = [], [], True
    length = calls.word_octets(ask.code)
    out = bytearray(length)
    for index, held in part.words(SAMPLES * length):
        samples = little(array("f", bytes(held[:len(held) - len(held) % SAMPLE])))
        number, flips, first, last, unlike, _ = calls.correct_samples(ask.code, samples, ask.limit, out)
        lines.append("%d %d %d %d %d %d\n" % (index, number, flips, first, last, unlike))
        taken = taken and number == Number.DONE
        if ask.keep:
            octets.append(bytes(out) if number == Number.DONE else bits_read(samples))
    return Done(lines, octets, taken)


# The verbs.


def make(options: Namespace) -> int:
    """Samples of the words of a recording."""
    with Source(options.input) as source:
        told = head(source, options)
        if told.code not in CODES:
            raise not_offered(source, told, CODES)
        ask = Ask(told.code, seed=options.seed, noise=options.noise)
        with octets_out(options.output) as out, Progress("samples make", source.size) as bar:
            for done in ordered(partial(make_part, ask), words(source, told, PART // SAMPLES), options.jobs):
                out.write(b"".join(done.octets))
                bar.at(source.place)
    return 0


def correct(options: Namespace) -> int:
    """What `correct` prints, by samples; a recording of the words goes to --output."""
    limit = NO_LIMIT if options.limit is None else options.limit
    ask = Ask(options.code, limit, keep=options.output is not None)
    length = SAMPLES * calls.word_octets(options.code)
    with Source(options.input) as source:
        some = parts(source, length)
        return log(LOG, partial(correct_part, ask), source, some, length, header(options.code, limit), options)
