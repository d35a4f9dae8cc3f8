"""The verbs that go through words: encode, spoil, check, quick, correct, open, why, nearest.

Those that say something of each word print a log, as the bench programs do, and write octets where --output asks for them.
"""
from __future__ import annotations

from argparse import Namespace
from functools import partial
from typing import Callable, Iterable, List, NamedTuple, Optional

from .. import calls
from ..numbers import Number
from . import spoiling
from .files import Failed, Refusal, Sink, Source, kept, no_words, octets_out, plural, say
from .jobs import ordered
from .progress import Progress
from .recordings import NO_LIMIT, Part, head, header, information, not_offered, parts
from .recordings import words as words_of

#: The codes.
CODES = (1, 2, 3, 4, 5)

#: No run of any code has more flips than this.
PLACES = 511

#: What `encode --fill` puts behind a short last part, as a unit does.
FILL = 0x55

LOG = "word answer flips first last unlike"


class Ask(NamedTuple):
    """What a verb asks for each word."""

    code: int
    limit: int = 0
    keep: bool = False
    reach: int = 0
    fill: bool = False
    seed: str = ""
    wrong: Optional[int] = None
    rate: float = 0.0
    noise: float = 0.0


class Done(NamedTuple):
    """What came of a part: lines of the log, octets for the output, whether all was taken; of encode, what was refused."""

    lines: List[str]
    octets: List[bytes]
    taken: bool
    refused: str = ""


# The work on a part, which another process may do.


def correct_part(ask: Ask, part: Part) -> Done:
    """`wordbench`'s lines; the corrected words, those that are refused as they were received."""
    lines, octets, taken = [], [], True
    length = calls.word_octets(ask.code)
    out = bytearray(length)
    for index, word in part.words(length):
        number, flips, first, last, unlike, _ = calls.correct(ask.code, word, ask.limit, out)
        lines.append("%d %d %d %d %d %d\n" % (index, number, flips, first, last, unlike))
        taken = taken and number == Number.DONE
        if ask.keep:
            octets.append(bytes(out) if number == Number.DONE else bytes(word))
    return Done(lines, octets, taken)


def check_part(ask: Ask, part: Part) -> Done:
    """How many checks are broken. A broken check counts as a refusal."""
    lines, taken = [], True
    for index, word in part.words(calls.word_octets(ask.code)):
        number, broken, lowest = calls.check(ask.code, word)
        lines.append("%d %d %d %d\n" % (index, number, broken, lowest))
        taken = taken and number == Number.DONE and not broken
    return Done(lines, [], taken)


def quick_part(ask: Ask, part: Part) -> Done:
    """Whether no check is broken. That one is counts as a refusal."""
    lines, taken = [], True
    for index, word in part.words(calls.word_octets(ask.code)):
        number, yes, evaluated = calls.quick(ask.code, word)
        lines.append("%d %d %d %d\n" % (index, number, yes, evaluated))
        taken = taken and number == Number.DONE and yes
    return Done(lines, [], taken)


def open_part(ask: Ask, part: Part) -> Done:
    """The information of codewords."""
    lines, octets, taken = [], [], True
    for index, word in part.words(calls.word_octets(ask.code)):
        number, lowest, count = calls.open(ask.code, word)
        held = bytes(word[:count])
        lines.append("%d %d %d %s\n" % (index, number, lowest, held.hex().upper() or "-"))
        taken = taken and number == Number.DONE
        octets.append(held)
    return Done(lines, octets, taken)


def why_part(ask: Ask, part: Part) -> Done:
    """`why`'s lines: under each word's its flips, and for a refusal the reason."""
    lines, taken = [], True
    table = calls.flip_table(PLACES)
    for index, word in part.words(calls.word_octets(ask.code)):
        listed = calls.list(ask.code, word, ask.limit, table)
        lines.append("%d %d %d %d %d %d\n" % (index, *listed[:5]))
        lines += ["  flip %d %d %d\n" % record for record in calls.flip_records(table, listed.flips)]
        if listed.number == Number.STUCK:
            lines.append("  stuck %d %d\n" % (listed.bit, listed.excess))
        if ask.code == 1 and listed.number in (Number.STUCK, Number.LIMIT):
            lines.append("  nearest %s\n" % nearest_text(word))
        taken = taken and listed.number == Number.DONE
    return Done(lines, [], taken)


def nearest_text(word: memoryview) -> str:
    """How many flips of a word of code 1 give the nearest codeword, and which; or that there is none within three."""
    reached = calls.nearest(word, 3, bytearray(calls.word_octets(1)))
    if reached.number != Number.DONE:
        return "none"
    return " ".join(map(str, (reached.least, *reached.bits[:reached.least])))


def nearest_part(ask: Ask, part: Part) -> Done:
    """The fewest flips of a word of code 1 that give a codeword."""
    lines, octets, taken = [], [], True
    length = calls.word_octets(ask.code)
    out = bytearray(length)
    for index, word in part.words(length):
        number, least, bits = calls.nearest(word, ask.reach, out) if length else (Number.CODE, 0, ())
        lines.append(" ".join(map(str, (index, int(number), least, *bits[:least]))) + "\n")
        taken = taken and number == Number.DONE
        if ask.keep:
            octets.append(bytes(out) if number == Number.DONE else bytes(word))
    return Done(lines, octets, taken)


def encode_part(ask: Ask, part: Part) -> Done:
    """The words of information, up to the first that is refused."""
    octets: List[bytes] = []
    length = calls.information_octets(ask.code)
    word = bytearray(calls.word_octets(ask.code))
    for index, given in part.words(length):
        if ask.fill and len(given) < length:
            given = memoryview(information(bytes(given).ljust(length, bytes([FILL])), ask.code))
        number = calls.encode(ask.code, given, word)
        if number != Number.DONE:
            return Done([], octets, False, refused_word(index, number, len(given), length, "; --fill fills it up"))
        octets.append(bytes(word))
    return Done([], octets, True)


def refused_word(index: int, number: Number, octets: int, wanted: int, more: str = "") -> str:
    """What is said of information that is refused: of a length that differs also both lengths, and what helps."""
    said = f"word {index}: number {int(number)}: {number.text}"
    return said if number != Number.INPUT_LENGTH else f"{said}: {plural(octets, 'octet')} where {wanted} make a word{more}"


def spoil_part(ask: Ask, part: Part) -> Done:
    """The words with wrong bits; a short last word as it is."""
    octets = []
    length, below = calls.word_octets(ask.code), spoiling.bits(ask.code)
    for index, word in part.words(length):
        draws = spoiling.chance(ask.seed, index)
        at = spoiling.places_at(draws, ask.rate, below) if ask.wrong is None else spoiling.places(draws, ask.wrong, below)
        octets.append(spoiling.flipped(word, at) if len(word) == length else bytes(word))
    return Done([], octets, True)


# The verbs.


def log(
    columns: str, work: Callable[[Part], Done], source: Source, some: Iterable[Part], length: int, start: bytes, options: Namespace
) -> int:
    """A line for each word of so many octets, and octets to --output, which begin so; 0 if all is taken."""
    taken, begun = True, source.place
    with Sink(None) as printed, kept(options.output) as out, Progress(options.label.partition(" ")[2], source.size, lines=True) as bar:
        printed.write(columns.encode() + b"\n")
        out.write(start)
        for done in ordered(work, some, options.jobs):
            printed.write("".join(done.lines).encode())
            out.write(b"".join(done.octets))
            taken = taken and done.taken
            bar.at(source.place)
        words = -(-(source.place - begun) // length)
        if not words:
            raise no_words(source)
    counted(source, words, options)
    return 0 if taken else 1


def counted(source: Source, words: int, options: Namespace, what: str = "word") -> None:
    """With --count, how many words there were: a log whose end is missing has fewer."""
    if options.count:
        say(f"{options.label}: {source.name}: {plural(words, what)}")


def _log(columns: str, work: Callable[[Ask, Part], Done], options: Namespace, *offered: int) -> int:
    """The log of a recording."""
    with Source(options.input) as source:
        told = head(source, options)
        ask = Ask(told.code, told.limit, keep=options.output is not None, reach=getattr(options, "reach", 0))
        if not told.offered or offered and told.code not in offered:
            Sink(None).write((columns + "\n" + "".join(work(Ask(0), Part(0, b"")).lines)).encode())
            raise not_offered(source, told, offered or CODES)
        start = b"" if work is open_part else told.octets
        return log(columns, partial(work, ask), source, words_of(source, told), calls.word_octets(ask.code), start, options)


def correct(options: Namespace) -> int:
    """What `wordbench` prints."""
    return _log(LOG, correct_part, options)


def check(options: Namespace) -> int:
    """Broken checks of each word."""
    return _log("word answer broken lowest", check_part, options)


def quick(options: Namespace) -> int:
    """Whether no check of a word is broken."""
    return _log("word answer yes evaluated", quick_part, options)


def open_words(options: Namespace) -> int:
    """The information of each codeword."""
    return _log("word answer lowest information", open_part, options, 1, 2, 3, 5)


def why(options: Namespace) -> int:
    """What `why` prints."""
    return _log(LOG, why_part, options)


def nearest(options: Namespace) -> int:
    """The nearest codeword of each word of code 1."""
    return _log("word answer least bits", nearest_part, options, 1)


def encode(options: Namespace) -> int:
    """A recording of the words of the information."""
    limit = NO_LIMIT if options.limit is None else options.limit
    ask = Ask(options.code, fill=options.fill)
    with Source(options.input) as source, octets_out(options.output) as out, Progress("encode", source.size) as bar:
        out.write(b"" if options.bare else header(options.code, limit))
        for done in ordered(partial(encode_part, ask), parts(source, calls.information_octets(ask.code)), options.jobs):
            out.write(b"".join(done.octets))
            if not done.taken:
                raise Refusal(done.refused)
            bar.at(source.place)
    return 0


def spoil(options: Namespace) -> int:
    """The same recording with wrong bits."""
    with Source(options.input) as source:
        told = head(source, options)
        if not told.offered:
            raise not_offered(source, told)
        if options.wrong is not None and options.wrong > spoiling.bits(told.code):
            raise Failed(f"--wrong: a word of code {told.code} has {spoiling.bits(told.code)} bits that can be wrong")
        ask = Ask(told.code, seed=options.seed, wrong=options.wrong, rate=options.rate or 0.0)
        with octets_out(options.output) as out, Progress("spoil", source.size) as bar:
            out.write(told.octets)
            for done in ordered(partial(spoil_part, ask), words_of(source, told), options.jobs):
                out.write(b"".join(done.octets))
                bar.at(source.place)
    return 0
