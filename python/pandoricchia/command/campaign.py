"""The verb campaign: random information, spoilt by 0 to k bits and corrected; how many words came back, and how."""
from __future__ import annotations

from argparse import Namespace
from collections import Counter
from functools import partial
from html import escape
from typing import Counter as Counts
from typing import Dict, Iterator, List, NamedTuple, Sequence, Tuple

from .. import calls
from ..numbers import Number, text
from . import charts, spoiling
from .files import Failed, Sink, kept, printable
from .jobs import ordered
from .page import NAMES, page, section, table
from .progress import Progress
from .recordings import NO_LIMIT

#: Up to so many wrong bits, unless --wrong says otherwise.
MOST = {1: 12, 2: 16, 3: 24, 4: 40, 5: 40}

RIGHT, OTHER = "right", "another codeword"
REFUSALS = (Number.STUCK, Number.LIMIT, Number.PARITY)

#: Words of one piece of work.
PIECE = 50


class Piece(NamedTuple):
    """Some words of a campaign: those from one index to another, with so many wrong bits."""

    code: int
    wrong: int
    start: int
    end: int


def refused(number: int) -> str:
    """The name of an outcome."""
    return f"refused {number}"


def try_piece(seed: str, limit: int, piece: Piece) -> Counts[str]:
    """What became of some words, which another process may try."""
    found: Counts[str] = Counter()
    word, out = (bytearray(calls.word_octets(piece.code)) for _ in range(2))
    for index in range(piece.start, piece.end):
        draws = spoiling.chance(seed, piece.code, piece.wrong, index)
        calls.encode(piece.code, spoiling.information(draws, piece.code), word)
        heard = spoiling.flipped(word, spoiling.places(draws, piece.wrong, spoiling.bits(piece.code)))
        number = calls.correct(piece.code, heard, limit, out).number
        found[refused(int(number)) if number else RIGHT if out == word else OTHER] += 1
    return found


def _pieces(codes: Sequence[int], options: Namespace) -> Iterator[Piece]:
    for code in codes:
        for wrong in range(_most(code, options) + 1):
            for start in range(0, options.words, PIECE):
                yield Piece(code, wrong, start, min(start + PIECE, options.words))


def _most(code: int, options: Namespace) -> int:
    return MOST[code] if options.wrong is None else int(options.wrong)


Rows = List[Tuple[int, Counts[str]]]


def tried(options: Namespace) -> Dict[int, Rows]:
    """For each code, what became of its words by number of wrong bits."""
    codes = [options.code] if options.code else sorted(NAMES)
    for code in codes:
        if _most(code, options) > spoiling.bits(code):
            raise Failed(f"--wrong: a word of code {code} has {spoiling.bits(code)} bits that can be wrong")
    found: Dict[int, Rows] = {code: [(wrong, Counter()) for wrong in range(_most(code, options) + 1)] for code in codes}
    limit = NO_LIMIT if options.limit is None else options.limit
    with Progress("campaign", sum(1 for _ in _pieces(codes, options))) as bar:
        work = ordered(partial(try_piece, options.seed, limit), _pieces(codes, options), options.jobs)
        for k, (counts, piece) in enumerate(zip(work, _pieces(codes, options)), 1):
            found[piece.code][piece.wrong][1].update(counts)
            bar.at(k)
    return found


def _kinds() -> List[str]:
    return [RIGHT, OTHER, *(refused(int(number)) for number in REFUSALS)]


def printed(code: int, rows: Rows) -> str:
    """A code's table as text."""
    kinds = _kinds()
    wide = [max(8, len(kind)) for kind in kinds]
    lines = [f"code {code}, {NAMES[code]}", "wrong bits  " + "  ".join(kind.rjust(room) for kind, room in zip(kinds, wide))]
    for wrong, counts in rows:
        lines.append(f"{wrong:>10}  " + "  ".join(f"{counts[kind]:>{room},}" for kind, room in zip(kinds, wide)))
    return "\n".join(lines) + "\n"


def drawn(found: Dict[int, Rows], options: Namespace) -> str:
    """The page: a table and a chart for each code."""
    limit = NO_LIMIT if options.limit is None else options.limit
    colours = [charts.INK, charts.AMBER, charts.RED, charts.ROSE, charts.GREY]
    kinds = _kinds()
    sections = [
        "<p>Random information was encoded, so many bits of the word were flipped, and the word was corrected. <i>Right</i>:"
        " the run ended at the word that was sent. <i>Another codeword</i>: it ended at one that was not sent, and nothing in the"
        " received word tells."
        " <i>Refused</i>, with the number of the refusal: "
        + "; ".join(f"{int(number)}, {text(number)}" for number in REFUSALS)
        + ". What is promised is one wrong bit and two, under every code, but 16 pairs of code 1: these are proved to come back right,"
        " where the limit allows as many flips."
        " All else here is what these draws gave. No coding gain and no error rate is claimed.</p>"
    ]
    for code, rows in found.items():
        shown = [(kind, colour) for kind, colour in zip(kinds, colours) if any(counts[kind] for _, counts in rows)]
        title = f"Code {code}, {NAMES[code]}: words by wrong bits"
        numbers = [(wrong, *(counts[kind] for kind in kinds)) for wrong, counts in rows]
        sections.append(
            section(f"Code {code}, {NAMES[code]}", charts.outcomes(rows, shown, title), table(("wrong bits", *kinds), numbers))
        )
    under = f"{options.words:,} words for each number of wrong bits, limit {limit:,}, seed {escape(printable(options.seed))}."
    return page("A campaign of wrong bits", under, sections)


def campaign(options: Namespace) -> int:
    """Tables on standard output, and a page with charts to --output."""
    with Sink(None) as out, kept(options.output) as made:  # first of all: a long campaign is not for nothing
        found = tried(options)
        out.write("\n".join(printed(code, rows) for code, rows in found.items()).encode())
        made.write(drawn(found, options).encode())
    return 0
