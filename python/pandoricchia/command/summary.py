"""The verb summary: what a log says as a whole, in text."""
from __future__ import annotations

from argparse import Namespace
from typing import Counter, Iterator, List, Optional

from ..numbers import text
from .files import Failed, Sink, Source, no_words, plural, say
from .logs import REFUSED, Entry, Tally, entries
from .progress import Progress


#: No line of a log is as long.
LINE = 4096


def _no_log(source: Source) -> Failed:
    return Failed(f"{source.name}: no log of words; correct and why print one of a recording")


def lines_of(source: Source, bar: Progress) -> Iterator[str]:
    """The lines of a text input, each with its end."""
    rest = b""
    while True:
        part = source.read(16384)
        whole = (rest + part).split(b"\n")
        rest = whole.pop()
        if len(rest) > LINE:
            raise _no_log(source)
        try:
            for line in whole:
                yield line.decode("ascii") + "\n"
            if not part:
                if rest:
                    yield rest.decode("ascii")
                return
        except UnicodeDecodeError:
            raise _no_log(source) from None
        bar.at(source.place)


def of_word(entry: Entry, tally: Tally) -> str:
    """A word in a sentence."""
    where = "" if entry.offset is None else f" at offset {entry.offset}"
    said = f"word {entry.word}{where}: answer {entry.answer}, {text(entry.answer)}; {plural(entry.flips, 'flip')}"
    said += f", {plural(entry.unlike, 'bit')} unlike, broken checks {entry.first} at the start and {entry.last} at the end"
    more = [reason for reason in tally.reasons(entry) if reason != REFUSED]
    return said + (f" ({'; '.join(more)})" if more else "")


def _table(counts: Counter[int], column: str) -> List[str]:
    return [f"{column:>7}  {'words':>12}"] + [f"{value:>7}  {counts[value]:>12,}" for value in sorted(counts)]


def summarised(tally: Tally) -> str:
    """A tally as text."""
    lines = [f"{plural(tally.words, 'word')}: {tally.answers[0]:,} taken, {tally.refused:,} refused", ""]
    lines.append(f"{'answer':>7}  {'words':>12}  meaning")
    lines += [f"{answer:>7}  {tally.answers[answer]:>12,}  {text(answer)}" for answer in sorted(tally.answers)]
    if tally.answers[0]:
        lines += ["", "Flips of the words that were taken:", *_table(tally.flips, "flips")]
        lines += ["", "Bits in which they were changed:", *_table(tally.unlike, "unlike")]
    lines.append("")
    if tally.beyond():
        lines += [tally.beyond() + ".", ""]
    if tally.looked():
        lines.append(f"Words that need a look: {tally.looked()}")
        lines += [f"  {of_word(entry, tally)}" for entry in tally.worst]
    elif tally.words:
        lines.append("No word needs a look.")
    else:
        lines.append("Nothing was received.")
    return "\n".join(lines) + "\n"


def tallied(source: Source, options: Namespace, bar: Progress) -> Tally:
    """The words of a log. One of a stream has offsets, and is of code 5."""
    tally: Optional[Tally] = None
    for entry in entries(lines_of(source, bar), source.name):
        if tally is None:
            tally = Tally(options.worst, options.code, entry.offset is not None)
        tally.add(entry)
    return tally or Tally(options.worst, options.code)


def as_many(tally: Tally, source: Source, options: Namespace) -> None:
    """Failed where there are not as many words as --words demands."""
    if options.words is not None and tally.words != options.words:
        raise Failed(f"{source.name}: {plural(tally.words, 'word')}, where --words demands {options.words:,}")


def status(tally: Tally, source: Source, options: Namespace) -> int:
    """0 if all is taken; nothing received is not all, and is said."""
    if not tally.words:
        say(f"{options.label}: {no_words(source)}")
    return 1 if tally.refused or not tally.words else 0


def summary(options: Namespace) -> int:
    """The summary of a log."""
    with Source(options.input) as source, Sink(options.output) as out:
        with Progress("summary", source.size) as bar:
            tally = tallied(source, options, bar)
        as_many(tally, source, options)
        out.write(summarised(tally).encode())
    return status(tally, source, options)
