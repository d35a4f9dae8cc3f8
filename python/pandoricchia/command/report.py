"""The verb report: one page from a log or a recording, which a test engineer can hand to the auditor."""
from __future__ import annotations

import hashlib
from argparse import Namespace
from functools import partial
from html import escape
from typing import Dict, List, NamedTuple, Optional

from .. import calls
from ..numbers import Number, text
from . import charts
from .charts import Flip
from .files import Failed, Refusal, Sink, Source, plural, printable
from .jobs import ordered
from .logs import RUN_REFUSED, Entry, Tally, is_log
from .page import NAMES, facts, page, section, table
from .progress import Progress
from .recordings import Head, Part, head, not_offered, words
from .summary import as_many, status, tallied
from .words import PLACES, nearest_text


class Counted(NamedTuple):
    """A tally, and of which recording; no head for a log."""

    tally: Tally
    head: Optional[Head]


class _Hashed(Source):
    """An input that is hashed as it is read."""

    def __init__(self, name: Optional[str]) -> None:
        super().__init__(name)
        self.hash = hashlib.sha256()

    def __enter__(self) -> _Hashed:
        return self

    def read(self, most: int) -> bytes:
        octets = super().read(most)
        self.hash.update(octets)
        return octets


# What is counted.


def count_part(code: int, limit: int, worst: int, part: Part) -> Tally:
    """The tally of some words, which another process may make."""
    tally = Tally(worst, code)
    length = calls.word_octets(code)
    out = bytearray(length)
    for index, word in part.words(length):
        given = calls.correct(code, word, limit, out)
        entry = Entry(index, int(given.number), given.flips, given.first, given.last, given.unlike)
        tally.add(entry._replace(octets=bytes(word)) if entry.may_be_looked_at(tally.promised) else entry)
    return tally


def _counted(source: Source, options: Namespace, bar: Progress) -> Counted:
    if is_log(source.first()):
        if options.limit is not None:
            raise Failed(f"{source.name}: --limit is for words, and this is a log: they are corrected already")
        return Counted(tallied(source, options, bar), None)
    found = head(source, options)
    if not found.offered:
        raise Refusal(f"{not_offered(source, found)}; and it is no log")
    tally = Tally(options.worst, found.code)
    work = partial(count_part, found.code, found.limit, options.worst)
    for counted in ordered(work, words(source, found), options.jobs):
        tally.join(counted)
        bar.at(source.place)
    return Counted(tally, found)


# What is shown.


class Shown(NamedTuple):
    """A run to be drawn: its flips, and what is said of its end."""

    flips: List[Flip]
    notes: List[str]


def _run_of(entry: Entry, found: Optional[Head]) -> Optional[Shown]:
    """The run on a word, from the library where its octets are at hand, else from the lines under it in the log."""
    if entry.answer not in (0, *RUN_REFUSED):
        return None
    if found is not None:
        places = calls.flip_table(PLACES)
        listed = calls.list(found.code, entry.octets, found.limit, places)
        flips = [Flip(*record) for record in calls.flip_records(places, listed.flips)]
        notes = [f"stuck {listed.bit} {listed.excess}"] if listed.number == Number.STUCK else []
        if found.code == 1 and listed.number in (Number.STUCK, Number.LIMIT):
            notes.append("nearest " + nearest_text(memoryview(entry.octets)))
        return Shown(flips, notes)
    if not entry.under and entry.flips:
        return None
    fields = [line.split() for line in entry.under]
    flips = [Flip(*map(int, words[1:])) for words in fields if words[0] == "flip"]
    return Shown(flips, [line for line in entry.under if not line.startswith("flip")])


def _note(line: str) -> str:
    """A line under a word of why's log, in a sentence."""
    kind, *rest = line.split()
    if kind == "stuck":
        return f"No bit has an excess above 0: bit {rest[0]} comes nearest to a flip, with excess {rest[1]}."
    if rest == ["none"]:
        return "No codeword lies within three flips of the word as it was received."
    if len(rest) == 1:
        return "The word as it was received is a codeword."
    bits = "bit " + rest[1] if len(rest) == 2 else f"bits {', '.join(rest[1:-1])} and {rest[-1]}"
    return f"The nearest codeword is {plural(len(rest) - 1, 'flip')} from the word as it was received: {bits}."


def _word(entry: Entry, counted: Counted) -> str:
    """A word that needs a look, with its run."""
    where = "" if entry.offset is None else f" at offset {entry.offset} of the stream"
    title = f"Word {entry.word}{where}: answer {entry.answer}, {text(entry.answer)}"
    said = f"{plural(entry.flips, 'flip')}, {plural(entry.unlike, 'bit')} unlike, {plural(entry.first, 'check')} broken at the start,"
    said += f" {entry.last} at the end. It needs a look: {'; '.join(counted.tally.reasons(entry))}."
    shown = _run_of(entry, counted.head)
    pieces = [f"<h3>{escape(title)}</h3>", f"<p>{escape(said)}"]
    if shown is not None:
        pieces[-1] += " " + " ".join(escape(_note(line)) for line in shown.notes)
    pieces[-1] += "</p>"
    if shown is not None and shown.flips:
        pieces.append(charts.run(entry.first, shown.flips, f"Word {entry.word}: checks still broken after each flip"))
        rows = [(k, *flip) for k, flip in enumerate(shown.flips, 1)]
        flips = table(("flip", "bit", "excess", "checks left"), rows)
        pieces.append(f"<details><summary>The {plural(len(rows), 'flip')} in numbers</summary>{flips}</details>")
    if entry.octets:
        octets = entry.octets.hex().upper()
        pieces.append(f"<details><summary>The word as it was received</summary><p class=small><code>{octets}</code></p></details>")
    return "\n".join(pieces)


def _whose(counted: Counted) -> str:
    """Where the numbers come from."""
    if counted.head is not None:
        return "The numbers on this page were asked of the library, word by word."
    if counted.tally.streamed:
        return "The numbers of a word of a stream are those of that definition for the word with the randomiser removed."
    return "A log that <code>wordbench</code> wrote is that definition's log, line by line, up to the system's reading and writing."


def _proved(counted: Counted) -> List[str]:
    """What was proved of these numbers, in sentences; for one code or for any."""
    code = counted.tally.code
    half = "half of the checks broken at the start" if code in (4, 5) else "the checks broken at the start"
    if code is None:
        half += " (codes 4 and 5: half of them)"
    covered = {None: "any bit but code 5's last two, which are filling", 5: "any bit but the last two, which are filling"}
    said = [
        "For every input the library's number, flips, broken checks at the start and at the end, unlike bits and output octets"
        " are those of one short definition, the flipping run.",
        _whose(counted),
        "Answer 0 means: the run ended with no check broken, at a word that the encoder can give.",
        f"Flips are never more than the limit, and never more than {half}. Unlike is never more than flips, and the two are both"
        " even or both odd.",
        "A codeword comes back as it is, with no flips.",
        f"One wrong bit alone is mended by exactly one flip, under a limit of at least 1: {covered.get(code, 'any bit')}.",
    ]
    sixteen = "bits 80 and 109, turned round in their blocks, which are not mended"
    but = {None: f", but 16 pairs of code 1: {sixteen}", 1: f", but 16 pairs: {sixteen}"}.get(code, "")
    said.append(f"Two such wrong bits, under a limit of at least 2, are mended by exactly two flips{but}.")
    if code in (None, 4, 5):
        where = "Under codes 4 and 5 three" if code is None else "Three"
        said.append(
            f"{where} such wrong bits, under a limit of at least 3, are mended by exactly three flips, if one of them shares no check"
            " with the others or all three lie in one check."
        )
    if code in (None, 1, 2, 3):
        said.append("Codes 1 to 3 never give answer 8.")
    if counted.head is None and code != 5:
        said.append(
            "A log of <code>pandoricchia samples correct</code> is of another run, which chooses by the sizes of samples, and its numbers"
            " are those of a definition of its own. What is said of codewords, of one wrong bit, of three and of the most flips is proved of it too,"
            " and of two, but 80 pairs of code 1; what is said of unlike and of <code>wordbench</code> is not."
        )
    return said


def _not_claimed(code: Optional[int]) -> List[str]:
    three = "of three wrong bits there is no promise" if code in (1, 2, 3) else "of three wrong bits there is none but the one above"
    return [
        "That a word which was taken is the one that was sent, where more bits were wrong than is promised"
        f" ({three}). A run may end at another codeword, and the log does not know.",
        "Any coding gain or error rate.",
        "What the compiler, the machine, and reading and writing add: that lies outside the proofs, and is tested.",
    ]


def _items(sentences: List[str]) -> str:
    return "<ul>" + "\n".join(f"<li>{sentence}</li>" for sentence in sentences) + "</ul>"


def _title(counted: Counted) -> str:
    code = counted.tally.code
    if code is None:
        return "Words of a log"
    return f"Words of code {code}, {NAMES[code]}" + ("" if counted.head else ", by their log")


def _under(counted: Counted, name: str, digest: str) -> str:
    """Of what the page is."""
    said = f"From the {'recording' if counted.head else 'log'} <code>{escape(printable(name))}</code>, SHA-256 <code>{digest}</code>"
    if counted.head:
        return f"{said}, under a limit of {counted.head.limit:,} flips."
    return f"{said}. A log does not say which {'limit' if counted.tally.code else 'code and which limit'} it is of."


def made(counted: Counted, name: str, digest: str, worst: int) -> str:
    """The page."""
    tally, code = counted.tally, counted.tally.code
    meaning: Dict[int, str] = {answer: text(answer) for answer in tally.answers}
    sections = [
        facts(
            [
                (f"{tally.words:,}", "words", False),
                (f"{tally.taken:,}", "taken", False),
                (f"{tally.refused:,}", "refused", tally.refused > 0),
                (f"{max(tally.unlike, default=0):,}", "bits changed at most in a word that was taken", False),
            ]
        )
    ]
    if not tally.words:
        sections.append("<p>There are no words in it: nothing was received.</p>")
    else:
        sections.append(section("Answers", charts.answers(tally.answers, meaning, "Words by answer")))
    if tally.taken:
        series = [("flips", charts.INK, tally.flips), ("unlike", charts.LIGHT, tally.unlike)]
        sections.append(
            section(
                "Flips and unlike bits of the words that were taken",
                "<p>Flips are the steps of the run; unlike are the bits in which the received and the final word differ. They are not"
                " the same where a run flips a bit and later flips it back, and neither is a count of wrong bits.</p>",
                charts.columns(series, "Words that were taken, by flips and by unlike bits", "flips, or unlike bits, of a word"),
            )
        )
    if tally.starts:
        halved = code in (4, 5)
        sections.append(section("Broken checks and flips", charts.starts(tally.starts, halved, "Broken checks at the start against flips")))
    if tally.words:
        sections.append(_looks(counted, worst))
    sections.append(section("What was proved of these numbers", _items(_proved(counted))))
    sections.append(section("What is not claimed", _items(_not_claimed(code))))
    return page(_title(counted), _under(counted, name, digest), sections)


def _looks(counted: Counted, worst: int) -> str:
    tally = counted.tally
    pieces = [f"<p>{escape(tally.beyond())}.</p>" if tally.beyond() else ""]
    if not tally.looked():
        none = "none has many more bits changed than most" if tally.beyond() else "none has more bits changed than is promised"
        pieces.append(f"<p>None: every word was taken, {none}, and in none a bit was flipped back.</p>")
        return section("Words that need a look", *pieces)
    columns = ["word", *(["offset"] if tally.streamed else []), "answer", "flips", "first", "last", "unlike", "why"]
    rows = []
    for e in tally.worst:
        named = [str(e.word), *([str(e.offset)] if tally.streamed else [])]
        rows.append((*named, e.answer, e.flips, e.first, e.last, e.unlike, "; ".join(tally.reasons(e))))
    pieces += [f"<p>{escape(tally.looked())}. The worst, at most {worst}, first:</p>", table(columns, rows, (len(columns) - 1,))]
    if counted.head is None and not any(entry.under for entry in tally.worst):
        pieces.append(f"<p class=small>{_no_flips(tally)}</p>")
    else:
        pieces += [_word(entry, counted) for entry in tally.worst]
    return section("Words that need a look", *pieces)


def _no_flips(tally: Tally) -> str:
    """How to see the runs of a log that has no flips."""
    if tally.streamed:
        return (
            "This log has no flips. <code>pandoricchia frames --received --output FILE</code> writes the words as they were received, and a"
            " report of that recording shows the runs flip by flip."
        )
    return (
        "This log has no flips. A report of the recording, or of the log of <code>pandoricchia why</code>, shows the runs flip by flip;"
        " not those of <code>pandoricchia samples correct</code>, which may flip other bits."
    )


def report(options: Namespace) -> int:
    """The page of a log or a recording."""
    with _Hashed(options.input) as source, Sink(options.output) as out:
        with Progress("report", source.size) as bar:
            counted = _counted(source, options, bar)
        as_many(counted.tally, source, options)
        out.write(made(counted, source.name, source.hash.hexdigest(), options.worst).encode())
    return status(counted.tally, source, options)
