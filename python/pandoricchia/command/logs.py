"""Logs: those of wordbench, why, frames and unitread, and of the verbs that print the same. Read line by line, counted in
constant memory. Nothing here asks the library."""
from __future__ import annotations

import heapq
import re
from collections import Counter
from typing import Counter as Counts
from typing import Iterable, Iterator, List, NamedTuple, Optional, Tuple

from .files import Failed, plural

#: Refusals of a whole word: the run's own.
RUN_REFUSED = (5, 6, 7, 8)

#: Up to so many wrong bits a word is promised to come back as it was sent, under every code. The 16 pairs of code 1 that are left out are
#: never mended, so no word that was taken is one of them.
PROMISED = 2

#: Why somebody should look at a word.
REFUSED, BACK = "refused", "a bit flipped back"

#: A run's flips, why it stuck, and the nearest codeword: no more lines stand under a word.
UNDER = 513

_UNDER = re.compile(r"  (flip \d+ -?\d+ \d+|stuck \d+ -?\d+|nearest (none|\d+( \d+)*))\n")
_FIRST = ("word", "codeblock")
_COLUMNS = ("answer", "flips", "first", "last", "unlike")
_OFFSET = "offset"

#: The code of a log with offsets: words out of a stream have no other.
STREAMED = 5


class Entry(NamedTuple):
    """A word of a log, and what is kept of it: its offset in a stream, its octets where they are at hand, the lines under it."""

    word: int
    answer: int
    flips: int
    first: int
    last: int
    unlike: int
    offset: Optional[int] = None
    octets: bytes = b""
    under: Tuple[str, ...] = ()

    @property
    def taken(self) -> bool:
        """Whether it was taken."""
        return self.answer == 0

    @property
    def back(self) -> bool:
        """Whether a bit was flipped and flipped back."""
        return self.flips > self.unlike

    def may_be_looked_at(self, promised: int) -> bool:
        """Whether it may need a look: what is out of proportion shows at the log's end alone."""
        return not self.taken or self.back or self.unlike > promised

    @property
    def badness(self) -> Tuple[bool, bool, bool, int, int, int]:
        """Refused runs come first, then other refusals, then words with a bit flipped back; by broken checks, then by flips."""
        return (self.answer in RUN_REFUSED, not self.taken, self.back, self.first, self.flips, -self.word)


def is_log(start: bytes) -> bool:
    """Whether an input that begins so is a log. A recording's first octet is its code, and no letter is one."""
    return start.split(b" ")[0].decode("latin-1") in _FIRST and b" answer " in start


def entries(lines: Iterable[str], name: str) -> Iterator[Entry]:
    """The words of a log, each with the index that comes next. Failed where it is none."""
    numbered = enumerate(lines, 1)
    columns = next(numbered, (0, ""))[1].split()
    if not columns or columns[0] not in _FIRST or any(column not in columns for column in _COLUMNS):
        raise Failed(f"{name}: no log of words: its first line has not the columns {' '.join(_COLUMNS)}")
    at = [0, *(columns.index(column) for column in (*_COLUMNS, _OFFSET) if column in columns)]
    held: Optional[Entry] = None
    under: List[str] = []
    for number, line in numbered:
        if line.startswith(" "):
            if not _UNDER.fullmatch(line):
                raise Failed(f"{name}: line {number} is no line of a log")
            under.append(line.strip())
            if len(under) > UNDER:
                raise Failed(f"{name}: line {number}: more lines than can stand under a word")
            continue
        if held is not None:
            yield held._replace(under=tuple(under))
        fields, under = line.split(), []
        if not line.endswith("\n"):
            raise Failed(f"{name}: line {number} is cut short")
        if len(fields) < len(columns) or not all(fields[k].isdigit() for k in at):
            raise Failed(f"{name}: line {number} is no line of a log")
        index = 0 if held is None else held.word + 1
        word, answer, flips, first, last, unlike, *offset = (int(fields[k]) for k in at)
        held = Entry(word, answer, flips, first, last, unlike, offset[0] if offset else None)
        if held.word != index:
            raise Failed(f"{name}: line {number} is of {columns[0]} {held.word}, where that of {index} comes: lines are missing or moved")
    if held is not None:
        yield held._replace(under=tuple(under))


class Tally:
    """What is counted of words of a code, or of no known one, and the worst of them."""

    def __init__(self, worst: int, code: Optional[int] = None, streamed: bool = False) -> None:
        self._most = worst
        self._worst: List[Tuple[Tuple[bool, bool, bool, int, int, int], Entry]] = []
        self.code = STREAMED if streamed else code
        #: Whether they came out of a stream, and have offsets in it.
        self.streamed = streamed
        self.promised = PROMISED
        #: Words by answer; those that a run took by flips and by unlike; all runs by broken checks, flips and whether taken.
        self.answers: Counts[int] = Counter()
        self.flips: Counts[int] = Counter()
        self.unlike: Counts[int] = Counter()
        self.starts: Counts[Tuple[int, int, bool]] = Counter()
        #: Words in which a bit was flipped back.
        self.back = 0

    @property
    def words(self) -> int:
        """How many words there are."""
        return sum(self.answers.values())

    @property
    def taken(self) -> int:
        """How many were taken."""
        return self.answers[0]

    @property
    def refused(self) -> int:
        """How many were refused."""
        return self.words - self.taken

    def _keep(self, entry: Entry) -> None:
        item = (entry.badness, entry)
        if len(self._worst) < self._most:
            heapq.heappush(self._worst, item)
        elif self._worst and item[0] > self._worst[0][0]:
            heapq.heapreplace(self._worst, item)

    def add(self, entry: Entry) -> None:
        """One word more."""
        self.answers[entry.answer] += 1
        if entry.taken:
            self.flips[entry.flips] += 1
            self.unlike[entry.unlike] += 1
        if entry.taken or entry.answer in RUN_REFUSED:
            self.starts[entry.first, entry.flips, entry.taken] += 1
        self.back += entry.back
        if entry.may_be_looked_at(self.promised):
            self._keep(entry)

    def join(self, other: Tally) -> None:
        """The words of another tally, as one of a later part."""
        self.answers += other.answers
        self.flips += other.flips
        self.unlike += other.unlike
        self.starts += other.starts
        self.back += other.back
        for _, entry in other._worst:
            self._keep(entry)

    # What needs a look.

    @property
    def middle(self) -> int:
        """So many bits or fewer were changed in half of the words that were taken."""
        seen = 0
        for changed in sorted(self.unlike):
            seen += self.unlike[changed]
            if 2 * seen >= self.taken:
                return changed
        return 0

    @property
    def usual(self) -> int:
        """Up to so many changed bits nobody need look at a word that was taken: those that are promised to be mended, or twice as
        many as half of the words have."""
        return max(self.promised, 2 * self.middle)

    def changed(self, more_than: int) -> int:
        """How many words were taken with more bits changed."""
        return sum(count for bits, count in self.unlike.items() if bits > more_than)

    def reasons(self, entry: Entry) -> List[str]:
        """Why somebody should look at a word; nothing for most."""
        found = [REFUSED] if not entry.taken else []
        found += [BACK] if entry.back else []
        return found + ([self._many] if entry.taken and entry.unlike > self.usual else [])

    @property
    def _many(self) -> str:
        return f"more than {plural(self.usual, 'bit')} changed"

    def looked(self) -> str:
        """How many words need a look for each reason, in a sentence's part; nothing where none does."""
        found = [(self.refused, REFUSED), (self.changed(self.usual), f"with {self._many}"), (self.back, f"with {BACK}")]
        return "; ".join(f"{count:,} {reason}" for count, reason in found if count)

    def beyond(self) -> str:
        """How many words were changed in more bits than is promised, in a sentence; nothing where none was."""
        many = self.changed(self.promised)
        if not many:
            return ""
        said = f"{many:,} of {plural(self.taken, 'word')} taken ({100 * many / self.taken:.1f} %) have more bits changed than is promised"
        return f"{said} for {f'code {self.code}' if self.code else 'any code'}, which is {self.promised}; at most {max(self.unlike):,}"

    @property
    def worst(self) -> List[Entry]:
        """The worst of the words that need a look, the worst first."""
        return [entry for _, entry in sorted(self._worst, reverse=True) if self.reasons(entry)]
