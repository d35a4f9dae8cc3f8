"""Charts, drawn as SVG that stands in a page: no script, no font and no picture from elsewhere.

A chart is as wide as the page lets it be: across, all is in parts of a hundred, and down in points, so that lines and letters
keep their size on a phone and on paper. Colours are the page's (``page.STYLE``), light or dark. What has room on a wide page alone
is marked so, and a narrow one does not show it.
"""
from __future__ import annotations

from collections import Counter
from html import escape
from typing import Counter as Counts
from typing import Dict, List, Mapping, NamedTuple, Optional, Sequence, Tuple

from .files import plural

#: Colours, by the page's names for them.
INK, LIGHT, PALE, RED, ROSE, AMBER, GREY, TEXT = "ink", "light", "pale", "red", "rose", "amber", "grey", "text"

#: Inside and edge of a dot, for words that were refused and taken.
TAKEN = {False: (ROSE, RED), True: (LIGHT, INK)}

#: Radii of dots whose area is a count.
SMALLEST, GREATEST = 3.5, 11.0

#: The least width of a chart's inside, in points, on a page of a phone and on one that is not narrow.
NARROW, WIDE = 230, 510


class Flip(NamedTuple):
    """A flip of a run: its bit, its excess, the broken checks left."""

    bit: int
    excess: int
    left: int


def long(words: object, size: float = 12) -> float:
    """About how long words are, in points."""
    return 0.6 * size * len(str(words))


def room(between: float, needed: float) -> Optional[str]:
    """Where something is shown that has a part of a chart's width and needs so many points: everywhere, on a wide page, nowhere."""
    return "" if between * NARROW >= needed else "wide" if between * WIDE >= needed else None


class Picture:
    """A drawing that is so many points high. Places across are parts of a hundred, with points added where that is said."""

    def __init__(self, height: float, title: str, axes: bool = True) -> None:
        self._title, self._class = title, " class=axes" if axes else ""
        self._key: List[str] = []
        self._parts = [
            f'<svg xmlns="http://www.w3.org/2000/svg" width="100%" height="{height:g}" role="img" aria-label="{escape(title)}">',
            f"<title>{escape(title)}</title>",
        ]

    def text(
        self, x: float, y: float, words: object, size: float = 12, anchor: str = "middle", more: float = 0, kind: str = ""
    ) -> None:
        """Words that stay readable over lines."""
        shift = f' dx="{more:g}"' if more else ""
        named = f' class="{kind.strip()}"' if kind.strip() else ""
        self._parts.append(
            f'<text x="{x:.2f}%" y="{y:.1f}"{shift} font-size="{size:g}" text-anchor="{anchor}"{named}>{escape(str(words))}</text>'
        )

    def upright(self, x: float, y: float, words: object) -> None:
        """Words from below to above, so many points from the left."""
        self._parts.append(
            f'<text x="{x:g}" y="{y:.1f}" font-size="13" text-anchor="middle" transform="rotate(-90 {x:g} {y:.1f})">'
            f"{escape(str(words))}</text>"
        )

    def line(self, start: Tuple[float, float], end: Tuple[float, float], colour: str, width: float = 1, dashes: str = "") -> None:
        """A line between two places."""
        more = f' stroke-dasharray="{dashes}"' if dashes else ""
        self._parts.append(
            f'<line x1="{start[0]:.2f}%" y1="{start[1]:.1f}" x2="{end[0]:.2f}%" y2="{end[1]:.1f}" class="{colour}-line"'
            f' stroke-width="{width:g}"{more}/>'
        )

    def bar(self, x: float, y: float, width: float, height: float, colour: str, said: str) -> None:
        """A filled rectangle, with words for who points at it."""
        self._parts.append(
            f'<rect x="{x:.2f}%" y="{y:.2f}" width="{width:.2f}%" height="{height:.2f}" class="{colour}">'
            f"<title>{escape(said)}</title></rect>"
        )

    def dot(self, x: float, y: float, radius: float, colours: Tuple[str, str], said: str = "", clear: float = 1) -> None:
        """A circle of an inside and an edge, with words for who points at it."""
        inner = f"<title>{escape(said)}</title>" if said else ""
        self._parts.append(
            f'<circle cx="{x:.2f}%" cy="{y:.2f}" r="{radius:.2f}" class="{colours[0]} {colours[1]}-line" fill-opacity="{clear:g}"'
            f' stroke-width="1.5">{inner}</circle>'
        )

    def key(self, words: str, colour: str = "") -> None:
        """What a colour means, below the chart; or something else that is to be said there."""
        self._key.append(f'<li><i class="{colour}"></i>{escape(words)}</li>' if colour else f"<li>{escape(words)}</li>")

    def drawn(self) -> str:
        """The drawing."""
        key = f"<ul class=key>{''.join(self._key)}</ul>\n" if self._key else ""
        chart = "\n".join([*self._parts, "</svg>"])
        return f"<figure{self._class}>\n<figcaption>{escape(self._title)}</figcaption>\n{chart}\n{key}</figure>"


def ticks(most: float, about: int = 6) -> List[int]:
    """Round whole numbers from 0 to the first that is not below the most."""
    step = next(m * 10**power for power in range(20) for m in (1, 2, 5) if most / (m * 10**power) <= about)
    count = max(1, -int(-most // step))
    return [k * step for k in range(count + 1)]


def short(number: int) -> str:
    """A number on an axis: whole thousands and millions in fewer letters."""
    for unit, name in ((10**9, "G"), (10**6, "M"), (10**3, "k")):
        if number >= 10 * unit and number % unit == 0:
            return f"{number // unit:,} {name}"
    return f"{number:,}"


class Field:
    """The inside of a chart with two axes: from numbers to places."""

    def __init__(self, picture: Picture, top: float, high: float) -> None:
        self.picture, self.top, self.high = picture, top, high
        self.across, self.most = 1.0, 1.0

    def x(self, value: float) -> float:
        """Where a number stands across."""
        return 100 * value / self.across

    def y(self, value: float) -> float:
        """How high a number stands."""
        return self.top + self.high - self.high * value / self.most

    def side(self, most: float, name: str, after: str = "", gap: float = 8) -> None:
        """The axis at the left, with lines across; its numbers stand so many points from it."""
        marks = ticks(most)
        self.most = marks[-1]
        for mark in marks:
            self.picture.line((0, self.y(mark)), (100, self.y(mark)), PALE if mark else GREY)
            self.picture.text(0, self.y(mark) + 4, short(mark) + after, 12, "end", more=-gap)
        self.picture.upright(-56, self.top + self.high / 2, name)

    def numbers(self, said: Sequence[Tuple[float, object]], down: float = 18, size: float = 11) -> None:
        """Numbers below the axis, at their places: as many as have room, on a narrow page fewer."""
        longest = max(long(words, size) for _, words in said) + 6
        apart = (said[-1][0] - said[0][0]) / (len(said) - 1) if len(said) > 1 else 1.0
        steps = [m * 10**power for power in range(6) for m in (1, 2, 5)]
        wide = next(step for step in steps if step * apart / self.across * WIDE >= longest)
        narrow = next(step for step in steps if step % wide == 0 and step * apart / self.across * NARROW >= longest)
        for k, (value, words) in enumerate(said):
            if k % wide == 0:
                self.picture.text(self.x(value), self.y(0) + down, words, size, kind="" if k % narrow == 0 else "wide")

    def foot(self, name: str) -> None:
        """The name of the axis below."""
        self.picture.text(50, self.top + self.high + 44, name, 13)


def share(count: int, of: int) -> str:
    """A count with its part of the whole."""
    return f"{count:,} ({100 * count / of:.1f} %)" if of else f"{count:,}"


def answers(counts: Mapping[int, int], meaning: Mapping[int, str], title: str) -> str:
    """How many words have each answer: a bar for each, under what it means."""
    shown = sorted(counts)
    picture = Picture(46 * len(shown), title, axes=False)
    whole, most = sum(counts.values()), max(counts.values(), default=0) or 1
    for k, answer in enumerate(shown):
        y = 46 * k
        part = max(0.3, 58 * counts[answer] / most) if counts[answer] else 0
        picture.text(0, y + 14, f"{answer}: {meaning[answer]}", 13, "start")
        picture.bar(0, y + 20, part, 18, RED if answer else INK, f"answer {answer}: {plural(counts[answer], 'word')}")
        picture.text(part, y + 34, share(counts[answer], whole), 13, "start", more=8)
    return picture.drawn()


def columns(series: Sequence[Tuple[str, str, Mapping[int, int]]], title: str, across: str) -> str:
    """How many words have each number, for several series side by side: (name, colour, counts)."""
    picture = Picture(300, title)
    most = max((value for _, _, counts in series for value in counts), default=0)
    width = -(-(most + 1) // 40)
    bins = most // width + 1
    binned: List[Counts[int]] = []
    for _, _, counts in series:
        binned.append(Counter())
        for value, count in counts.items():
            binned[-1][value // width] += count
    field = Field(picture, 22, 220)
    greatest = max((max(counts.values(), default=0) for counts in binned), default=1) or 1
    field.side(greatest, "words")
    field.across = bins
    part = 0.8 / len(series)
    over = room(part / bins, long(f"{greatest:,}", 11) + 4)
    for s, (name, colour, _) in enumerate(series):
        for value, count in sorted(binned[s].items()):
            x, wide = field.x(value + 0.1 + s * part), 100 * part / bins
            high = max(1.5, field.y(0) - field.y(count))
            said = f"{name} {_binned(value, width)}: {plural(count, 'word')}"
            picture.bar(x, field.y(0) - high, 0.94 * wide, high, colour, said)
            if over is not None:
                picture.text(x + wide / 2, field.y(0) - high - 5, f"{count:,}", 11, kind=GREY + " " + over)
        picture.key(name, colour)
    field.numbers([(value + 0.5, _binned(value, width)) for value in range(bins)])
    field.foot(across)
    return picture.drawn()


def _binned(value: int, width: int) -> str:
    return str(value) if width == 1 else f"{value * width} to {value * width + width - 1}"


def starts(counts: Mapping[Tuple[int, int, bool], int], halved: bool, title: str) -> str:
    """Broken checks at the start against flips, an area for the number of words; and the bound that is proved.

    The bound is the checks broken at the start, or half of them for codes 4 and 5; where the code is not known, the first.
    """
    picture = Picture(370, title)
    bound = 0.5 if halved else 1.0
    broken = max((first for first, _, _ in counts), default=0)
    flips = max((flips for _, flips, _ in counts), default=0)
    field = Field(picture, 22, 290)
    field.side(max(flips, 1), "flips", gap=GREATEST + 4)
    marks = ticks(max(broken, 1), 12)
    field.across = marks[-1]
    for mark in marks:
        picture.line((field.x(mark), field.top), (field.x(mark), field.y(0)), PALE if mark else GREY)
    end = min(field.across, field.most / bound)
    picture.line((0, field.y(0)), (field.x(end), field.y(end * bound)), GREY, 1.5, "6 4")
    cells = counts if len(counts) <= 2000 else _together(counts, field.across / 90, field.most / 45)
    most = max(cells.values(), default=1)
    for (x, y, taken), count in sorted(cells.items(), key=lambda cell: -cell[1]):
        radius = SMALLEST + (GREATEST - SMALLEST) * (count / max(most, 25)) ** 0.5
        said = f"{count:,} {'taken' if taken else 'refused'}: {plural(x, 'broken check')}, {plural(y, 'flip')}"
        picture.dot(field.x(x), field.y(y), radius, TAKEN[taken], said, 0.75)
    field.numbers([(mark, f"{mark:,}") for mark in marks], 24)
    field.foot("broken checks at the start")
    for taken, words in ((True, "taken"), (False, "refused")):
        if any(key[2] == taken for key in counts):
            picture.key(words, " ".join((TAKEN[taken][0], TAKEN[taken][1] + "-edge")))
    picture.key(f"area: number of words, {most:,} at most")
    words = "half of the broken checks" if halved else "the broken checks"
    picture.key(f"no run lies above this line: its flips are at most {words} (proved)", "dashed")
    return picture.drawn()


def _together(counts: Mapping[Tuple[int, int, bool], int], wide: float, high: float) -> Counts[Tuple[int, int, bool]]:
    """The same counts, with points drawn as one that a chart can't tell apart: at their cell's lower right corner, so that none
    comes to lie above the bound."""
    wide, high = max(1, wide), max(1, high)
    cells: Counts[Tuple[int, int, bool]] = Counter()
    for (first, flips, taken), count in counts.items():
        cells[int(-int(-first // wide) * wide), int(int(flips // high) * high), taken] += count
    return cells


def run(first: int, flips: Sequence[Flip], title: str) -> str:
    """A run: the broken checks left after each flip."""
    picture = Picture(290, title)
    field = Field(picture, 46, 190)
    field.side(max(first, 1), "checks still broken")
    field.across = max(1, len(flips))
    heights = [first] + [flip.left for flip in flips]
    for k, (high, low) in enumerate(zip(heights, heights[1:])):
        picture.line((field.x(k), field.y(high)), (field.x(k + 1), field.y(high)), INK, 2)
        picture.line((field.x(k + 1), field.y(high)), (field.x(k + 1), field.y(low)), INK, 2)
    picture.dot(0, field.y(first), 3, (INK, INK))
    seen: Dict[int, int] = {}
    labels = room(1 / len(flips), 62) if flips else None
    again = False
    for k, flip in enumerate(flips, 1):
        back = seen.get(flip.bit, 0) % 2 == 1
        seen[flip.bit] = seen.get(flip.bit, 0) + 1
        again = again or back
        said = f"flip {k}: bit {flip.bit}, excess {flip.excess}, {plural(flip.left, 'check')} left"
        picture.dot(field.x(k), field.y(flip.left), 5 if len(flips) <= 45 else 2.5, ("paper" if back else INK, RED if back else INK), said)
        if labels is not None:
            kind = ("red " if back else "") + labels
            picture.text(field.x(k), field.y(heights[k - 1]) - 20, f"bit {flip.bit}", 11, "end", kind=kind)
            picture.text(field.x(k), field.y(heights[k - 1]) - 7, f"excess {flip.excess}", 10, "end", kind=kind)
    field.numbers([(k, k) for k in range(len(flips) + 1)])
    field.foot("flips made")
    if again:
        picture.key("a bit flipped back", "paper red-edge")
    return picture.drawn()


def outcomes(rows: Sequence[Tuple[int, Mapping[str, int]]], kinds: Sequence[Tuple[str, str]], title: str) -> str:
    """What became of words by their number of wrong bits: a stacked column for each, of (kind, colour)."""
    picture = Picture(310, title)
    field = Field(picture, 14, 240)
    field.side(100, "words", " %")
    field.across = len(rows)
    for k, (wrong, counts) in enumerate(rows):
        whole, below = sum(counts.values()) or 1, 0.0
        for kind, colour in kinds:
            part = 100 * counts.get(kind, 0) / whole
            if part:
                high = field.y(below) - field.y(below + part)
                said = f"{plural(wrong, 'wrong bit')}, {kind}: {counts[kind]:,} of {whole:,}"
                picture.bar(field.x(k + 0.1), field.y(below + part), 80 / len(rows), high, colour, said)
            below += part
    field.numbers([(k + 0.5, wrong) for k, (wrong, _) in enumerate(rows)])
    field.foot("wrong bits in the word")
    for kind, colour in kinds:
        picture.key(kind, colour)
    return picture.drawn()
