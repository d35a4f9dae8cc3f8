"""A page of HTML as a browser would take it: well made, from nowhere else, and what it says."""
from __future__ import annotations

import json
import re
import shutil
import subprocess
import unittest
from html import unescape
from html.parser import HTMLParser
from pathlib import Path
from typing import List, Optional, Tuple
from xml.etree import ElementTree

from pandoricchia.command import charts

_EMPTY = ("meta", "link")


class Page(HTMLParser):
    """What a page says, its charts apart; an element that is not closed is an error."""

    def __init__(self, test: unittest.TestCase, whole: bytes) -> None:
        super().__init__()
        self.text = ""
        self._test, self._open = test, [""]
        drawings = re.findall(r"<svg.*?</svg>", whole.decode(), re.S)
        self.charts = [ElementTree.fromstring(drawing) for drawing in drawings]
        self.feed(whole.decode())
        self.close()
        test.assertEqual(self._open, [""])

    def handle_starttag(self, tag: str, attrs: List[Tuple[str, Optional[str]]]) -> None:
        self._test.assertNotIn(tag, ("script", "img", "iframe", "object"))
        for name, value in attrs:
            self._test.assertFalse(name in ("src", "href") and not (value or "").startswith("data:"), (tag, name, value))
        if tag not in _EMPTY:
            self._open.append(tag)

    def handle_startendtag(self, tag: str, attrs: List[Tuple[str, Optional[str]]]) -> None:
        """An element of a chart that holds nothing."""

    def handle_endtag(self, tag: str) -> None:
        self._test.assertEqual(self._open.pop(), tag)

    def handle_data(self, data: str) -> None:
        if "style" not in self._open:
            self.text += data

    def titles(self) -> List[str]:
        """The charts' titles."""
        return [str(chart.findtext("{http://www.w3.org/2000/svg}title")) for chart in self.charts]

    def bars(self) -> List[str]:
        """What the charts say of their bars and dots."""
        return [str(title.text) for chart in self.charts for title in list(chart.iter("{http://www.w3.org/2000/svg}title"))[1:]]


Box = Tuple[float, float, float, float]
_SVG = "{http://www.w3.org/2000/svg}"


def _across(element: ElementTree.Element, name: str, width: float) -> float:
    """A place across in points: it is given in parts of a hundred of the chart's width, or in points."""
    value = element.attrib[name]
    return float(value[:-1]) * width / 100 if value.endswith("%") else float(value)


def labels(chart: ElementTree.Element, width: float, narrow: bool) -> List[Tuple[str, Box]]:
    """What a chart of so many points says from left to right, and about where: left, top, right, bottom."""
    found = []
    for text in chart.iter(_SVG + "text"):
        if "transform" not in text.attrib and not (narrow and "wide" in text.attrib.get("class", "").split()):
            x = _across(text, "x", width) + float(text.attrib.get("dx", 0))
            y, size = (float(text.attrib[name]) for name in ("y", "font-size"))
            said = str(text.text)
            wide = 0.55 * size * len(said)
            left = x - wide * {"start": 0, "middle": 0.5, "end": 1}[text.attrib["text-anchor"]]
            found.append((said, (left, y - 0.75 * size, left + wide, y)))
    return found


def dots(chart: ElementTree.Element, width: float) -> List[Box]:
    """The dots of a chart of so many points."""
    found = []
    for dot in chart.iter(_SVG + "circle"):
        x, y, radius = _across(dot, "cx", width), float(dot.attrib["cy"]), float(dot.attrib["r"])
        found.append((x - radius, y - radius, x + radius, y + radius))
    return found


#: Widths of a chart, and whether the page is narrow.
WIDTHS = ((charts.NARROW, True), (278, True), (charts.WIDE, False), (806, False))


def overlap(one: Box, other: Box) -> bool:
    """Whether two boxes have a point in common."""
    return one[0] < other[2] and other[0] < one[2] and one[1] < other[3] and other[1] < one[3]


def browser() -> Optional[str]:
    """A browser that can do without a screen."""
    for name in ("chromium", "chromium-browser", "google-chrome", "chrome"):
        found = shutil.which(name)
        if found:
            return found
    return None


def _headless(profile: Path, *more: str) -> subprocess.CompletedProcess[str]:
    found = browser()
    assert found
    words = [found, "--headless", "--no-sandbox", "--disable-gpu", "--disable-dev-shm-usage", "--no-first-run", "--enable-logging=stderr"]
    return subprocess.run([*words, f"--user-data-dir={profile}", *more], capture_output=True, text=True, timeout=300, check=True)


def shown(page: Path, profile: Path) -> Tuple[str, str]:
    """The document as the browser has it, and what its console says."""
    ran = _headless(profile, "--dump-dom", page.as_uri())
    return ran.stdout, "\n".join(line for line in ran.stderr.splitlines() if "CONSOLE" in line)


#: Looks at a page in a frame of so many points: what stands out of it or lies over something else, and its colours.
_LOOK = """<!DOCTYPE html><meta charset="utf-8">
<body><iframe id="page" src="%s" style="border:0;width:%dpx;height:900px"></iframe><p id="found"></p>
<script>
document.getElementById("page").onload = (event) => {
  const page = event.target.contentDocument, wide = %d, wrong = [];
  const look = (element) => element.getBoundingClientRect();
  const out = (element, what) => { const r = look(element); if (r.left < 0 || r.right > wide + 0.5) wrong.push(what + " stands out"); };
  if (page.documentElement.scrollWidth > wide) wrong.push("the page is " + page.documentElement.scrollWidth + " wide");
  page.querySelectorAll("h1, h2, h3, p, li, figcaption, svg, td, th").forEach((e) => out(e, e.tagName + " " + e.textContent.slice(0, 30)));
  page.querySelectorAll("svg").forEach((chart) => {
    const texts = [...chart.querySelectorAll("text")].filter((t) => look(t).width > 0);
    texts.forEach((t) => out(t, t.textContent));
    texts.forEach((t, k) => texts.slice(0, k).forEach((u) => {
      const a = look(t), b = look(u);
      const apart = a.right <= b.left || b.right <= a.left || a.bottom - 3 <= b.top || b.bottom - 3 <= a.top;
      if (!apart) wrong.push(t.textContent + " lies over " + u.textContent);
    }));
    if (chart.querySelectorAll("rect, circle, line").length < 1) wrong.push("an empty chart");
  });
  const style = (e) => event.target.contentWindow.getComputedStyle(e);
  const colours = [style(page.body).backgroundColor, style(page.body).color];
  document.getElementById("found").textContent = JSON.stringify({wrong: wrong, colours: colours});
};
</script></body>"""


def looked_at(page: Path, profile: Path, width: int, dark: bool = False) -> Tuple[List[str], List[Tuple[int, ...]]]:
    """What is wrong with a page of so many points, and the colours of its ground and its letters."""
    frame = profile.with_name(f"look{width}{dark}.html")
    frame.write_text(_LOOK % (page.as_uri(), width, width), encoding="utf-8")
    more = ["--blink-settings=preferredColorScheme=0"] if dark else []
    ran = _headless(profile, "--allow-file-access-from-files", "--virtual-time-budget=20000", *more, "--dump-dom", frame.as_uri())
    found = json.loads(unescape(re.findall(r'<p id="found">(.*?)</p>', ran.stdout, re.S)[0]))
    return found["wrong"], [tuple(map(int, re.findall(r"\d+", colour)[:3])) for colour in found["colours"]]


def bright(colour: Tuple[int, ...]) -> float:
    """The relative luminance of a colour, as WCAG has it."""
    parts = [part / 255 / 12.92 if part <= 10 else float(((part / 255 + 0.055) / 1.055) ** 2.4) for part in colour]
    return 0.2126 * parts[0] + 0.7152 * parts[1] + 0.0722 * parts[2]


def contrast(one: Tuple[int, ...], other: Tuple[int, ...]) -> float:
    """How far two colours stand apart, 1 to 21; letters should be 4.5 from their ground."""
    low, high = sorted((bright(one), bright(other)))
    return (high + 0.05) / (low + 0.05)
