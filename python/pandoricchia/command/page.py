"""One page of HTML that needs nothing else: its style, its tables, and where the numbers come from."""
from __future__ import annotations

from html import escape
from typing import Iterable, Mapping, Sequence

from .._library import VERSION

NAMES = {1: "(128,64)", 2: "(256,128)", 3: "(512,256)", 4: "(8176,7154)", 5: "(8160,7136)"}

#: The colours, on a light page and on a dark one, which the browser asks for; paper is light. Each is a class of a chart's fillings,
#: and with -line of its lines.
LIGHT = {
    "paper": "#ffffff", "text": "#222222", "grey": "#555555", "pale": "#d5dbe1", "ink": "#16365c", "light": "#8fb0d3", "red": "#b3261e",
    "rose": "#efb8b1", "amber": "#d99a2b",
}
DARK = {
    "paper": "#15191e", "text": "#dde2e8", "grey": "#a3acb7", "pale": "#3a434e", "ink": "#8ab4e8", "light": "#44688f", "red": "#f28b82",
    "rose": "#7d3a36", "amber": "#d9a441",
}


def _colours(chosen: Mapping[str, str]) -> str:
    return ":root { " + " ".join(f"--{name}: {colour};" for name, colour in chosen.items()) + " }"


def _classes() -> str:
    """Fillings and lines of charts, and what stands before their words below them: a square, or a ring."""
    rules = []
    for name in LIGHT:
        rules += [f".{name} {{ fill: var(--{name}); }}", f".{name}-line {{ stroke: var(--{name}); }}"]
        rules += [f".key i.{name} {{ background: var(--{name}); }}"]
        rules += [f".key i.{name}-edge {{ border-radius: 50%; box-shadow: inset 0 0 0 1.5px var(--{name}); }}"]
    return "\n".join(rules)


STYLE = f"""
{_colours(LIGHT)}
@media screen and (prefers-color-scheme: dark) {{ {_colours(DARK)} }}
:root {{ color-scheme: light dark; }}
body {{ font: 16px/1.5 Helvetica, Arial, sans-serif; color: var(--text); background: var(--paper); max-width: 56rem; margin: 2rem auto;
       padding: 0 1rem; }}
h1 {{ font-size: 1.6rem; line-height: 1.25; color: var(--ink); margin-bottom: 0.2rem; }}
h2 {{ font-size: 1.2rem; color: var(--ink); margin-top: 2.2rem; border-bottom: 1px solid var(--pale); padding-bottom: 0.2rem; }}
h3 {{ font-size: 1.05rem; margin-top: 1.6rem; }}
figure {{ margin: 1rem 0; }}
figure.axes svg {{ margin-left: 4.6rem; width: calc(100% - 5.6rem); }}
figure.axes .key {{ margin-left: 4.6rem; }}
figcaption {{ font-weight: 600; font-size: 0.95rem; margin-bottom: 0.4rem; }}
svg {{ display: block; width: 100%; overflow: visible; }}
svg text {{ font-family: Helvetica, Arial, sans-serif; stroke: var(--paper); stroke-width: 3px; paint-order: stroke; }}
svg text:not([class]), svg text.wide {{ fill: var(--text); }}
.key {{ list-style: none; padding: 0; margin: 0.3rem 0 0; font-size: 0.82rem; display: flex; flex-wrap: wrap; gap: 0.1rem 1.2rem; }}
.key i {{ display: inline-block; width: 0.75rem; height: 0.75rem; margin-right: 0.4rem; vertical-align: -0.06rem; }}
{_classes()}
.key i.dashed {{ width: 1.6rem; height: 0; border-top: 2px dashed var(--grey); vertical-align: 0.25rem; }}
.scroll {{ overflow-x: auto; margin: 0.8rem 0; }}
table {{ border-collapse: collapse; font-size: 0.9rem; }}
th, td {{ padding: 0.2rem 0.8rem; text-align: right; border-bottom: 1px solid var(--pale); vertical-align: top; }}
th {{ color: var(--ink); font-weight: 600; }}
.words {{ text-align: left; }}
.facts {{ display: flex; flex-wrap: wrap; gap: 0.8rem; padding: 0; margin: 1rem 0; list-style: none; }}
.facts li {{ border: 1px solid var(--pale); border-radius: 5px; padding: 0.4rem 1rem; }}
.facts b {{ display: block; font-size: 1.5rem; color: var(--ink); }}
.facts .bad {{ border-color: var(--red); }}
.facts .bad b {{ color: var(--red); }}
.small {{ color: var(--grey); font-size: 0.88rem; overflow-wrap: anywhere; }}
code {{ font-size: 0.92em; }}
summary {{ cursor: pointer; color: var(--ink); }}
@media screen and (max-width: 40rem) {{
  body {{ margin: 1rem auto; }}
  h1 {{ font-size: 1.35rem; }}
  th, td {{ padding: 0.2rem 0.35rem; }}
  table {{ font-size: 0.8rem; }}
  .facts {{ gap: 0.5rem; }}
  .facts li {{ padding: 0.3rem 0.7rem; }}
  .facts b {{ font-size: 1.25rem; }}
  svg .wide {{ display: none; }}
}}
@media print {{
  @page {{ margin: 16mm; }}
  body {{ font-size: 10.5pt; margin: 0; padding: 0; max-width: none; }}
  figure, tr, .facts {{ break-inside: avoid; }}
  h2, h3 {{ break-after: avoid; }}
  svg *, .key i {{ print-color-adjust: exact; -webkit-print-color-adjust: exact; }}
}}
"""


def table(columns: Sequence[str], rows: Iterable[Sequence[object]], words: Sequence[int] = ()) -> str:
    """A table; the columns with these numbers hold words, the others numbers."""

    def cell(kind: str, k: int, value: object) -> str:
        shown = f"{value:,}" if isinstance(value, int) else escape(str(value))
        return f"<{kind}{' class=words' if k in words else ''}>{shown}</{kind}>"

    head = "".join(cell("th", k, column) for k, column in enumerate(columns))
    body = "\n".join(f"<tr>{''.join(cell('td', k, value) for k, value in enumerate(row))}</tr>" for row in rows)
    return f"<div class=scroll><table>\n<thead><tr>{head}</tr></thead>\n<tbody>\n{body}\n</tbody>\n</table></div>"


def facts(entries: Iterable[Sequence[object]]) -> str:
    """A few numbers in boxes: (number, words, whether it is a bad sign)."""
    items = (f"<li{' class=bad' if bad else ''}><b>{escape(str(number))}</b>{escape(str(words))}</li>" for number, words, bad in entries)
    return f"<ul class=facts>{''.join(items)}</ul>"


def section(title: str, *parts: str) -> str:
    """A heading and what stands under it."""
    inner = "\n".join(part for part in parts if part)
    return f"<section>\n<h2>{escape(title)}</h2>\n{inner}\n</section>"


def page(title: str, under: str, sections: Iterable[str]) -> str:
    """The whole page."""
    inner = "\n".join(sections)
    return f"""<!DOCTYPE html>
<html lang="en">
<head>
<meta charset="utf-8">
<meta name="viewport" content="width=device-width, initial-scale=1">
<meta name="generator" content="pandoricchia {VERSION}">
<link rel="icon" href="data:,">
<title>{escape(title)}</title>
<style>{STYLE}</style>
</head>
<body>
<h1>{escape(title)}</h1>
<p class=small>{under}</p>
{inner}
<p class=small>Made by <code>pandoricchia</code> {VERSION}. This page, like the command that made it, stands outside the proofs; its
numbers are the library's or the log's.</p>
</body>
</html>
"""
