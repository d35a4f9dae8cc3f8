"""A progress bar on standard error, where that is a terminal."""
from __future__ import annotations

import os
import time
from typing import Optional

WIDE = 40


class Progress:
    """How much of a total is done; where no total is known, how much. It is drawn at most ten times a second, and removed.

    Where lines go to the same terminal meanwhile, they are the progress, and there is no bar.
    """

    def __init__(self, what: str, total: Optional[int], unit: str = "octets", lines: bool = False) -> None:
        self._what, self._total, self._unit = what, total, unit
        self._shown = os.isatty(2) and not (lines and os.isatty(1))
        self._drawn, self._next = False, time.monotonic() + 0.2

    def __enter__(self) -> Progress:
        return self

    def __exit__(self, *exception: object) -> None:
        if self._drawn:
            self._put("\r\x1b[K")

    def _put(self, text: str) -> None:
        try:
            os.write(2, text.encode("ascii", "replace"))
        except OSError:
            self._shown = False

    def at(self, done: int) -> None:
        """So much is done."""
        now = time.monotonic()
        if not self._shown or now < self._next:
            return
        self._drawn, self._next = True, now + 0.1
        if self._total:
            part = min(1.0, done / self._total)
            bar = ("#" * round(WIDE * part)).ljust(WIDE, ".")
            self._put(f"\r{self._what} [{bar}] {100 * part:3.0f} %\x1b[K")
        else:
            self._put(f"\r{self._what} {done:,} {self._unit}\x1b[K")
