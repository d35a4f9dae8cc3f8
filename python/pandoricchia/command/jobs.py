"""Work on many parts by several processes, results in order, in constant memory."""
from __future__ import annotations

import signal
from collections import deque
from concurrent.futures import Future, ProcessPoolExecutor
from concurrent.futures.process import BrokenProcessPool
from typing import Callable, Deque, Iterable, Iterator, TypeVar

from .files import Failed

_Part = TypeVar("_Part")
_Done = TypeVar("_Done")


def _quiet() -> None:
    """In each process: an interrupt is for the first process alone, which ends the others; a signal to end just ends."""
    signal.signal(signal.SIGINT, signal.SIG_IGN)
    signal.signal(signal.SIGTERM, signal.SIG_DFL)
    signal.signal(signal.SIGHUP, signal.SIG_DFL)


def ordered(work: Callable[[_Part], _Done], parts: Iterable[_Part], jobs: int) -> Iterator[_Done]:
    """The work on each part, in the parts' order. At most two parts for each process are on their way."""
    if jobs == 1:
        yield from map(work, parts)
        return
    pool = ProcessPoolExecutor(jobs, initializer=_quiet)
    waiting: Deque[Future[_Done]] = deque()
    try:
        for part in parts:
            waiting.append(pool.submit(work, part))
            if len(waiting) >= 2 * jobs:
                yield waiting.popleft().result()
        while waiting:
            yield waiting.popleft().result()
    except BrokenProcessPool as error:
        raise Failed("a process of --jobs ended before its work was done") from error
    finally:
        pool.shutdown(wait=True, cancel_futures=True)
