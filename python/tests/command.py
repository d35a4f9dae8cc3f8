"""The command run in this process, its standard streams files for that long; or as a process of its own."""
from __future__ import annotations

import os
import pathlib
import subprocess
import sys
import tempfile
from typing import Any, List, NamedTuple, Union

from pandoricchia.command.entry import run

TOP = pathlib.Path(__file__).resolve().parents[2]
SAMPLES = TOP / "samples"
# The logs of recordings and streams; a run that is drawn for the auditor has another.
LOGS = [log for log in sorted(SAMPLES.glob("*.log")) if any(log.with_suffix(end).exists() for end in (".bin", ".stream"))]


class Ran(NamedTuple):
    """What came of it."""

    status: int
    out: bytes
    said: str


def command(*arguments: object, given: bytes = b"") -> Ran:
    """Runs the command with these arguments on this standard input."""
    kept = [os.dup(descriptor) for descriptor in (0, 1, 2)]
    files = [tempfile.TemporaryFile() for _ in kept]
    try:
        files[0].write(given)
        files[0].seek(0)
        for descriptor, file in enumerate(files):
            os.dup2(file.fileno(), descriptor)
        status = run([str(argument) for argument in arguments])
    finally:
        for descriptor, before in enumerate(kept):
            os.dup2(before, descriptor)
            os.close(before)
    written: List[bytes] = []
    for file in files:
        file.seek(0)
        written.append(file.read())
        file.close()
    return Ran(status, written[1], written[2].decode())


def process(*arguments: object, **more: Any) -> subprocess.Popen[bytes]:
    """The command as a process of its own; arguments may be octets that are no text."""
    environment = {**os.environ, "PYTHONPATH": str(TOP / "python"), **more.pop("env", {})}
    words: List[Union[str, bytes]] = [argument if isinstance(argument, bytes) else str(argument) for argument in arguments]
    return subprocess.Popen([sys.executable, "-m", "pandoricchia", *words], env=environment, **more)
