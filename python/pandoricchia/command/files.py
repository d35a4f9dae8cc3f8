"""What the command reads and writes: inputs in parts, outputs that come into place when they are whole, failures in a line."""
from __future__ import annotations

import errno
import os
import stat
import sys
from types import TracebackType
from typing import Optional, Type


class Failed(Exception):
    """Bad usage, or a read or write that failed: one line on standard error, and status 2."""


class Refusal(Exception):
    """A refusal of the whole input: one line on standard error, and status 1. No output is left."""


class ClosedPipe(Exception):
    """Nobody reads what is written any more: the command ends as the bench programs do, by the system's signal."""


def reason(error: OSError) -> str:
    """The system's own words."""
    return os.strerror(error.errno) if error.errno else str(error)


def printable(given: str) -> str:
    """What an argument says, for a page: octets of it that are no text are shown by their numbers, as \\xff."""
    return given.encode("utf-8", "surrogateescape").decode("utf-8", "backslashreplace")


def plural(count: int, word: str) -> str:
    """So many of them, in words of a sentence."""
    return f"{count:,} {word}" if count == 1 else f"{count:,} {word}s"


#: So many octets of an input are looked at before all others: a recording's head, or the first line of a log.
FIRST = 64


class Source:
    """An input that is read in order: a file, or standard input for no name or ``-``."""

    def __init__(self, name: Optional[str]) -> None:
        standard = name is None or name == "-"
        self.name = "standard input" if name is None or name == "-" else name
        #: Octets read so far.
        self.place = 0
        self._descriptor = 0
        self._first: Optional[bytes] = None
        self._held = b""
        if not standard:
            try:
                self._descriptor = os.open(self.name, os.O_RDONLY)
            except OSError as error:
                raise Failed(f"{self.name}: {reason(error)}") from error

    def __enter__(self) -> Source:
        return self

    def __exit__(self, *exception: object) -> None:
        if self._descriptor:
            os.close(self._descriptor)

    @property
    def size(self) -> Optional[int]:
        """How many octets there are, read or not, where that is known; a shell may have read some of standard input before."""
        found = os.fstat(self._descriptor)
        if not stat.S_ISREG(found.st_mode):
            return None
        return found.st_size - os.lseek(self._descriptor, 0, os.SEEK_CUR) + self.place + len(self._held)

    def first(self) -> bytes:
        """The first octets of all, a line's worth, read already or not; fewer where there are no more."""
        if self._first is None:
            self._first = self._held = self._taken(FIRST)
        return self._first

    def read(self, most: int) -> bytes:
        """So many octets; fewer at the input's end alone."""
        self.first()
        held, self._held = self._held[:most], self._held[most:]
        octets = held + self._taken(most - len(held))
        self.place += len(octets)
        return octets

    def _taken(self, most: int) -> bytes:
        parts, got = [], 0
        while got < most:
            try:
                part = os.read(self._descriptor, min(most - got, 1 << 20))
            except OSError as error:
                raise Failed(f"{self.name}: {reason(error)}") from error
            if not part:
                break
            parts.append(part)
            got += len(part)
        return parts[0] if len(parts) == 1 else b"".join(parts)


def no_words(source: Source) -> Refusal:
    """What is said of an input in which nothing was received."""
    return Refusal(f"{source.name}: no words in it: nothing was received")


class Sink:
    """Where octets go: standard output, or a file that comes into place when the ``with`` block ends well.

    Until then it has another name beside its own, so a run that fails loses nothing that was there. What is no plain file, as
    a pipe or a terminal with a name, is written as it is.
    """

    def __init__(self, name: Optional[str]) -> None:
        self.name = "standard output" if name is None or name == "-" else name
        self._descriptor, self._path, self._part = 1, "", ""
        if name is not None and name != "-":
            self._begin(name)

    def _begin(self, name: str) -> None:
        try:
            mode: Optional[int] = None
            if os.path.exists(name):
                found = os.stat(name)
                if not stat.S_ISREG(found.st_mode):
                    self._descriptor = os.open(name, os.O_WRONLY)  # a shell's /dev/fd/63 has no other name
                    return
                if not os.access(name, os.W_OK):
                    raise PermissionError(errno.EACCES, "")
                mode = stat.S_IMODE(found.st_mode)
            path = os.path.realpath(name)
            folder, last = os.path.split(path)
            part = os.path.join(folder, f".{last}.{os.getpid()}.part")
            self._descriptor = os.open(part, os.O_WRONLY | os.O_CREAT | os.O_EXCL, 0o666)
            self._path, self._part = path, part
            if mode is not None:
                os.chmod(part, mode)
        except OSError as error:
            self._discard()
            raise Failed(f"{self.name}: {reason(error)}") from error

    def _close(self) -> None:
        descriptor, self._descriptor = self._descriptor, 1
        if descriptor > 2:
            os.close(descriptor)

    def _discard(self) -> None:
        if self._part:
            os.unlink(self._part)
            self._part = ""
        self._close()

    def __enter__(self) -> Sink:
        return self

    def __exit__(
        self, kind: Optional[Type[BaseException]], error: Optional[BaseException], trace: Optional[TracebackType]
    ) -> None:
        if kind is not None:
            self._discard()
            return
        try:
            self._close()  # which may be where a full disk shows
            if self._part:
                os.replace(self._part, self._path)
                self._part = ""
        except OSError as failed:
            self._discard()
            raise Failed(f"{self.name}: {reason(failed)}") from failed

    def write(self, octets: bytes) -> None:
        """Writes all of them."""
        rest = memoryview(octets)
        while rest:
            try:
                rest = rest[os.write(self._descriptor, rest):]
            except BrokenPipeError as error:
                raise ClosedPipe from error
            except OSError as error:
                raise Failed(f"{self.name}: {reason(error)}") from error


class Nowhere(Sink):
    """For an output that was not asked for."""

    def __init__(self) -> None:  # pylint: disable=super-init-not-called
        self.name, self._descriptor, self._path, self._part = "nowhere", 1, "", ""

    def write(self, octets: bytes) -> None:
        """Drops them."""


def _prints_to(name: str) -> bool:
    """Whether a name is standard output's own: a file or a pipe in which a log and octets would mix, or one push the other out."""
    try:
        found = os.stat(name)
        return os.path.samestat(found, os.fstat(1)) and (stat.S_ISREG(found.st_mode) or stat.S_ISFIFO(found.st_mode))
    except OSError:
        return False


def kept(name: Optional[str]) -> Sink:
    """The output of a verb whose log goes to standard output: the file that is named, which is another, or none."""
    if name is not None and (name == "-" or _prints_to(name)):
        raise Failed(f"--output {name}: that is standard output, where what is printed goes")
    return Nowhere() if name is None else Sink(name)


def octets_out(name: Optional[str]) -> Sink:
    """The output of a verb that writes octets: a file or standard output, which must be no terminal."""
    if (name is None or name == "-") and os.isatty(1):
        raise Failed("standard output is a terminal, and what is written are octets: name a file with --output, or a pipe")
    return Sink(name)


def say(line: str) -> None:
    """A line on standard error; where that is closed, nobody is told."""
    try:
        os.write(2, (line + "\n").encode(sys.getfilesystemencoding(), "surrogateescape"))
    except OSError:
        pass
