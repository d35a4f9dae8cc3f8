"""The shared library as ctypes sees it: where it is, its records and calls, and how octets are lent to it.

Nothing is computed here. A test holds records and calls to the header.
"""
from __future__ import annotations

import ctypes
import operator
import os
from ctypes import POINTER, c_bool, c_int8, c_size_t, c_ssize_t, c_uint8, c_uint16, c_uint32, c_void_p
from typing import TYPE_CHECKING, Any, Dict, List, Tuple, Type

if TYPE_CHECKING:
    from typing_extensions import Buffer

VERSION = "0.10.0"
MAJOR = int(VERSION.split(".", maxsplit=1)[0])

#: Names the shared library, where neither the package's folder nor the system's loader has it.
ENVIRONMENT = "PANDORICCHIA_LIBRARY"
SONAME = f"libpandoricchia.so.{MAJOR}"


class CheckedRecord(ctypes.Structure):
    _fields_ = [("number", c_uint8), ("broken", c_uint32), ("lowest", c_uint32)]


class AnsweredRecord(ctypes.Structure):
    _fields_ = [("number", c_uint8), ("yes", c_bool), ("evaluated", c_uint32)]


class OpenedRecord(ctypes.Structure):
    _fields_ = [("number", c_uint8), ("lowest", c_uint32), ("octets", c_size_t)]


class CorrectedRecord(ctypes.Structure):
    _fields_ = [
        ("number", c_uint8),
        ("flips", c_uint32),
        ("first", c_uint32),
        ("last", c_uint32),
        ("unlike", c_uint32),
        ("lowest", c_uint32),
    ]


class FliprecordRecord(ctypes.Structure):
    _fields_ = [("bit", c_uint32), ("excess", c_int8), ("left", c_uint32)]


class ListedRecord(ctypes.Structure):
    _fields_ = [
        ("number", c_uint8),
        ("flips", c_uint32),
        ("first", c_uint32),
        ("last", c_uint32),
        ("unlike", c_uint32),
        ("lowest", c_uint32),
        ("bit", c_uint32),
        ("excess", c_int8),
    ]


class SteppedRecord(ctypes.Structure):
    _fields_ = [("number", c_uint8), ("quiet", c_bool), ("bit", c_uint32), ("excess", c_int8)]


class ReachedRecord(ctypes.Structure):
    _fields_ = [("number", c_uint8), ("least", c_uint32), ("bits", c_uint32 * 3)]


class ReadingRecord(ctypes.Structure):
    _fields_ = [("kept", CorrectedRecord), ("code", c_uint8), ("limit", c_uint16), ("place", c_size_t)]


class HandedRecord(ctypes.Structure):
    _fields_ = [("corrected", CorrectedRecord), ("none", c_bool), ("next", ReadingRecord)]


class TakingRecord(ctypes.Structure):
    _fields_ = [("place", c_size_t), ("edition", c_uint8), ("limit", c_uint16), ("octets", c_uint8 * 1020)]


class MadeRecord(ctypes.Structure):
    _fields_ = [("number", c_uint8), ("taker", TakingRecord)]


class TakenRecord(ctypes.Structure):
    _fields_ = [
        ("next", TakingRecord),
        ("taken", c_size_t),
        ("complete", c_bool),
        ("corrected", CorrectedRecord),
        ("word", c_uint8 * 1020),
    ]


class MendedRecord(ctypes.Structure):
    _fields_ = [("number", c_uint8), ("mended", c_uint8)]


class ImportedRecord(ctypes.Structure):
    _fields_ = [("number", c_uint8), ("block", c_uint32)]


# Octets are an address and their number; so are samples and records.
_OCTETS: List[Any] = [c_void_p, c_size_t]

#: What each call gives and takes, under its name without ``pandoricchia_``.
CALLS: Dict[str, Tuple[Any, List[Any]]] = {
    "version": (c_uint32, []),
    "word_octets": (c_size_t, [c_uint8]),
    "information_octets": (c_size_t, [c_uint8]),
    "encode": (c_uint8, [c_uint8, *_OCTETS, *_OCTETS]),
    "check": (CheckedRecord, [c_uint8, *_OCTETS]),
    "quick": (AnsweredRecord, [c_uint8, *_OCTETS]),
    "open": (OpenedRecord, [c_uint8, *_OCTETS]),
    "correct": (CorrectedRecord, [c_uint8, *_OCTETS, c_uint16, *_OCTETS]),
    "correct_samples": (CorrectedRecord, [c_uint8, *_OCTETS, c_uint16, *_OCTETS]),
    "list": (ListedRecord, [c_uint8, *_OCTETS, c_uint16, *_OCTETS]),
    "step": (SteppedRecord, [c_uint8, *_OCTETS, *_OCTETS]),
    "nearest": (ReachedRecord, [*_OCTETS, c_uint8, *_OCTETS]),
    "unit_octets": (c_size_t, [c_uint8, c_size_t]),
    "write_unit": (c_uint8, [c_uint8, *_OCTETS, *_OCTETS]),
    "reader": (ReadingRecord, [c_uint8, *_OCTETS, c_uint16]),
    "read": (HandedRecord, [ReadingRecord, *_OCTETS, *_OCTETS]),
    "taker": (TakingRecord, [c_uint16]),
    "taker_for": (MadeRecord, [c_uint8, c_uint16]),
    "take": (TakenRecord, [TakingRecord, *_OCTETS]),
    "bch_encode": (c_uint8, [*_OCTETS, *_OCTETS]),
    "bch_check": (MendedRecord, [c_bool, *_OCTETS, *_OCTETS]),
    "import_blocks": (ImportedRecord, [*_OCTETS, *_OCTETS]),
    "imported_octets": (c_size_t, [*_OCTETS]),
    "export_blocks": (c_uint8, [*_OCTETS, *_OCTETS]),
    "exported_octets": (c_size_t, [c_size_t]),
}


def _named() -> str:
    """The library's name for the loader: the environment's, else one in the package's folder, else the system's."""
    named = os.environ.get(ENVIRONMENT)
    beside = os.path.join(os.path.dirname(__file__), SONAME)
    return named or (beside if os.path.exists(beside) else SONAME)


def declare(library: ctypes.CDLL, prefix: str, calls: Dict[str, Tuple[Any, List[Any]]]) -> None:
    """Tells ctypes what the calls give and take."""
    for name, (gives, takes) in calls.items():
        function = getattr(library, prefix + name)
        function.restype, function.argtypes = gives, takes


def written(version: int) -> str:
    """A version as it is written: its major, minor and patch number."""
    return f"{version >> 16}.{version >> 8 & 255}.{version & 255}"


def load() -> ctypes.CDLL:
    """The shared library, its calls declared. ImportError where there is none, or where it has other records, or lacks a call."""
    name = _named()
    try:
        library = ctypes.CDLL(name)
    except OSError as error:
        from ._machine import other_machine  # pylint: disable=import-outside-toplevel

        unknown = f"{error}. `make lib` writes it and `make install` installs it; where the loader does not look, name the file in {ENVIRONMENT}."
        raise ImportError(f"the shared library of pandoricchia can't be loaded: {other_machine(name) or unknown}") from error
    missing = [call for call in CALLS if not hasattr(library, "pandoricchia_" + call)]
    if "version" in missing:
        raise ImportError(f"{name} is no library of version {VERSION}: it does not tell its version")
    declare(library, "pandoricchia_", {call: kinds for call, kinds in CALLS.items() if call not in missing})
    version = library.pandoricchia_version()  # before any record comes from it
    if version >> 16 != MAJOR:
        raise ImportError(f"{name} is no library of version {VERSION}: it is {written(version)}, whose records are others")
    if missing:
        raise ImportError(f"{name} is no library of version {VERSION}: it is {written(version)}, and has no call {missing[0]}")
    return library


class _Place(ctypes.Structure):
    """Dl_info."""

    _fields_ = [("file", ctypes.c_char_p), ("base", c_void_p), ("symbol", ctypes.c_char_p), ("address", c_void_p)]


def file_of(library: ctypes.CDLL) -> str:
    """The file that the loader took for the library."""
    place = _Place()
    ctypes.CDLL(None).dladdr(ctypes.cast(library.pandoricchia_version, c_void_p), ctypes.byref(place))
    return os.path.realpath(os.fsdecode(place.file or b""))


class _Library:
    """The library's calls. It is loaded when the first is asked for: help, and what is made of logs, do without it."""

    def __getattr__(self, name: str) -> Any:
        if not name.startswith("pandoricchia_"):
            raise AttributeError(name)
        library = load()
        for call in CALLS:
            setattr(self, "pandoricchia_" + call, getattr(library, "pandoricchia_" + call))
        return getattr(library, name)


LIBRARY = _Library()


# Lending octets. The buffer protocol gives the address of an object's own octets, read-only or not, and holds the object in
# place until they are given back; ctypes's `from_buffer` would ask for writable octets even where they are only read.


class _View(ctypes.Structure):
    """Py_buffer, as CPython has had it since 3.3."""

    _fields_ = [
        ("buf", c_void_p),
        ("obj", c_void_p),
        ("len", c_ssize_t),
        ("itemsize", c_ssize_t),
        ("readonly", ctypes.c_int),
        ("ndim", ctypes.c_int),
        ("format", ctypes.c_char_p),
        ("shape", POINTER(c_ssize_t)),
        ("strides", POINTER(c_ssize_t)),
        ("suboffsets", POINTER(c_ssize_t)),
        ("internal", c_void_p),
    ]


# By item, not by attribute: so these are our own, and what another module declares does not change them.
_get_buffer = ctypes.pythonapi["PyObject_GetBuffer"]
_get_buffer.argtypes, _get_buffer.restype = [ctypes.py_object, POINTER(_View), ctypes.c_int], ctypes.c_int
_release = ctypes.pythonapi["PyBuffer_Release"]
_release.argtypes, _release.restype = [POINTER(_View)], None
_SIMPLE, _WRITABLE = 0, 1


class Lent:
    """An object's octets for the length of a ``with`` block: their address and their number. Nothing is copied.

    The object may be anything with the buffer protocol that is contiguous in C's order; TypeError, BufferError or ValueError,
    as the object itself has it, where it is not, or where it can't be written and should be.
    """

    __slots__ = ("_view", "address", "octets")

    def __init__(self, buffer: Buffer, *, writable: bool = False) -> None:
        self._view = _View()
        _get_buffer(buffer, self._view, _WRITABLE if writable else _SIMPLE)
        self.address: int = self._view.buf or 0
        self.octets: int = self._view.len

    def __enter__(self) -> Lent:
        return self

    def __exit__(self, *exception: object) -> None:
        _release(self._view)

    def apart(self, other: Lent) -> None:
        """ValueError if the two overlap: what a call reads must not overlap what it writes."""
        first, last = max(self.address, other.address), min(self.address + self.octets, other.address + other.octets)
        if first < last:
            raise ValueError("the octets that are read overlap those that are written")


def fit(name: str, value: int, kind: Type[Any]) -> int:
    """The value as an int; OverflowError where C's type can't hold it, which ctypes would cut off instead."""
    number = operator.index(value)
    most = (1 << 8 * ctypes.sizeof(kind)) - 1
    if not 0 <= number <= most:
        raise OverflowError(f"{name} is {number}, and must be 0 to {most}")
    return number
