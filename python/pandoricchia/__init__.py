"""Encoding, checking, opening and correcting words of five CCSDS LDPC codes, over the shared library of Pandoricchia.

    code  name          word octets  information octets  checks
    1     (128,64)               16                   8      64
    2     (256,128)              32                  16     128
    3     (512,256)              64                  32     256
    4     (8176,7154)          1022                 895    1022
    5     (8160,7136)          1020                 892    1022

The calls are the header's, with its names. They take any object with the buffer protocol, read and write its octets where
they are, and return named tuples; a refused call returns its ``Number`` and writes nothing, but for ``list``, which
writes its records with 5 to 8 too. ``Reader`` goes through the codeblocks of a transmission unit, ``Taker`` through the words of
a telemetry stream. ``pandoricchia.raising`` has the same calls with outputs made for the caller, and raises ``Refused``.

Two calls have a name that Python has too. ``from pandoricchia import *`` leaves them out, and so does the list below:

    open(code, word) -> Opened                  a codeword's information: how many of its leading octets
    list(code, word, limit, table) -> Listed    correct's run, with a record for each flip in the table

What is proved is proved of the library. This package stands outside the proofs; what it computes it asks of the library.

The shared library is loaded at the first call: the one that the environment variable PANDORICCHIA_LIBRARY names, else one in
this package's folder, else the system's. ``pandoricchia.command`` is the command for a shell.
"""
import builtins as _builtins
import types as _types

from ._library import VERSION as VERSION
from .calls import bch_check as bch_check
from .calls import bch_encode as bch_encode
from .calls import check as check
from .calls import correct as correct
from .calls import correct_samples as correct_samples
from .calls import encode as encode
from .calls import export_blocks as export_blocks
from .calls import exported_octets as exported_octets
from .calls import flip_records as flip_records
from .calls import flip_table as flip_table
from .calls import import_blocks as import_blocks
from .calls import imported_octets as imported_octets
from .calls import information_octets as information_octets
from .calls import list as list  # pylint: disable=redefined-builtin
from .calls import nearest as nearest
from .calls import open as open  # pylint: disable=redefined-builtin
from .calls import quick as quick
from .calls import read as read
from .calls import reader as reader
from .calls import step as step
from .calls import take as take
from .calls import taker as taker
from .calls import taker_for as taker_for
from .calls import unit_octets as unit_octets
from .calls import version as version
from .calls import word_octets as word_octets
from .calls import write_unit as write_unit
from .numbers import Number as Number
from .numbers import text as text
from .raising import Refused as Refused
from .reading import Block as Block
from .reading import Reader as Reader
from .reading import Taker as Taker
from .reading import Word as Word
from .results import Answered as Answered
from .results import Checked as Checked
from .results import Corrected as Corrected
from .results import FlipRecord as FlipRecord
from .results import Handed as Handed
from .results import Imported as Imported
from .results import Listed as Listed
from .results import Made as Made
from .results import Mended as Mended
from .results import Opened as Opened
from .results import Reached as Reached
from .results import Reading as Reading
from .results import Stepped as Stepped
from .results import Taken as Taken
from .results import Taking as Taking

__version__ = VERSION

__all__ = [
    name
    for name, value in globals().items()
    if name[0] != "_" and not isinstance(value, _types.ModuleType) and not hasattr(_builtins, name)
]
