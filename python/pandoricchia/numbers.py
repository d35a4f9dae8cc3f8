"""The number that each call returns, with its meaning; the header's, which a test holds them to."""
from __future__ import annotations

import enum
from typing import Dict


class Number(enum.IntEnum):
    """What a call returns. Any other than ``DONE`` is a refusal: nothing was written, but for ``list``'s records."""

    DONE = 0
    CODE = 1
    INPUT_LENGTH = 2
    OUTPUT_LENGTH = 3
    LAST_SIX = 4
    STUCK = 5
    LIMIT = 6
    UNSENT = 7
    PARITY = 8
    BROKEN = 9
    PLACES = 10
    NO_START = 11
    NO_TAIL = 12
    NO_BCH_WORD = 13
    LAST_TWO = 14
    OTHER_PARITY = 15
    SAMPLE = 16
    NONE_NEAR = 17
    REACH = 18
    EDITION = 19
    TOO_LONG = 20
    BLOCK_CHECK = 21
    BLOCK_NUMBER = 22
    BLOCK_COUNT = 23

    @property
    def text(self) -> str:
        """What the number means, in a few words."""
        return _TEXTS[self]


_TEXTS: Dict[int, str] = {
    Number.DONE: "done",
    Number.CODE: "code not offered by this call",
    Number.INPUT_LENGTH: "input length differs",
    Number.OUTPUT_LENGTH: "output length differs",
    Number.LAST_SIX: "one of the six last bits set",
    Number.STUCK: "checks broken, no excess above 0",
    Number.LIMIT: "limit reached",
    Number.UNSENT: "an unsent bit became 1",
    Number.PARITY: "quiet, parity not the encoder's",
    Number.BROKEN: "a check is broken",
    Number.PLACES: "more flips than the table has places",
    Number.NO_START: "the whole start is not there",
    Number.NO_TAIL: "what follows is not one or more whole codeblocks and the tail",
    Number.NO_BCH_WORD: "no codeword differs in at most one bit; detect-only: the word is none",
    Number.LAST_TWO: "one of the last two bits set",
    Number.OTHER_PARITY: "parity not the encoder's",
    Number.SAMPLE: "a sample is infinite or not a number",
    Number.NONE_NEAR: "no codeword within the reach",
    Number.REACH: "reach above 3",
    Number.EDITION: "edition not known",
    Number.TOO_LONG: "not whole blocks or more than 128; more than 64,512 octets",
    Number.BLOCK_CHECK: "a block's frame check",
    Number.BLOCK_NUMBER: "a block's number",
    Number.BLOCK_COUNT: "a block's count or filling",
}


def text(number: int) -> str:
    """What a number means, in a few words; of one that no call returns, that there is no such number."""
    return _TEXTS.get(number, "no such number")
