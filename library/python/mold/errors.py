"""The codes of the library, and the exceptions that the calls raise for them."""
from __future__ import annotations

import ctypes
import enum
from ctypes import byref
from typing import Optional

from .native import library, mold_bytes


class Code(enum.IntEnum):
    """A code of `mold.h`, without its prefix `MOLD_E_`."""

    DONE = 0
    SHORT = 1
    BLOCK_CUT = 2
    TRAILING = 3
    LIMIT = 4
    FULL = 5
    BROKEN = 6
    MEMORY = 7
    WRONG_SESSION = 8
    SEQUENCE_ZERO = 9
    PAST_LAST = 10
    END_CONFLICT = 11
    END_BELOW = 12
    PAST_END = 13
    CONFLICT = 14
    LINE = 15
    NEXT_ZERO = 16
    WINDOW = 17
    ABSENT = 18
    CLOSED = 19
    TOO_LONG = 20
    NUMBERS = 21
    UNSENT = 22
    ROOM = 23
    REQUEST_LENGTH = 24
    EMPTY_REQUEST = 25
    AHEAD = 26
    BURST = 27
    FILE_SHORT = 28
    BAD_MAGIC = 29
    BAD_FLAG = 30
    FILE_CUT = 31
    COUNT_DIFFERS = 32
    DAMAGED = 33
    NOT_MISSING = 34
    BATCH = 35
    OPTIONS = 36
    TIME = 37

    @property
    def text(self) -> str:
        """The library's text of the code."""
        text = mold_bytes()
        library.mold_terminated_text(self, byref(text))
        return ctypes.string_at(text.at).decode("ascii")


# The codes with which a number goes.
NUMBERED = frozenset({
    Code.SHORT, Code.BLOCK_CUT, Code.TRAILING, Code.END_CONFLICT, Code.END_BELOW, Code.PAST_END, Code.CONFLICT,
    Code.TOO_LONG, Code.UNSENT, Code.ROOM, Code.REQUEST_LENGTH, Code.AHEAD, Code.FILE_SHORT, Code.BAD_FLAG,
    Code.FILE_CUT, Code.COUNT_DIFFERS, Code.DAMAGED})


class MoldError(Exception):
    """A call was refused. The object that refused it is as before, as `mold.h` states for each call.

    `code` is the reason, and `detail` the number that goes with it, or None. The text is that of the library, followed
    by the number.
    """

    def __init__(self, code: int, detail: Optional[int] = None) -> None:
        super().__init__(code, detail)
        self.code = Code(code)
        self.detail = detail

    def __str__(self) -> str:
        return self.code.text if self.detail is None else f"{self.code.text}: {self.detail}"


def refusal(code: int, detail: int = 0) -> Exception:
    """The exception for a code other than MOLD_DONE, with the number that the call wrote."""
    if code == Code.MEMORY:
        return MemoryError(Code.MEMORY.text)
    return MoldError(code, detail if code in NUMBERED else None)


def check(code: int, detail: int = 0) -> None:
    """Raises the exception for a code other than MOLD_DONE."""
    if code:
        raise refusal(code, detail)
