"""A checker: whether captured datagrams are one whole session."""
from __future__ import annotations

from ctypes import byref, c_size_t, c_uint64
from typing import List, NamedTuple, Optional

from .errors import check
from .handle import Handle
from .listener import Range
from .native import Buffer, as_bytes, library, mold_range, mold_verdict


class Verdict(NamedTuple):
    """Whether datagrams are one whole session.

    `messages` is the number of messages of a whole session, and otherwise 0. If the session is not whole, `end` is the
    number of its end packet, or None if none was taken, and `ranges` the number of missing ranges.
    """

    whole: bool
    messages: int
    end: Optional[int]
    ranges: int


class Checker(Handle):
    """Takes the datagrams of a session in any order, and keeps all different messages."""

    def __init__(self) -> None:
        super().__init__()
        check(library.mold_checker_new(self._open()))

    def take(self, datagram: Buffer) -> None:
        """Takes a datagram. The session is that of the first datagram taken.

        Raises MoldError, with a code that `mold_checker_take` lists, exactly if no single session agrees with the
        datagram and with all those taken before. Then nothing changes.
        """
        datagram, number = as_bytes(datagram), c_uint64()
        code = library.mold_checker_take(self._open(), datagram, len(datagram), byref(number))
        check(code, number.value)

    def verdict(self) -> Verdict:
        """Returns whether the datagrams are one whole session: its end is known, and no message below it is missing."""
        verdict = mold_verdict()
        check(library.mold_checker_verdict(self._open(), byref(verdict)))
        return Verdict(bool(verdict.whole), verdict.messages, verdict.end or None, verdict.ranges)

    def ranges(self) -> List[Range]:
        """Returns the missing ranges below the greatest known top, ascending."""
        count = c_size_t()
        check(library.mold_checker_ranges(self._open(), None, 0, byref(count)))
        array = (mold_range * count.value)()
        check(library.mold_checker_ranges(self._open(), array, len(array), byref(count)))
        return [Range(it.first, it.last) for it in array]
