"""A listener: two lines and the responses of servers, delivered in order."""
from __future__ import annotations

import ctypes
import enum
from ctypes import byref, c_uint64
from typing import List, NamedTuple, Optional, Tuple, Union

from .errors import check, refusal
from .handle import Handle
from .native import (REQUEST_LENGTH, Buffer, as_bytes, library, mold_bytes, mold_range, mold_report, mold_taken,
                     session_of, unsigned)

# How many ranges a call of `mold_listener_ranges` writes, and for how many messages the first array has room.
RANGES_AT_ONCE = 256
LEAST_SLICES = 256
# A mold_bytes is two words: an address and a length.
WORDS = ctypes.sizeof(mold_bytes) // ctypes.sizeof(c_uint64)


class Line(enum.IntEnum):
    """Where a datagram came from. The origin of a response of server k, k from 0, is `Line.SERVER + k`."""

    A = 0
    B = 1
    SERVER = 2


class Range(NamedTuple):
    """The sequence numbers from `first` to `last`, inclusive."""

    first: int
    last: int


class Taken(NamedTuple):
    """What a datagram brought, in messages.

    `delivered` joined the batch: its own and stored ones. `kept` were stored above a gap. `dropped` have to be
    received again: they are above the window, or the store had no room for the datagram.
    """

    delivered: int
    kept: int
    dropped: int


class Report(NamedTuple):
    """What was received on a line: the datagrams that were taken, those that were refused, and the greatest top.

    The lag of the line is `known` of the listener minus `front`.
    """

    datagrams: int
    refused: int
    front: int


def taken_of(code: int, taken: mold_taken) -> Taken:
    """What a datagram brought. Raises MoldError or MemoryError if it was refused."""
    if code:
        raise refusal(code, taken.detail)
    return Taken(taken.delivered, taken.kept, taken.dropped)


class BatchReader(Handle):
    """Reads the batch of a listener or a repairer, and what is missing.

    The batch has the messages that were delivered since `clear` or `drain` was last called. It grows until then.
    """

    def __init__(self) -> None:
        super().__init__()
        self._slices = (c_uint64 * (WORDS * LEAST_SLICES))()

    @property
    def count(self) -> int:
        """The number of messages of the batch."""
        return library.mold_listener_count(self._open())

    @property
    def first(self) -> int:
        """The number of the first message of the batch; 0 if it is empty."""
        return library.mold_listener_first(self._open())

    def messages(self) -> List[bytes]:
        """Returns copies of the messages of the batch, in order. The batch keeps them."""
        count = self.count
        if WORDS * count > len(self._slices):
            self._slices = (c_uint64 * (2 * WORDS * count))()
        library.mold_listener_messages(self._open(), self._slices, count)
        words = self._slices[:WORDS * count]
        # The address of an empty message may not be valid.
        return [ctypes.string_at(at, length) if length else b"" for at, length in zip(words[::WORDS], words[1::WORDS])]

    def clear(self) -> None:
        """Empties the batch."""
        check(library.mold_listener_clear(self._open()))

    def drain(self) -> List[Tuple[int, bytes]]:
        """Returns the messages of the batch, each with its sequence number, and empties the batch."""
        numbered = list(enumerate(self.messages(), self.first))
        self.clear()
        return numbered

    def wanted(self) -> Optional[bytes]:
        """Returns the request for the messages of the first gap, at most 65,534; None if no message is missing."""
        request = ctypes.create_string_buffer(REQUEST_LENGTH)
        return request.raw if library.mold_listener_wanted(self._open(), request) else None

    def ranges(self, start: int = 1) -> List[Range]:
        """Returns the ranges of missing messages with numbers from `start` on, ascending.

        A message is missing if its number is below `known` and it was neither delivered nor stored.
        """
        found: List[Range] = []
        array = (mold_range * RANGES_AT_ONCE)()
        count, start = RANGES_AT_ONCE, unsigned(start, 64, "start")
        while count == RANGES_AT_ONCE:
            count = library.mold_listener_ranges(self._open(), start, array, RANGES_AT_ONCE)
            found += (Range(it.first, it.last) for it in array[:count])
            start = found[-1].last + 1 if count else start
        return found

    @property
    def next(self) -> int:
        """The number of the next message to deliver."""
        return library.mold_listener_next(self._open())

    @property
    def known(self) -> int:
        """The greatest known top: all messages that are known to exist have numbers below it."""
        return library.mold_listener_known(self._open())

    @property
    def finished(self) -> bool:
        """Whether the end of the session is known and all messages below it were delivered."""
        return library.mold_listener_finished(self._open())

    def report(self, line: int) -> Report:
        """Returns what was received on Line.A or Line.B. Raises MoldError with the code LINE for other numbers."""
        report = mold_report()
        check(library.mold_listener_report(self._open(), unsigned(line, 32, "line"), byref(report)))
        return Report(report.datagrams, report.refused, report.front)


class Listener(BatchReader):
    """Delivers the messages of a session in order, from number `next` on.

    A message above a gap is stored if its number is less than N + `window`, where N is the number of the next message.
    The store has room for `store` bytes, those of the stored messages and of their length fields; 0 is no limit. If the
    messages of a datagram that begins above a gap have no room, none of them is stored.
    Raises MoldError with the code NEXT_ZERO if `next` is 0, WINDOW if the window is not 1 to 1,048,576, and OPTIONS if
    the store is 1 to 65,506.
    """

    def __init__(self, session: Union[str, Buffer], next: int = 1, window: int = 1024, store: int = 0) -> None:
        super().__init__()
        check(library.mold_listener_bounded(self._open(), session_of(session), unsigned(next, 64, "next"),
                                            unsigned(window, 32, "window"), unsigned(store, 64, "store")))

    def take(self, line: int, datagram: Buffer) -> Taken:
        """Takes a datagram of Line.A or Line.B, or a response, for which the line is Line.SERVER.

        Raises MoldError if the datagram is refused, with a code that `mold_listener_take` lists. The line's report
        counts it then, and the listener is otherwise as before. Raises MemoryError if an allocation fails.
        """
        datagram = as_bytes(datagram)
        taken = mold_taken()
        code = library.mold_listener_take(self._open(), unsigned(line, 32, "line"), datagram, len(datagram),
                                          byref(taken))
        return taken_of(code, taken)

    def skip(self, to: int) -> None:
        """Gives up all messages below number `to`. All from `next` on have to be missing, and there is at least one.

        The stored messages from `to` up to the next gap join the batch. Raises MoldError with the code BATCH if the
        batch is not empty, and NOT_MISSING if not all of these messages are missing.
        """
        check(library.mold_listener_skip(self._open(), unsigned(to, 64, "to")))
