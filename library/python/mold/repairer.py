"""A repairer: a listener that also decides when to request which messages, and from which server."""
from __future__ import annotations

import ctypes
from ctypes import byref, c_uint32, c_uint64, sizeof
from dataclasses import dataclass, fields
from typing import Iterator, NamedTuple, Optional, Tuple, Union

from .errors import Code, check
from .listener import BatchReader, Range, Taken, taken_of
from .native import (REQUEST_LENGTH, Buffer, as_bytes, library, mold_line_stats, mold_range, mold_repair_options,
                     mold_repair_stats, mold_taken, session_of, unsigned)

_DEFAULTS = mold_repair_options()
library.mold_repair_options_default(byref(_DEFAULTS))


@dataclass
class RepairOptions:
    """What a repairer keeps to. The defaults are those of the library. Spans of time are in nanoseconds.

    `mold.h` states the range of each option at `mold_repair_options`.
    """

    next: int = _DEFAULTS.next
    """The number of the first message to deliver."""
    patience: int = _DEFAULTS.patience
    """How long a message has to be missing before it is requested; 0 adapts to the delays between the lines."""
    timeout: int = _DEFAULTS.timeout
    """How long a request waits for a response before it is sent again. Each further request waits twice as long."""
    ceiling: int = _DEFAULTS.ceiling
    """The longest wait."""
    settle: int = _DEFAULTS.settle
    """How long a request still waits after a response without all of its messages."""
    interval: int = _DEFAULTS.interval
    """The time after which another request may be sent."""
    window: int = _DEFAULTS.window
    """How far above a gap messages are stored, in message numbers."""
    bucket: int = _DEFAULTS.bucket
    """The number of requests that may be sent at once."""
    places: int = _DEFAULTS.places
    """The greatest number of requests in flight."""
    servers: int = _DEFAULTS.servers
    """The number of re-request servers."""
    give_up: int = _DEFAULTS.give_up
    """After how many requests without a response missing messages are given up; 0 is never."""
    audit: int = _DEFAULTS.audit
    """The number of delivered messages of which digests are kept."""
    store: int = _DEFAULTS.store
    """The room of the store in bytes, 0 or at least 65,507; 0 is no limit."""

    def _struct(self) -> mold_repair_options:
        """The options as the library reads them. Raises ValueError if one does not fit its field."""
        options = mold_repair_options(size=sizeof(mold_repair_options))
        for field in fields(self):
            bits = 8 * getattr(mold_repair_options, field.name).size
            setattr(options, field.name, unsigned(getattr(self, field.name), bits, field.name))
        return options


class LineStats(NamedTuple):
    """What a line brought to a repairer: the fields of `mold_line_stats`. `late` is in nanoseconds."""

    datagrams: int
    first: int
    again: int
    refused: int
    late: int


class RepairStats(NamedTuple):
    """The statistics of a repairer: the fields of `mold_repair_stats`. `patience` is in nanoseconds."""

    next: int
    known: int
    gap_first: int
    gap_last: int
    missing: int
    stored: int
    patience: int
    requests: int
    answers: int
    useless: int
    lost: int
    contradictions: int
    contradiction: int
    a: LineStats
    b: LineStats


def _line_stats(stats: mold_line_stats) -> LineStats:
    return LineStats(*(getattr(stats, name) for name in LineStats._fields))


class Repairer(BatchReader):
    """Delivers the messages of a session as a Listener does, and requests what is missing.

    It has no clock and no socket. A loop waits for datagrams until `deadline`, takes those that are there, drains the
    batch, and then calls `lost` until it returns None and sends all `requests`. A time is a number of nanoseconds, as
    `time.monotonic_ns` returns it, at most 4611686018427387903. A greater one raises MoldError with the code TIME. A
    time below that of an earlier call counts as that of the earlier call.

    Raises MoldError with the code OPTIONS, NEXT_ZERO or WINDOW if an option is outside its range.
    """

    def __init__(self, session: Union[str, Buffer], options: Optional[RepairOptions] = None) -> None:
        super().__init__()
        struct = (options or RepairOptions())._struct()
        check(library.mold_repairer_new(self._open(), session_of(session), byref(struct)))

    def take(self, now: int, origin: int, datagram: Buffer) -> Taken:
        """Takes a datagram that arrived at the time `now` from Line.A, Line.B or Line.SERVER + k.

        Raises MoldError if the datagram is refused, with a code that `mold_repairer_take` lists.
        """
        datagram = as_bytes(datagram)
        taken = mold_taken()
        code = library.mold_repairer_take(self._open(), unsigned(now, 64, "now"), unsigned(origin, 32, "origin"),
                                          datagram, len(datagram), byref(taken))
        return taken_of(code, taken)

    def poll(self, now: int) -> Optional[Tuple[bytes, int]]:
        """Returns the next request that may be sent at the time `now`, and the index of its server; None if there is
        none. The request counts as sent."""
        request, server = ctypes.create_string_buffer(REQUEST_LENGTH), c_uint32()
        code = library.mold_repairer_poll(self._open(), unsigned(now, 64, "now"), request, byref(server))
        if code == Code.ABSENT:
            return None
        check(code)
        return request.raw, server.value

    def requests(self, now: int) -> Iterator[Tuple[bytes, int]]:
        """Iterates over the requests that may be sent at the time `now`, each with the index of its server.

        A request counts as sent when the iterator returns it.
        """
        return iter(lambda: self.poll(now), None)

    def deadline(self, now: int) -> Optional[int]:
        """Returns the time at which to call `lost` and `poll` next, if no datagram arrives before.

        It is None if no message is missing. If only a datagram can change anything, it may be above
        4611686018427387903.
        """
        deadline = c_uint64()
        code = library.mold_repairer_deadline(self._open(), unsigned(now, 64, "now"), byref(deadline))
        if code == Code.ABSENT:
            return None
        check(code)
        return deadline.value

    def lost(self, now: int) -> Optional[Range]:
        """Gives up the first missing messages, if the option `give_up` allows it at the time `now`, and returns their
        numbers; otherwise None.

        The stored messages that follow join the batch. Raises MoldError with the code BATCH if the batch is not empty.
        """
        lost = mold_range()
        code = library.mold_repairer_lost(self._open(), unsigned(now, 64, "now"), byref(lost))
        if code == Code.ABSENT:
            return None
        check(code)
        return Range(lost.first, lost.last)

    def stats(self) -> RepairStats:
        """Returns the statistics."""
        stats = mold_repair_stats()
        check(library.mold_repairer_stats(self._open(), byref(stats)))
        counts = (getattr(stats, name) for name in RepairStats._fields[:-2])
        return RepairStats(*counts, _line_stats(stats.a), _line_stats(stats.b))
