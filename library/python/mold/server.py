"""A re-request server: responses to requests, from a journal or from a live publisher."""
from __future__ import annotations

import ctypes
from ctypes import byref, c_size_t, c_uint64
from typing import Iterator

from .errors import Code, check
from .handle import Handle
from .native import LENGTH_BITS, Buffer, as_bytes, library, mold_plan, unsigned

# The default limit of a datagram in bytes, and the default number of responses to a request.
LIMIT = 1400
BURST = 4


class Responder(Handle):
    """Responds to requests. It is a Server, or a Publisher after a call of `serve`."""

    def __init__(self) -> None:
        super().__init__()
        self._room = ctypes.create_string_buffer(0)

    def first_response(self, request: Buffer) -> bytes:
        """Returns the first response to a request.

        Raises MoldError if the request is refused: with the code REQUEST_LENGTH, WRONG_SESSION, SEQUENCE_ZERO,
        EMPTY_REQUEST or AHEAD, or with BROKEN if a publisher does not serve requests.
        """
        request, number = as_bytes(request), c_uint64()
        code = library.mold_server_answer(self._open(), request, len(request), self._room, len(self._room),
                                          byref(number))
        check(code, number.value)
        return ctypes.string_at(self._room, number.value)

    def responses(self, request: Buffer) -> Iterator[bytes]:
        """Iterates over all responses to a request, at most as many as the burst.

        Raises MoldError as `first_response` does, before the iteration begins.
        """
        request, plan, number = as_bytes(request), mold_plan(), c_uint64()
        code = library.mold_server_plan(self._open(), request, len(request), byref(plan), byref(number))
        check(code, number.value)
        return self._planned(plan)

    def _planned(self, plan: mold_plan) -> Iterator[bytes]:
        """Iterates over the datagrams of a plan."""
        size = c_size_t()
        while True:
            code = library.mold_server_datagram(self._open(), byref(plan), self._room, len(self._room), byref(size))
            if code == Code.ABSENT:
                return
            check(code, size.value)
            yield ctypes.string_at(self._room, size.value)


class Server(Responder):
    """Responds to requests from the bytes of a journal file of version 1, 2 or 3, which it copies.

    A response has at most `limit` bytes, and a request gets at most `burst` responses. Raises MoldError with the code
    LIMIT if the limit is not 64 to 65,507, BURST if the burst is not 1 to 64, or one that `mold_server_new` lists if
    the bytes are not a journal.
    """

    def __init__(self, journal: Buffer, limit: int = LIMIT, burst: int = BURST) -> None:
        super().__init__()
        journal, number = as_bytes(journal), c_uint64()
        code = library.mold_server_new(self._open(), unsigned(limit, LENGTH_BITS, "limit"),
                                       unsigned(burst, 16, "burst"), journal, len(journal), byref(number))
        check(code, number.value)
        self._room = ctypes.create_string_buffer(limit)
