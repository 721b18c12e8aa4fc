"""A publisher: messages in datagrams, and their journal."""
from __future__ import annotations

import ctypes
from ctypes import byref, c_size_t, c_uint64
from typing import Iterator, Optional, Tuple, Union

from .errors import Code, check
from .native import LENGTH_BITS, Buffer, as_bytes, library, session_of, unsigned
from .server import BURST, LIMIT, Responder


class Publisher(Responder):
    """Sends the messages of a session in datagrams of at most `limit` bytes, and keeps all messages in its journal.

    A message has at most `limit` - 22 bytes. Raises MoldError with the code LIMIT if the limit is not 64 to 65,507.
    """

    def __init__(self, session: Union[str, Buffer], limit: int = LIMIT) -> None:
        super().__init__()
        check(library.mold_publisher_new(self._open(), session_of(session), unsigned(limit, LENGTH_BITS, "limit")))
        self._room = ctypes.create_string_buffer(limit)

    def publish(self, message: Buffer) -> int:
        """Publishes a message, and returns its sequence number.

        Raises MoldError with the code CLOSED if the session is closed, TOO_LONG if the message is longer than the limit
        allows, and NUMBERS if no number is left.
        """
        message, number = as_bytes(message), c_uint64()
        code = library.mold_publisher_publish(self._open(), message, len(message), byref(number))
        check(code, number.value)
        return number.value

    @property
    def is_full(self) -> bool:
        """Whether the unsent messages do not all fit in one datagram.

        To fill datagrams, call `datagram` after each message while this is true. To send without delay, call
        `datagrams` after each message.
        """
        return library.mold_publisher_is_full(self._open())

    def datagram(self) -> Optional[bytes]:
        """Returns a datagram of the unsent messages, in order and as many as fit; None if no message is unsent."""
        size = c_size_t()
        code = library.mold_publisher_datagram(self._open(), self._room, len(self._room), byref(size))
        if code == Code.ABSENT:
            return None
        check(code, size.value)
        return ctypes.string_at(self._room, size.value)

    def datagrams(self) -> Iterator[bytes]:
        """Iterates over datagrams of all unsent messages."""
        return iter(self.datagram, None)

    def heartbeat(self) -> bytes:
        """Returns a heartbeat, with the number of the first unsent message.

        Raises MoldError with the code ABSENT if the session is closed.
        """
        size = c_size_t()
        check(library.mold_publisher_heartbeat(self._open(), self._room, len(self._room), byref(size)), size.value)
        return ctypes.string_at(self._room, size.value)

    def close_session(self) -> None:
        """Closes the session: no more messages can be published. A second call changes nothing.

        Raises MoldError with the code UNSENT if messages are unsent. Its `detail` is their number.
        """
        number = c_uint64()
        check(library.mold_publisher_close(self._open(), byref(number)), number.value)

    def end(self) -> bytes:
        """Returns an end packet. Raises MoldError with the code ABSENT if the session is not closed."""
        size = c_size_t()
        check(library.mold_publisher_end(self._open(), self._room, len(self._room), byref(size)), size.value)
        return ctypes.string_at(self._room, size.value)

    def save(self) -> bytes:
        """Returns the journal as the bytes of a journal file of version 2, which `mold serve` and Server read."""
        size = c_size_t()
        library.mold_publisher_save(self._open(), None, 0, byref(size))
        buffer = ctypes.create_string_buffer(size.value)
        check(library.mold_publisher_save(self._open(), buffer, len(buffer), byref(size)), size.value)
        return buffer.raw

    @classmethod
    def resume(cls, journal: Buffer, limit: int = LIMIT) -> Tuple[Publisher, int]:
        """Makes a publisher that continues the session of a journal file of version 3, from all bytes of the file.

        All messages of the file count as sent. The second result is the offset of the file's shut gate, or of its
        closing record. Raises MoldError, with a code that `mold_publisher_resume` lists, if there is no such journal.
        """
        made, journal, number = cls.__new__(cls), as_bytes(journal), c_uint64()
        super(Publisher, made).__init__()
        code = library.mold_publisher_resume(made._open(), unsigned(limit, LENGTH_BITS, "limit"), journal, len(journal),
                                             byref(number))
        check(code, number.value)
        made._room = ctypes.create_string_buffer(limit)
        return made, number.value

    def journal_head(self) -> bytes:
        """Returns the journal file of this session without messages, of version 3: a head and a shut gate.

        `mold.h` states how a program creates the file and appends to it.
        """
        size = c_size_t()
        check(library.mold_journal_head(self._open(), self._room, len(self._room), byref(size)), size.value)
        return ctypes.string_at(self._room, size.value)

    def journal_records(self, start: int) -> bytes:
        """Returns the records of the messages from number `start` on, and what follows them in the file: a shut gate,
        or the closing record if the session is closed. `mold.h` states how a program writes them to the file.

        Raises MoldError with the code ABSENT if `start` is 0, or above the number of the next message.
        """
        size, start = c_size_t(), unsigned(start, 64, "start")
        code = library.mold_journal_records(self._open(), start, None, 0, byref(size))
        buffer = ctypes.create_string_buffer(size.value)
        if code == Code.ROOM:
            code = library.mold_journal_records(self._open(), start, buffer, len(buffer), byref(size))
        check(code, size.value)
        return buffer.raw

    def serve(self, burst: int = BURST) -> None:
        """Lets the publisher respond to requests too, each with at most `burst` datagrams.

        No response has an unsent message.
        Raises MoldError with the code BURST if the burst is not 1 to 64, and BROKEN if it responds already.
        """
        check(library.mold_server_from_publisher(self._open(), unsigned(burst, 16, "burst")))
