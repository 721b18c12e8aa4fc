"""Packets and requests, decoded from bytes and encoded. Nothing here holds memory of the library."""
from __future__ import annotations

import ctypes
import enum
from ctypes import byref
from dataclasses import dataclass
from functools import partial
from typing import Callable, Iterable, Iterator, NamedTuple, Tuple, Union

from .errors import check, refusal
from .native import (LENGTH_BITS, REQUEST_LENGTH, SESSION_LENGTH, Buffer, as_bytes, library, mold_packer, mold_packet,
                     mold_request, session_of, unsigned)

# The bytes of a header, and of the length that begins a message block.
HEADER_LENGTH = 20
LENGTH_LENGTH = 2
# The greatest limit of a datagram: the greatest payload of UDP over IPv4.
GREATEST_LIMIT = 65_507


class Kind(enum.IntEnum):
    """The kinds of packets."""

    DATA = 0
    HEARTBEAT = 1
    END = 2


_KINDS = tuple(Kind)
_decode = library.mold_decode


class Packet(NamedTuple):
    """A decoded packet. Its bytes are copies, so the datagram may be changed or reused.

    `sequence` is the number of the first message. A heartbeat has the number of the next message, and an end packet one
    more than the number of messages of the session. Both have no messages.
    """

    session: bytes
    sequence: int
    kind: Kind
    messages: Tuple[bytes, ...]

    @property
    def top(self) -> int:
        """One more than the number of the last message; without messages, `sequence`."""
        return self.sequence + len(self.messages)

    def numbered(self) -> Iterator[Tuple[int, bytes]]:
        """Iterates over the messages, each with its sequence number."""
        return enumerate(self.messages, self.sequence)


# Makes a packet of the tuple of its fields. The constructor of a NamedTuple is written in Python, and takes twice as
# long.
_packet_of: Callable[[Tuple[bytes, int, Kind, Tuple[bytes, ...]]], Packet] = partial(tuple.__new__, Packet)


def _messages(datagram: bytes, count: int) -> Tuple[bytes, ...]:
    """The messages of a datagram that the library has decoded. Their blocks follow the header."""
    messages, at = [], HEADER_LENGTH
    for _ in range(count):
        begin = at + LENGTH_LENGTH
        at = begin + (datagram[at] << 8 | datagram[at + 1])
        messages.append(datagram[begin:at])
    return tuple(messages)


def decode(datagram: Buffer) -> Packet:
    """Decodes a datagram. Its cost is that of a call, and of a copy of each message.

    Raises MoldError with the code SHORT, BLOCK_CUT or TRAILING if the bytes do not encode a packet. Its `detail` is
    then the length, the number of whole message blocks, or the offset of the first byte after the packet.
    """
    datagram = as_bytes(datagram)
    packet = mold_packet()
    code = _decode(datagram, len(datagram), byref(packet))
    if code:
        raise refusal(code, packet.detail)
    messages = _messages(datagram, packet.count)
    return _packet_of((datagram[:SESSION_LENGTH], packet.sequence, _KINDS[packet.kind], messages))


def encode(session: Union[str, Buffer], sequence: int, messages: Iterable[Buffer] = (),
           limit: int = GREATEST_LIMIT) -> bytes:
    """Encodes a data packet, or a heartbeat if there are no messages, of at most `limit` bytes.

    Raises MoldError with the code LIMIT if the limit is not 64 to 65,507, and FULL if the messages do not all fit.
    """
    buffer = ctypes.create_string_buffer(GREATEST_LIMIT)
    packer = mold_packer(ctypes.addressof(buffer), unsigned(limit, LENGTH_BITS, "limit"))
    check(library.mold_packer_start(byref(packer), session_of(session), unsigned(sequence, 64, "sequence")))
    for message in map(as_bytes, messages):
        check(library.mold_packer_add(byref(packer), message, len(message)))
    return ctypes.string_at(buffer, packer.used)


def encode_end(session: Union[str, Buffer], sequence: int) -> bytes:
    """Encodes an end packet, whose number is one more than the number of messages of the session."""
    buffer = ctypes.create_string_buffer(GREATEST_LIMIT)
    packer = mold_packer(ctypes.addressof(buffer), GREATEST_LIMIT)
    check(library.mold_packer_end(byref(packer), session_of(session), unsigned(sequence, 64, "sequence")))
    return ctypes.string_at(buffer, packer.used)


@dataclass(frozen=True)
class Request:
    """A request for `count` messages of a session, from number `sequence` on."""

    session: bytes
    sequence: int
    count: int

    @classmethod
    def decode(cls, datagram: Buffer) -> Request:
        """Decodes a request. Any 20 bytes are a request.

        Raises MoldError with the code REQUEST_LENGTH if there are more or fewer. Its `detail` is their number.
        """
        datagram = as_bytes(datagram)
        request = mold_request()
        check(library.mold_request_decode(datagram, len(datagram), byref(request)), len(datagram))
        return cls(bytes(request.session), request.sequence, request.count)

    def encode(self) -> bytes:
        """Returns the 20 bytes of the request.

        Raises ValueError if the session has more than ten bytes, `sequence` does not fit 64 bits or `count` 16.
        """
        request = mold_request(unsigned(self.sequence, 64, "sequence"), unsigned(self.count, 16, "count"))
        request.session[:] = session_of(self.session)
        buffer = ctypes.create_string_buffer(REQUEST_LENGTH)
        library.mold_request_encode(byref(request), buffer)
        return buffer.raw
