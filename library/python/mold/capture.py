"""Reads the UDP datagrams of capture files, in pure Python. `mold.h` reads no files."""
from __future__ import annotations

import os
import struct
from functools import partial
from socket import IPPROTO_UDP, inet_ntoa
from typing import BinaryIO, Callable, Dict, Iterator, List, NamedTuple, Optional, Tuple, Union

# An IPv4 address and a port, as the module `socket` has them.
Address = Tuple[str, int]
# A frame: its time, its link type and its bytes.
Frame = Tuple[int, int, bytes]

BILLION = 10**9
# The first bytes of a classic file, each with the byte order and the nanoseconds of a unit of its times.
MAGICS = {b"\xd4\xc3\xb2\xa1": ("<", 1000), b"\xa1\xb2\xc3\xd4": (">", 1000),
          b"\x4d\x3c\xb2\xa1": ("<", 1), b"\xa1\xb2\x3c\x4d": (">", 1)}
# The kinds of blocks of a pcapng file, and the first field of a section in each byte order.
SECTION, INTERFACE, SIMPLE_PACKET, ENHANCED_PACKET = 0x0A0D0D0A, 1, 3, 6
ORDERS = {b"\x4d\x3c\x2b\x1a": "<", b"\x1a\x2b\x3c\x4d": ">"}
END_OF_OPTIONS, RESOLUTION, OFFSET = 0, 9, 14
LONGEST_FRAME, LONGEST_BLOCK = 262_144, 327_680
# The link types: Ethernet, raw IP, Linux cooked capture and BSD loopback. Each has the bytes before the packet, and the
# offset of the protocol's number in them, if it is there.
LINKS: Dict[int, Tuple[int, Optional[int]]] = {
    1: (14, 12), 101: (0, None), 228: (0, None), 113: (16, 14), 276: (20, 0), 0: (4, None), 108: (4, None)}
TAGS, MOST_TAGS = (b"\x81\x00", b"\x88\xa8", b"\x91\x00"), 2
IPV4_PROTOCOL = b"\x08\x00"
# Of an IPv4 header: version and length, length of the packet, flags and offset of a fragment, protocol, addresses.
IPV4 = struct.Struct(">BxHxxHxBxx8s")
LEAST_IPV4, FRAGMENT = 20, 0x3FFF
# Of a UDP header: the ports, and the length of header and payload.
UDP = struct.Struct(">4sH")
UDP_LENGTH = 8
ENDS = struct.Struct(">4s4sHH")


class CaptureError(ValueError):
    """A file is not a capture, is damaged or ends too early, or has a link type or block that is not read."""


class Datagram(NamedTuple):
    """A UDP datagram of a capture. The time is in nanoseconds since 1970, and an address is a host and a port."""

    time: int
    source: Address
    destination: Address
    payload: bytes


# Makes a datagram of the tuple of its fields. The constructor of a NamedTuple takes twice as long.
_datagram_of: Callable[[Tuple[int, Address, Address, bytes]], Datagram] = partial(tuple.__new__, Datagram)


def _exactly(file: BinaryIO, size: int) -> bytes:
    """The next bytes of a file, which has to have as many."""
    found = file.read(size)
    if len(found) != size:
        raise CaptureError("the file ends within a record")
    return found


def _known(link: int) -> int:
    """The link type, which has to be one that is read."""
    if link not in LINKS:
        raise CaptureError(f"frames of the link type {link} are not read")
    return link


def _classic(file: BinaryIO, order: str, unit: int) -> Iterator[Frame]:
    """The frames of a classic file after its magic number."""
    version, field = struct.unpack(order + "H14xI", _exactly(file, 20))
    if version != 2:
        raise CaptureError(f"version {version} of pcap is not read")
    # The upper bits of the field state how frames end.
    link = _known(field & 0xFFFF)
    record = struct.Struct(order + "IIII")
    read, head = file.read, file.read(record.size)
    while head:
        if len(head) != record.size:
            raise CaptureError("the file ends within a record")
        seconds, fraction, size, _ = record.unpack(head)
        if size > LONGEST_FRAME:
            raise CaptureError(f"a frame has {size} bytes")
        frame = read(size)
        if len(frame) != size:
            raise CaptureError("the file ends within a record")
        yield seconds * BILLION + fraction * unit, link, frame
        head = read(record.size)


def _blocks(file: BinaryIO) -> Iterator[Tuple[int, str, bytes]]:
    """The kind, the byte order and the body of each block of a pcapng file after its first four bytes."""
    order, head = "<", SECTION.to_bytes(4, "little")
    while head:
        start = _exactly(file, 8 if head == SECTION.to_bytes(4, "little") else 4)
        if len(start) == 8:
            order = ORDERS.get(start[4:], "")
        if not order:
            raise CaptureError("a section has no byte order")
        kind, length = struct.unpack(order + "II", head + start[:4])
        rest = length - 4 - len(start)
        if length % 4 or rest < 4 or length > LONGEST_BLOCK:
            raise CaptureError(f"a block has the length {length}")
        body = start[4:] + _exactly(file, rest)
        if body[-4:] != start[:4]:
            raise CaptureError("the two lengths of a block differ")
        yield kind, order, body[:-4]
        head = file.read(4)


def _clock(order: str, options: bytes) -> Tuple[int, int]:
    """The units of a second and the offset in seconds that the options of an interface state."""
    units, offset, at = 10**6, 0, 0
    while at + 4 <= len(options):
        code, size = struct.unpack_from(order + "HH", options, at)
        value = options[at + 4:at + 4 + size]
        if code == RESOLUTION and size == 1:
            units = 2**(value[0] & 0x7F) if value[0] & 0x80 else 10**value[0]
        elif code == OFFSET and size == 8:
            offset, = struct.unpack(order + "q", value)
        elif code == END_OF_OPTIONS:
            break
        at += 4 + size + -size % 4
    return units, offset


def _pcapng(file: BinaryIO) -> Iterator[Frame]:
    """The frames of a pcapng file after its first four bytes."""
    interfaces: List[Tuple[int, int, int]] = []
    for kind, order, body in _blocks(file):
        if kind == SECTION:
            interfaces = []
        elif kind == INTERFACE and len(body) >= 8:
            link, = struct.unpack_from(order + "H", body)
            interfaces.append((link, *_clock(order, body[8:])))
        elif kind == ENHANCED_PACKET and len(body) >= 20:
            number, high, low, size = struct.unpack_from(order + "IIII", body)
            if number >= len(interfaces) or 20 + size > len(body):
                raise CaptureError("a packet has no interface, or is longer than its block")
            link, units, offset = interfaces[number]
            time = (high << 32 | low) * BILLION // units + offset * BILLION
            yield time, _known(link), body[20:20 + size]
        elif kind in (INTERFACE, ENHANCED_PACKET):
            raise CaptureError("a block is too short for its kind")
        elif kind == SIMPLE_PACKET:
            raise CaptureError("simple packet blocks are not read, because they have no time")


def _frames(file: BinaryIO) -> Iterator[Frame]:
    """The frames of a file."""
    magic = file.read(4)
    if magic == SECTION.to_bytes(4, "little"):
        return _pcapng(file)
    if magic in MAGICS:
        return _classic(file, *MAGICS[magic])
    raise CaptureError("the file is neither pcap nor pcapng")


def _after_tags(frame: bytes, header: int, protocol: int) -> int:
    """The offset of the IPv4 packet after the VLAN tags of a frame. If there is none, it is that of the frame's end."""
    for _ in range(MOST_TAGS):
        if frame[protocol:protocol + 2] not in TAGS:
            break
        protocol, header = header + 2, header + 4
    return header if frame[protocol:protocol + 2] == IPV4_PROTOCOL else len(frame)


class Capture:
    """The UDP datagrams of a capture file, in the order of the file. Each iteration reads the file once, in pieces.

    `skipped` counts the other frames of the current iteration, such as those of TCP or IPv6. `partial` counts the UDP
    packets that are fragments or were captured only in part. Checksums are not checked.
    """

    def __init__(self, path: Union[str, "os.PathLike[str]"]) -> None:
        self.path = path
        self.skipped = 0
        self.partial = 0

    def __iter__(self) -> Iterator[Datagram]:
        self.skipped = self.partial = 0
        known: Dict[bytes, Tuple[Address, Address]] = {}
        with open(self.path, "rb") as file:
            for time, link, frame in _frames(file):
                found = self._datagram(link, frame)
                if found is None:
                    continue
                ends, payload = found
                addresses = known.get(ends)
                if addresses is None:
                    source, target, *ports = ENDS.unpack(ends)
                    addresses = known[ends] = ((inet_ntoa(source), ports[0]), (inet_ntoa(target), ports[1]))
                source_address, target_address = addresses
                yield _datagram_of((time, source_address, target_address, payload))

    def _datagram(self, link: int, frame: bytes) -> Optional[Tuple[bytes, bytes]]:
        """The addresses and ports of a frame's datagram, and its payload. If it has none, the frame is counted."""
        at, protocol_at = LINKS[link]
        if protocol_at is not None and frame[protocol_at:protocol_at + 2] != IPV4_PROTOCOL:
            at = _after_tags(frame, at, protocol_at)
        if len(frame) < at + LEAST_IPV4:
            self.skipped += 1
            return None
        first, total, fragment, protocol, hosts = IPV4.unpack_from(frame, at)
        begin, end = at + 4 * (first & 15), at + total
        if first >> 4 != 4 or protocol != IPPROTO_UDP or begin < at + LEAST_IPV4:
            self.skipped += 1
            return None
        if fragment & FRAGMENT or end > len(frame):
            self.partial += 1
            return None
        if begin + UDP_LENGTH > end:
            self.skipped += 1
            return None
        ports, length = UDP.unpack_from(frame, begin)
        if not UDP_LENGTH <= length <= end - begin:
            self.skipped += 1
            return None
        return hosts + ports, frame[begin + UDP_LENGTH:begin + length]


def read_capture(path: Union[str, "os.PathLike[str]"]) -> Capture:
    """Returns the UDP datagrams of a capture file: classic pcap, or pcapng with enhanced packets, in either byte order.

    The link types are Ethernet with up to two VLAN tags, raw IP, Linux cooked capture and BSD loopback. The packets are
    those of IPv4. The iteration raises OSError if the file cannot be read, and CaptureError if it is at fault. Before
    that it returns the datagrams before the fault.
    """
    return Capture(path)
