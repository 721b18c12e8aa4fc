"""Packets and captures for the tests, written from docs/PROTOCOL.md and the public descriptions of the formats."""
import socket
import struct

SESSION = b"SESSION001"
END = 0xFFFF
# The link types of Ethernet and of raw IP, and the fields of a frame.
ETHERNET, RAW = 1, 101
IPV4, TAG = b"\x08\x00", b"\x81\x00\x00\x07"
BEGIN = 1764374400


def packet(sequence, *messages, session=SESSION):
    """A data packet, or a heartbeat if there are no messages."""
    blocks = b"".join(struct.pack(">H", len(message)) + message for message in messages)
    return session + struct.pack(">QH", sequence, len(messages)) + blocks


def end(sequence, session=SESSION):
    return session + struct.pack(">QH", sequence, END)


def request(sequence, count, session=SESSION):
    return session + struct.pack(">QH", sequence, count)


def ip(payload, target="239.192.1.1", protocol=17, fragment=0, options=b""):
    """An IPv4 packet with a UDP datagram from 10.0.0.7:5000 to port 26477."""
    udp = struct.pack(">HHHH", 5000, 26477, 8 + len(payload), 0) + payload
    total = 20 + len(options) + len(udp)
    head = struct.pack(">BBHHHBBH", 0x45 + len(options) // 4, 0, total, 1, fragment, 8, protocol, 0)
    return head + socket.inet_aton("10.0.0.7") + socket.inet_aton(target) + options + udp


def ethernet(packet_, tags=b""):
    """A frame of Ethernet, padded to 60 bytes."""
    return (bytes(12) + tags + IPV4 + packet_).ljust(60, b"\0")


def classic(frames, order="<", magic=0xA1B2C3D4, link=ETHERNET):
    """A classic capture of (time, frame). A time is in the units of the magic number since BEGIN."""
    units = 10**9 if magic == 0xA1B23C4D else 10**6
    records = (struct.pack(order + "IIII", BEGIN + time // units, time % units, len(frame), len(frame)) + frame
               for time, frame in frames)
    return struct.pack(order + "IHHIIII", magic, 2, 4, 0, 0, 262144, link) + b"".join(records)


def block(kind, body, order="<"):
    body += bytes(-len(body) % 4)
    length = struct.pack(order + "I", 12 + len(body))
    return struct.pack(order + "I", kind) + length + body + length


def section(order="<"):
    return block(0x0A0D0D0A, struct.pack(order + "IHHq", 0x1A2B3C4D, 1, 0, -1), order)


def interface(link=ETHERNET, order="<", options=b""):
    return block(1, struct.pack(order + "HHI", link, 0, 0) + options, order)


def enhanced(units, frame, order="<", number=0):
    head = struct.pack(order + "IIIII", number, units >> 32, units & 0xFFFFFFFF, len(frame), len(frame))
    return block(6, head + frame, order)
