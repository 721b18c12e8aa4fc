"""The reader of captures."""
import os
import struct
import tempfile
import unittest

import mold
from tests import wire

NANOSECOND_MAGIC = 0xA1B23C4D
SOURCE, TARGET = ("10.0.0.7", 5000), ("239.192.1.1", 26477)
PAYLOADS = (wire.packet(1, b"one"), b"", wire.end(2))


def cooked(packet):
    return bytes(14) + wire.IPV4 + packet


def cooked_2(packet):
    return wire.IPV4 + bytes(18) + packet


class Captures(unittest.TestCase):
    def setUp(self):
        folder = tempfile.TemporaryDirectory()
        self.addCleanup(folder.cleanup)
        self.path = os.path.join(folder.name, "capture")

    def read(self, content):
        """The capture of a file with this content, and its datagrams."""
        with open(self.path, "wb") as file:
            file.write(content)
        capture = mold.read_capture(self.path)
        return capture, list(capture)

    def assert_refused(self, content, text):
        with self.assertRaisesRegex(mold.CaptureError, text):
            self.read(content)

    def test_classic_files(self):
        frames = [(index, wire.ethernet(wire.ip(payload))) for index, payload in enumerate(PAYLOADS)]
        for order in "<>":
            for magic, unit in ((0xA1B2C3D4, 1000), (NANOSECOND_MAGIC, 1)):
                with self.subTest(order=order, unit=unit):
                    _, got = self.read(wire.classic(frames, order, magic))
                    self.assertEqual(got, [(wire.BEGIN * 10**9 + index * unit, SOURCE, TARGET, payload)
                                           for index, payload in enumerate(PAYLOADS)])

    def test_pcapng(self):
        packet = wire.ip(PAYLOADS[0])
        for order in "<>":
            # Nanoseconds since 1,000 seconds after 1970; then 1,024ths of a second; then the default, microseconds.
            offset = struct.pack(order + "HHBxxxHHqHH", 9, 1, 9, 14, 8, 1000, 0, 0)
            binary = struct.pack(order + "HHBxxx", 9, 1, 0x80 | 10)
            content = (wire.section(order) + wire.interface(wire.ETHERNET, order, offset) +
                       wire.interface(wire.RAW, order, binary) + wire.interface(wire.RAW, order) +
                       wire.block(99, b"unknown", order) + wire.enhanced(7, wire.ethernet(packet), order) +
                       wire.enhanced(512, packet, order, 1) + wire.enhanced(1 << 40, packet, order, 2))
            with self.subTest(order=order):
                _, got = self.read(content)
                self.assertEqual([it.time for it in got], [1000 * 10**9 + 7, 5 * 10**8, (1 << 40) * 1000])
                self.assertEqual({it[1:] for it in got}, {(SOURCE, TARGET, PAYLOADS[0])})

    def test_interfaces_of_a_section(self):
        packet = wire.ip(PAYLOADS[0])
        section = wire.section() + wire.interface(wire.RAW) + wire.enhanced(0, packet)
        other = wire.section(">") + wire.interface(wire.ETHERNET, ">") + wire.enhanced(0, wire.ethernet(packet), ">")
        _, got = self.read(section + other)
        self.assertEqual([it.payload for it in got], 2 * [PAYLOADS[0]])
        self.assert_refused(section + wire.section() + wire.enhanced(0, packet), "has no interface")

    def test_links_and_packets(self):
        packet = wire.ip(PAYLOADS[0])
        cases = ((wire.ETHERNET, wire.ethernet(packet, wire.TAG)), (wire.ETHERNET, wire.ethernet(packet, 2 * wire.TAG)),
                 (wire.RAW, packet), (228, packet), (113, cooked(packet)), (276, cooked_2(packet)),
                 (0, bytes(4) + packet), (108, bytes(4) + packet), (wire.RAW, wire.ip(PAYLOADS[0], options=bytes(8))))
        for link, frame in cases:
            with self.subTest(link=link):
                _, got = self.read(wire.classic([(0, frame)], link=link))
                self.assertEqual([it.payload for it in got], [PAYLOADS[0]])

    def test_other_frames(self):
        whole = wire.ip(PAYLOADS[0])
        # TCP, IPv6, an empty frame, a packet of length 0, and a UDP datagram that is longer than its packet.
        skipped = (wire.ip(b"", protocol=6), b"\x60" + bytes(50), b"", whole[:2] + bytes(2) + whole[4:],
                   whole[:24] + b"\xff\xff" + whole[26:])
        partial = (whole[:-1], wire.ip(b"", fragment=0x2000), wire.ip(b"", fragment=1))
        capture, got = self.read(wire.classic([(0, it) for it in (*skipped, whole, *partial)], link=wire.RAW))
        self.assertEqual((len(got), capture.skipped, capture.partial), (1, len(skipped), len(partial)))
        self.assertEqual(len(list(capture)), 1)
        self.assertEqual((capture.skipped, capture.partial), (len(skipped), len(partial)))

    def test_damaged_files(self):
        whole = wire.classic([(0, wire.ip(b""))], link=wire.RAW)
        for size in (25, len(whole) - 1):
            self.assert_refused(whole[:size], "ends within a record")
        pcapng = wire.section() + wire.interface() + wire.enhanced(0, b"")
        self.assert_refused(pcapng[:-1], "ends within a record")
        self.assert_refused(pcapng[:-4] + bytes(4), "lengths of a block differ")
        self.assert_refused(wire.section() + wire.enhanced(0, b""), "has no interface")

    def test_what_is_not_read(self):
        for content in (b"", b"not a capture"):
            self.assert_refused(content, "neither pcap nor pcapng")
        self.assert_refused(wire.classic([(0, b"frame")], link=127), "link type 127 ")
        self.assert_refused(wire.section() + wire.interface() + wire.block(3, bytes(4)), "simple packet blocks")
        self.assertRaises(FileNotFoundError, list, mold.read_capture(self.path + ".missing"))

    def test_datagrams_before_the_fault(self):
        content = wire.classic([(0, wire.ip(PAYLOADS[0]))], link=wire.RAW) + b"cut"
        with open(self.path, "wb") as file:
            file.write(content)
        found = iter(mold.read_capture(self.path))
        self.assertEqual(next(found).payload, PAYLOADS[0])
        self.assertRaises(mold.CaptureError, next, found)
