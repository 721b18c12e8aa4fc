"""Packets and requests."""
import copy
import pickle
import unittest

import mold
from mold import Code, Kind
from tests import wire


class Decode(unittest.TestCase):
    def test_data(self):
        decoded = mold.decode(wire.packet(7, b"AB", b"", b"\x00\xff"))
        self.assertEqual(decoded, (wire.SESSION, 7, Kind.DATA, (b"AB", b"", b"\x00\xff")))
        self.assertEqual(list(decoded.numbered()), [(7, b"AB"), (8, b""), (9, b"\x00\xff")])
        self.assertEqual(decoded.top, 10)

    def test_heartbeat_and_end(self):
        self.assertEqual(mold.decode(wire.packet(3)), (wire.SESSION, 3, Kind.HEARTBEAT, ()))
        self.assertEqual(mold.decode(wire.end(13)), (wire.SESSION, 13, Kind.END, ()))

    def test_a_message_has_two_bytes_of_length(self):
        self.assertEqual(mold.decode(wire.packet(1, b"x" * 300, b"y")).messages, (b"x" * 300, b"y"))

    def test_refusals(self):
        cases = ((b"", Code.SHORT, 0), (wire.packet(1)[:19], Code.SHORT, 19),
                 (wire.packet(1, b"AB", b"CD")[:-1], Code.BLOCK_CUT, 1),
                 (wire.packet(1, b"AB") + b"\0", Code.TRAILING, 24), (wire.end(1) + b"x", Code.TRAILING, 20))
        for datagram, code, detail in cases:
            with self.subTest(code), self.assertRaises(mold.MoldError) as caught:
                mold.decode(datagram)
            self.assertEqual((caught.exception.code, caught.exception.detail), (code, detail))

    def test_any_bytes(self):
        datagram = bytearray(wire.packet(1, b"AB"))
        decoded = mold.decode(memoryview(datagram))
        datagram[:] = bytes(len(datagram))
        self.assertEqual(decoded.messages, (b"AB",))
        for wrong in ("text", 20, None):
            self.assertRaises(TypeError, mold.decode, wrong)


class Encode(unittest.TestCase):
    def test_packets(self):
        self.assertEqual(mold.encode(wire.SESSION, 7, [b"AB", b"", bytearray(b"C")]), wire.packet(7, b"AB", b"", b"C"))
        self.assertEqual(mold.encode(wire.SESSION, 7), wire.packet(7))
        self.assertEqual(mold.encode_end(wire.SESSION, 13), wire.end(13))

    def test_refusals(self):
        # 20 bytes of header and 2 of length leave 42 for a message.
        self.assertEqual(len(mold.encode("S", 1, [bytes(42)], limit=64)), 64)
        for limit, message, code in ((64, bytes(43), Code.FULL), (63, b"", Code.LIMIT), (65_508, b"", Code.LIMIT)):
            with self.subTest(limit), self.assertRaises(mold.MoldError) as caught:
                mold.encode("S", 1, [message], limit=limit)
            self.assertEqual((caught.exception.code, caught.exception.detail), (code, None))

    def test_numbers_that_do_not_fit(self):
        for sequence in (-1, 1 << 64):
            self.assertRaises(ValueError, mold.encode, "S", sequence)
            self.assertRaises(ValueError, mold.encode_end, "S", sequence)
        self.assertRaises(TypeError, mold.encode, "S", 1.0)


class Requests(unittest.TestCase):
    def test_both_ways(self):
        request = mold.Request(wire.SESSION, 5, 300)
        self.assertEqual(request.encode(), wire.request(5, 300))
        self.assertEqual(mold.Request.decode(wire.request(5, 300)), request)

    def test_refusals(self):
        with self.assertRaises(mold.MoldError) as caught:
            mold.Request.decode(bytes(21))
        self.assertEqual((caught.exception.code, caught.exception.detail), (Code.REQUEST_LENGTH, 21))
        self.assertRaises(ValueError, mold.Request(wire.SESSION, 1 << 64, 1).encode)
        self.assertRaises(ValueError, mold.Request(wire.SESSION, 1, 1 << 16).encode)


class Sessions(unittest.TestCase):
    def test_names(self):
        self.assertEqual(mold.session_of("DEMO"), b"DEMO      ")
        self.assertEqual(mold.session_of(b"\0" * 10), b"\0" * 10)
        for wrong in ("elevenbytes", "é"):
            self.assertRaises(ValueError, mold.session_of, wrong)


class Errors(unittest.TestCase):
    def test_texts(self):
        self.assertEqual(str(mold.MoldError(Code.SHORT, 3)), "a packet has at least 20 bytes: 3")
        self.assertEqual(str(mold.MoldError(Code.CLOSED)), "the session is closed")

    def test_they_can_be_copied(self):
        for made in (pickle.loads(pickle.dumps(mold.MoldError(Code.SHORT, 3))), copy.copy(mold.MoldError(1, 3))):
            self.assertEqual((made.code, made.detail), (Code.SHORT, 3))

    def test_out_of_memory(self):
        self.assertIsInstance(mold.errors.refusal(Code.MEMORY), MemoryError)
