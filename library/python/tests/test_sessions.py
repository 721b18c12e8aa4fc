"""The publisher, the server and the checker."""
import struct
import unittest

import mold
from mold import Code, Range, Verdict
from tests import wire
from tests.test_receivers import code_of


def journal(*messages, closed=False):
    """A journal file of version 2, as docs/FORMATS.md states it."""
    blocks = b"".join(struct.pack(">H", len(it)) + it for it in messages)
    return b"MOLDJNL2" + wire.SESSION + bytes([closed]) + struct.pack(">Q", len(messages)) + blocks


class Publishing(unittest.TestCase):
    def test_a_session(self):
        with mold.Publisher(wire.SESSION, limit=64) as publisher:
            self.assertEqual(publisher.heartbeat(), wire.packet(1))
            self.assertIsNone(publisher.datagram())
            self.assertEqual([publisher.publish(bytes(20)) for _ in range(2)], [1, 2])
            self.assertFalse(publisher.is_full)
            publisher.publish(b"three")
            self.assertTrue(publisher.is_full)
            self.assertEqual(code_of(publisher.close_session), (Code.UNSENT, 3))
            self.assertEqual(list(publisher.datagrams()),
                             [wire.packet(1, bytes(20), bytes(20)), wire.packet(3, b"three")])
            self.assertEqual(code_of(publisher.end), (Code.ABSENT, None))
            publisher.close_session()
            publisher.close_session()
            self.assertEqual(publisher.end(), wire.end(4))
            self.assertEqual(code_of(publisher.heartbeat), (Code.ABSENT, None))
            self.assertEqual(code_of(publisher.publish, b""), (Code.CLOSED, None))
            self.assertEqual(publisher.save(), journal(bytes(20), bytes(20), b"three", closed=True))

    def test_refusals(self):
        for limit in (63, 65_508):
            self.assertEqual(code_of(mold.Publisher, "S", limit), (Code.LIMIT, None))
        with mold.Publisher("S", limit=64) as publisher:
            self.assertEqual(code_of(publisher.publish, bytes(43)), (Code.TOO_LONG, 43))
            self.assertEqual(code_of(publisher.responses, wire.request(1, 1)), (Code.BROKEN, None))
            self.assertEqual(code_of(publisher.serve, 65), (Code.BURST, None))
            publisher.serve(1)
            self.assertEqual(code_of(publisher.serve, 1), (Code.BROKEN, None))

    def test_a_publisher_that_serves(self):
        with mold.Publisher(wire.SESSION) as publisher:
            publisher.serve()
            publisher.publish(b"one")
            list(publisher.datagrams())
            self.assertEqual(list(publisher.responses(wire.request(1, 1))), [wire.packet(1, b"one")])


class Continuing(unittest.TestCase):
    # The head of a journal file of version 3, and the records of two messages, as docs/FORMATS.md states them.
    HEAD = b"MOLDJNL3" + wire.SESSION
    RECORDS = b"\1\0\0\2AB\1\0\0\0"

    def test_a_journal_file(self):
        with mold.Publisher(wire.SESSION, limit=64) as publisher:
            self.assertEqual(publisher.journal_head(), self.HEAD + b"\0")
            publisher.publish(b"AB")
            publisher.publish(b"")
            self.assertEqual(publisher.journal_records(1), self.RECORDS + b"\0")
            self.assertEqual(publisher.journal_records(3), b"\0")
            self.assertEqual(code_of(publisher.journal_records, 4), (Code.ABSENT, None))
            list(publisher.datagrams())
            publisher.close_session()
            self.assertEqual(publisher.journal_records(2), self.RECORDS[6:] + b"\1\1\0")

    def test_a_continued_session(self):
        publisher, gate = mold.Publisher.resume(self.HEAD + self.RECORDS + b"\0", limit=64)
        with publisher:
            self.assertEqual(gate, len(self.HEAD + self.RECORDS))
            self.assertEqual((publisher.publish(b"three"), publisher.datagram()), (3, wire.packet(3, b"three")))
        self.assertEqual(code_of(mold.Publisher.resume, journal(b"AB")), (Code.BAD_MAGIC, None))
        self.assertEqual(code_of(mold.Publisher.resume, self.HEAD[:17]), (Code.FILE_SHORT, 17))
        self.assertEqual(code_of(mold.Publisher.resume, self.HEAD, 63), (Code.LIMIT, None))


class Serving(unittest.TestCase):
    def test_responses(self):
        messages = [bytes([number]) * 20 for number in range(1, 6)]
        with mold.Server(journal(*messages), limit=64, burst=2) as server:
            self.assertEqual(server.first_response(wire.request(2, 9)), wire.packet(2, *messages[1:3]))
            self.assertEqual(list(server.responses(wire.request(2, 9))),
                             [wire.packet(2, *messages[1:3]), wire.packet(4, *messages[3:5])])
            self.assertEqual(list(server.responses(wire.request(5, 1))), [wire.packet(5, messages[4])])

    def test_refused_requests(self):
        with mold.Server(journal(b"one")) as server:
            cases = ((bytes(19), Code.REQUEST_LENGTH, 19), (wire.request(1, 1, b"S" * 10), Code.WRONG_SESSION, None),
                     (wire.request(0, 1), Code.SEQUENCE_ZERO, None), (wire.request(1, 0), Code.EMPTY_REQUEST, None),
                     (wire.request(2, 1), Code.AHEAD, 2))
            for request, code, detail in cases:
                for call in (server.first_response, server.responses):
                    with self.subTest(code):
                        self.assertEqual(code_of(call, request), (code, detail))

    def test_refused_journals(self):
        whole = journal(b"one", b"two")
        cases = ((whole[:20], Code.FILE_SHORT, 20), (b"x" + whole[1:], Code.BAD_MAGIC, None),
                 (whole[:18] + b"\x02" + whole[19:], Code.BAD_FLAG, 2), (whole[:-1], Code.FILE_CUT, 2),
                 (whole + b"\0\0", Code.COUNT_DIFFERS, 3), (journal(bytes(1379)), Code.TOO_LONG, 1379))
        for text, code, detail in cases:
            with self.subTest(code):
                self.assertEqual(code_of(mold.Server, text), (code, detail))
        self.assertEqual(code_of(mold.Server, whole, 63), (Code.LIMIT, None))
        self.assertEqual(code_of(mold.Server, whole, 64, 0), (Code.BURST, None))

    def test_a_server_closed_in_an_iteration(self):
        server = mold.Server(journal(b"one"))
        responses = server.responses(wire.request(1, 1))
        server.close()
        self.assertRaises(ValueError, next, responses)


class Checking(unittest.TestCase):
    def test_verdicts(self):
        with mold.Checker() as checker:
            checker.take(wire.packet(3, b"three"))
            self.assertEqual(checker.verdict(), Verdict(False, 0, None, 1))
            self.assertEqual(checker.ranges(), [Range(1, 2)])
            checker.take(wire.end(4))
            self.assertEqual(checker.verdict(), Verdict(False, 0, 4, 1))
            checker.take(wire.packet(1, b"one", b"two"))
            self.assertEqual((checker.verdict(), checker.ranges()), (Verdict(True, 3, None, 0), []))

    def test_refusals(self):
        with mold.Checker() as checker:
            checker.take(wire.packet(1, b"one"))
            for datagram, code, detail in ((b"abc", Code.SHORT, 3), (wire.packet(1, b"two"), Code.CONFLICT, 1),
                                           (wire.packet(1, session=b"S" * 10), Code.WRONG_SESSION, None)):
                with self.subTest(code):
                    self.assertEqual(code_of(checker.take, datagram), (code, detail))
