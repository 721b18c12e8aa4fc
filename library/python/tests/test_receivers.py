"""The listener and the repairer."""
import copy
import gc
import unittest

import mold
from mold import Code, Line, Range, Report, Taken
from tests import wire

MILLISECOND = 1_000_000


def code_of(call, *arguments):
    """The code and the detail with which a call is refused."""
    try:
        call(*arguments)
    except mold.MoldError as why:
        return why.code, why.detail
    return None


def requests_after(repairer, now):
    """The first time, from `now` on, at which requests may be sent, and these requests."""
    while not (requests := list(repairer.requests(now))):
        now = repairer.deadline(now)
    return now, requests


class Listening(unittest.TestCase):
    def test_a_gap_and_its_repair(self):
        with mold.Listener(wire.SESSION) as listener:
            self.assertEqual(listener.take(Line.A, wire.packet(1, b"one", b"two")), Taken(2, 0, 0))
            self.assertEqual(listener.take(Line.A, wire.packet(5, b"five")), Taken(0, 1, 0))
            self.assertEqual(listener.wanted(), wire.request(3, 2))
            self.assertEqual(listener.ranges(), [Range(3, 4)])
            self.assertEqual(listener.ranges(4), [Range(4, 4)])
            self.assertEqual(listener.take(Line.SERVER, wire.packet(3, b"", b"four")), Taken(3, 0, 0))
            self.assertEqual((listener.count, listener.first, listener.next, listener.known), (5, 1, 6, 6))
            self.assertEqual(listener.messages(), [b"one", b"two", b"", b"four", b"five"])
            self.assertEqual(listener.drain()[2:4], [(3, b""), (4, b"four")])
            self.assertEqual((listener.count, listener.first, listener.messages()), (0, 0, []))
            self.assertIsNone(listener.wanted())
            self.assertFalse(listener.finished)
            listener.take(Line.B, wire.end(6))
            self.assertTrue(listener.finished)

    def test_messages_stay_valid(self):
        listener = mold.Listener(wire.SESSION)
        listener.take(Line.A, wire.packet(1, b"kept"))
        [message] = listener.messages()
        listener.clear()
        listener.take(Line.A, wire.packet(2, b"next"))
        listener.close()
        self.assertEqual(message, b"kept")

    def test_a_large_batch(self):
        with mold.Listener(wire.SESSION) as listener:
            for number in range(1, 1001):
                listener.take(Line.A, wire.packet(number, b"%d" % number))
            self.assertEqual(listener.drain(), [(number, b"%d" % number) for number in range(1, 1001)])

    def test_many_gaps(self):
        with mold.Listener(wire.SESSION, window=2000) as listener:
            for number in range(2, 1201, 2):
                listener.take(Line.A, wire.packet(number, b""))
            self.assertEqual(listener.ranges(), [Range(number, number) for number in range(1, 1200, 2)])

    def test_the_window_and_reports(self):
        with mold.Listener(wire.SESSION, next=10, window=2) as listener:
            self.assertEqual(listener.take(Line.A, wire.packet(11, b"", b"")), Taken(0, 1, 1))
            self.assertEqual(code_of(listener.take, Line.B, b"abc"), (Code.SHORT, 3))
            self.assertEqual((listener.report(Line.A), listener.report(Line.B)), (Report(1, 0, 13), Report(0, 1, 10)))
            self.assertEqual(code_of(listener.report, Line.SERVER), (Code.LINE, None))

    def test_a_full_store(self):
        self.assertEqual(code_of(mold.Listener, wire.SESSION, 1, 1024, 65506), (Code.OPTIONS, None))
        with mold.Listener(wire.SESSION, store=65507) as listener:
            self.assertEqual(listener.take(Line.A, wire.packet(2, bytes(65000))), Taken(0, 1, 0))
            self.assertEqual(listener.take(Line.A, wire.packet(3, bytes(1000))), Taken(0, 0, 1))
            self.assertEqual(listener.take(Line.A, wire.packet(1, b"")), Taken(2, 0, 0))

    def test_skip(self):
        with mold.Listener(wire.SESSION) as listener:
            listener.take(Line.A, wire.packet(3, b"three"))
            self.assertEqual(code_of(listener.skip, 4), (Code.NOT_MISSING, None))
            listener.skip(3)
            self.assertEqual(code_of(listener.skip, 5), (Code.BATCH, None))
            self.assertEqual(listener.drain(), [(3, b"three")])

    def test_refusals(self):
        last = (1 << 64) - 2
        with mold.Listener(wire.SESSION, window=4) as listener:
            listener.take(Line.A, wire.packet(2, b"x"))
            cases = (((Line.SERVER + 1, wire.packet(1)), Code.LINE, None),
                     ((Line.A, wire.packet(1)[:10]), Code.SHORT, 10),
                     ((Line.A, wire.packet(1, b"AB")[:-1]), Code.BLOCK_CUT, 0),
                     ((Line.A, wire.packet(1) + b"x"), Code.TRAILING, 20),
                     ((Line.A, wire.packet(1, session=b"S" * 10)), Code.WRONG_SESSION, None),
                     ((Line.A, wire.packet(0)), Code.SEQUENCE_ZERO, None),
                     ((Line.A, wire.packet(last, b"", b"")), Code.PAST_LAST, None),
                     ((Line.A, wire.packet(2, b"y")), Code.CONFLICT, 2), ((Line.A, wire.end(2)), Code.END_BELOW, 3))
            for arguments, code, detail in cases:
                with self.subTest(code):
                    self.assertEqual(code_of(listener.take, *arguments), (code, detail))
            listener.take(Line.A, wire.end(4))
            self.assertEqual(code_of(listener.take, Line.A, wire.end(5)), (Code.END_CONFLICT, 4))
            self.assertEqual(code_of(listener.take, Line.A, wire.packet(4, b"")), (Code.PAST_END, 4))

    def test_what_cannot_be_made(self):
        self.assertEqual(code_of(mold.Listener, "S", 0), (Code.NEXT_ZERO, None))
        for window in (0, 1_048_577):
            self.assertEqual(code_of(mold.Listener, "S", 1, window), (Code.WINDOW, None))
        # These numbers would be valid without their higher bits.
        self.assertRaises(ValueError, mold.Listener, "S", (1 << 64) + 1)
        self.assertRaises(ValueError, mold.Listener, "S", 1, (1 << 32) + 1)


class Closing(unittest.TestCase):
    def test_a_closed_object(self):
        listener = mold.Listener(wire.SESSION)
        with listener:
            pass
        listener.close()
        for call in (listener.drain, listener.wanted, lambda: listener.next, lambda: listener.finished,
                     lambda: listener.take(Line.A, wire.packet(1)), listener.__enter__):
            with self.assertRaisesRegex(ValueError, "this Listener is closed"):
                call()

    def test_no_copies(self):
        with mold.Listener(wire.SESSION) as listener:
            self.assertRaises(TypeError, copy.copy, listener)
            self.assertRaises(TypeError, copy.deepcopy, listener)

    def test_the_collector_frees(self):
        freed = []
        listener = mold.Listener(wire.SESSION)
        free, listener._free = listener._free, freed.append
        pointer = listener._pointer
        del listener
        gc.collect()
        self.assertEqual(freed, [pointer])
        free(pointer)


class Repairing(unittest.TestCase):
    def test_a_request_and_its_response(self):
        options = mold.RepairOptions(patience=MILLISECOND, servers=2)
        with mold.Repairer(wire.SESSION, options) as repairer:
            self.assertIsNone(repairer.deadline(0))
            repairer.take(0, Line.A, wire.packet(1, b"one"))
            self.assertEqual(repairer.take(10, Line.B, wire.packet(3, b"three")), Taken(0, 1, 0))
            self.assertIsNone(repairer.poll(10))
            # A request is sent after one to two times the patience. Without a response, the next server gets it.
            now, sent = requests_after(repairer, 10)
            self.assertTrue(MILLISECOND <= now - 10 <= 2 * MILLISECOND, now)
            self.assertEqual(sent, [(wire.request(2, 1), 0)])
            now, sent = requests_after(repairer, now)
            self.assertEqual(sent, [(wire.request(2, 1), 1)])
            repairer.take(now + 1, Line.SERVER + 1, wire.packet(2, b"two"))
            self.assertEqual(repairer.drain(), [(1, b"one"), (2, b"two"), (3, b"three")])
            repairer.take(now + 2, Line.B, wire.packet(4))
            stats = repairer.stats()
            self.assertEqual((stats.next, stats.requests, stats.answers, stats.a.datagrams, stats.b.datagrams),
                             (4, 2, 1, 1, 2))

    def test_lost_messages(self):
        options = mold.RepairOptions(patience=1, timeout=1, ceiling=1, servers=0, give_up=1)
        with mold.Repairer(wire.SESSION, options) as repairer:
            self.assertIsNone(repairer.lost(0))
            repairer.take(0, Line.A, wire.packet(1, b"one"))
            repairer.take(0, Line.A, wire.packet(4, b"four"))
            self.assertEqual(code_of(repairer.lost, 0), (Code.BATCH, None))
            self.assertEqual(repairer.drain(), [(1, b"one")])
            now = 0
            while (lost := repairer.lost(now)) is None:
                self.assertEqual(list(repairer.requests(now)), [])
                now = repairer.deadline(now)
            self.assertEqual(lost, Range(2, 3))
            self.assertEqual(repairer.drain(), [(4, b"four")])
            self.assertEqual(repairer.stats().lost, 2)

    def test_refusals(self):
        time = 1 << 62
        with mold.Repairer(wire.SESSION) as repairer:
            self.assertEqual(code_of(repairer.take, 0, Line.SERVER + 1, wire.packet(1)), (Code.LINE, None))
            for call in (repairer.poll, repairer.deadline, repairer.lost):
                self.assertEqual(code_of(call, time), (Code.TIME, None))
            self.assertEqual(code_of(repairer.take, time, Line.A, wire.packet(1)), (Code.TIME, None))
            self.assertRaises(ValueError, repairer.poll, -1)

    def test_options(self):
        # The defaults that mold.h states, and a value outside the range of each kind.
        options = mold.RepairOptions()
        self.assertEqual((options.next, options.patience, options.timeout, options.window, options.servers),
                         (1, 0, 50 * MILLISECOND, 65_536, 1))
        for name, value, code in (("servers", 9, Code.OPTIONS), ("next", 0, Code.NEXT_ZERO),
                                  ("window", 0, Code.WINDOW)):
            self.assertEqual(code_of(mold.Repairer, "S", mold.RepairOptions(**{name: value})), (code, None))
        self.assertRaises(ValueError, mold.Repairer, "S", mold.RepairOptions(servers=(1 << 32) + 1))
