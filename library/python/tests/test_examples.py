"""The scripts of library/python/examples, and the import of the module."""
import importlib.util
import os
import socket
import subprocess
import sys
import tempfile
import threading
import unittest

import mold
from tests import wire

TOP = os.path.dirname(os.path.dirname(os.path.abspath(__file__)))
HOST, PATIENCE = "127.0.0.1", 60
# Two lines: the address of each, and the microseconds by which line B is late.
TARGETS, LATE = ("239.192.1.1", "239.192.1.2"), 100
# A session of ten packets with two messages each. Line A loses packets 4 and 7, and line B packet 7.
LOST = {TARGETS[0]: (4, 7), TARGETS[1]: (7,)}
PACKETS = [wire.packet(2 * index - 1, b"%d" % index, b"") for index in range(1, 11)]
# Six messages of 20 bytes: a datagram of 64 bytes has two of them.
MESSAGES = [bytes([number]) * 20 for number in range(1, 7)]
MATPLOTLIB = importlib.util.find_spec("matplotlib")
TABLE = """datagrams 17 skipped 1 partial 0
line A 239.192.1.1:26477 datagrams 8 missing 4
line B 239.192.1.2:26477 datagrams 9 missing 2
line both datagrams 17 missing 2
gap A 7 8
gap A 13 14
gap B 13 14
gap both 13 14
late packets 8 least 100.0 us median 100.0 us greatest 100.0 us
"""


def environment(**more):
    return {**os.environ, "PYTHONPATH": TOP, **more}


def script(name, *arguments, **more):
    command = [sys.executable, os.path.join(TOP, "examples", name), *map(str, arguments)]
    return subprocess.run(command, stdin=subprocess.DEVNULL, stdout=subprocess.PIPE, stderr=subprocess.PIPE, text=True,
                          timeout=PATIENCE, env=environment(**more))


def two_lines():
    """A capture of both lines, and a frame of another protocol."""
    frames = [(0, wire.ip(b"", protocol=6))]
    for index, packet in enumerate(PACKETS, 1):
        frames += [(1000 * index + delay, wire.ip(packet, target))
                   for delay, target in zip((0, LATE), TARGETS) if index not in LOST[target]]
    return wire.classic(frames, link=wire.RAW)


class OverACapture(unittest.TestCase):
    def setUp(self):
        folder = tempfile.TemporaryDirectory()
        self.addCleanup(folder.cleanup)
        self.capture, self.picture = (os.path.join(folder.name, name) for name in ("capture", "picture.png"))
        with open(self.capture, "wb") as file:
            file.write(two_lines())

    def test_gaps_as_bars(self):
        done = script("gaps.py", self.capture)
        self.assertEqual((done.returncode, done.stderr), (0, ""))
        self.assertTrue(done.stdout.startswith(TABLE), done.stdout)
        # Each of the 20 numbers has three of the 60 characters of a bar.
        begin, end = 18 * ".", 18 * "."
        bars = {name: begin + first + 12 * "." + second + end for name, first, second in
                (("A", 6 * "#", 6 * "#"), ("B", 6 * ".", 6 * "#"), ("both", 6 * ".", 6 * "#"))}
        self.assertEqual(done.stdout[len(TABLE):].split("\n")[:3], [f"{name:>4} {bar}" for name, bar in bars.items()])
        # All delays are the same, so they are in the first row.
        rows = done.stdout[len(TABLE):].split("\n")[3:-1]
        self.assertEqual([row.split()[:3] for row in rows[:2]], [["100.0", "us", "8"], ["101.0", "us", "0"]])

    @unittest.skipUnless(MATPLOTLIB, "matplotlib is not installed")
    def test_gaps_as_a_picture(self):
        done = script("gaps.py", "--picture", self.picture, self.capture)
        self.assertEqual((done.returncode, done.stdout), (0, f"{TABLE}drawn {self.picture}\n"))
        with open(self.picture, "rb") as file:
            self.assertEqual(file.read(8), b"\x89PNG\r\n\x1a\n")

    def test_another_session(self):
        done = script("gaps.py", "--session", "OTHER", self.capture)
        self.assertEqual(done.stdout.split("\n")[:2],
                         ["datagrams 0 skipped 1 partial 0", "line both datagrams 0 missing 0"])

    def test_a_file_that_is_not_a_capture(self):
        done = script("gaps.py", __file__)
        self.assertEqual((done.returncode, done.stderr), (3, f"{__file__}: the file is neither pcap nor pcapng\n"))

    def test_messages(self):
        done = script("messages.py", self.capture)
        lines = done.stdout.split("\n")
        self.assertEqual((done.returncode, len(lines), lines[:2]), (0, 2 * 17 + 1, [f"1 {b'1'.hex()}", "2 "]))


class Benchmark(unittest.TestCase):
    def test_its_rows(self):
        command = [sys.executable, os.path.join(TOP, "..", "bench", "python"), "--messages", "33", "--runs", "1"]
        done = subprocess.run(command, stdout=subprocess.PIPE, text=True, timeout=PATIENCE, env=environment())
        rows = [line.split("|")[1:3] for line in done.stdout.split("\n")[2:-1]]
        self.assertEqual([[int(cell) for cell in row] for row in rows], [[1, 33], [4, 9], [10, 4], [32, 2]])


def bound():
    made = socket.socket(socket.AF_INET, socket.SOCK_DGRAM)
    made.bind((HOST, 0))
    made.settimeout(PATIENCE)
    return made


class OverSockets(unittest.TestCase):
    def test_receive(self):
        """Both lines lose the second of three datagrams, which the script requests."""
        with bound() as server, bound() as line_a, bound() as line_b, mold.Publisher("DEMO", 64) as publisher:
            publisher.serve()
            for message in MESSAGES:
                publisher.publish(message)
            ports = [it.getsockname()[1] for it in (line_a, line_b, server)]
            datagrams = [*publisher.datagrams()]
            publisher.close_session()
            self.assertEqual(len(datagrams), 3)
            del datagrams[1]
            line_a.close()
            line_b.close()
            done = self.received(ports, [*datagrams, publisher.end()], server, publisher)
        printed = "".join(f"{number} {message.hex()}\n" for number, message in enumerate(MESSAGES, 1))
        self.assertEqual(done, (printed, ""))

    def received(self, ports, datagrams, server, publisher):
        """The output of the script, for datagrams that are sent on both lines until it requests a message."""
        command = [sys.executable, os.path.join(TOP, "examples", "receive.py"), "DEMO", *map(str, ports)]
        handler = subprocess.Popen(command, stdout=subprocess.PIPE, stderr=subprocess.PIPE, text=True,
                                   env=environment())
        asked = threading.Event()

        def send():
            while not asked.wait(0.1):
                for datagram in datagrams:
                    server.sendto(datagram, (HOST, ports[0]))
                    server.sendto(datagram, (HOST, ports[1]))

        sender = threading.Thread(target=send)
        sender.start()
        try:
            request, source = server.recvfrom(64)
            asked.set()
            for datagram in publisher.responses(request):
                server.sendto(datagram, source)
            return handler.communicate(timeout=PATIENCE)
        finally:
            asked.set()
            sender.join()
            handler.kill()


class Importing(unittest.TestCase):
    def imported(self, **more):
        # Python also looks for modules in the working directory.
        return subprocess.run([sys.executable, "-c", "import mold"], cwd="/", stderr=subprocess.PIPE, text=True,
                              timeout=PATIENCE, env=environment(**more))

    def test_a_library_that_cannot_be_used(self):
        for path in (__file__, os.path.join(TOP, "no-such-file"), "libc.so.6"):
            done = self.imported(MOLD_LIBRARY=path)
            self.assertIn(f"ImportError: {path} cannot be used as libmold.so", done.stderr)

    def test_the_module_beside_its_library(self):
        with tempfile.TemporaryDirectory() as folder:
            os.symlink(os.path.join(TOP, "mold"), os.path.join(folder, "mold"))
            os.symlink(os.path.realpath(mold.native.library._name), os.path.join(folder, "libmold.so"))
            done = self.imported(MOLD_LIBRARY="", PYTHONPATH=folder)
            self.assertEqual((done.returncode, done.stderr), (0, ""))

    def test_the_prebuilt_library(self):
        with tempfile.TemporaryDirectory() as folder:
            package, find = os.path.join(folder, "library", "python"), os.path.join(folder, "prebuilt", "find")
            for path in (package, os.path.dirname(find)):
                os.makedirs(path)
            os.symlink(os.path.join(TOP, "mold"), os.path.join(package, "mold"))
            # With other sources the script ends with status 1.
            for status, path in ((0, os.path.realpath(mold.native.library._name)), (1, "no-such-file")):
                with open(find, "w", encoding="ascii") as file:
                    file.write(f"[ \"$1\" = libmold.so ] && printf '%s\\n' '{path}' && exit {status}\n")
                done = self.imported(MOLD_LIBRARY="", PYTHONPATH=package)
                self.assertNotIn("no-such-file", done.stderr)
                self.assertTrue(done.returncode == 0 or status == 1, done.stderr)

    def test_no_library(self):
        with tempfile.TemporaryDirectory() as folder:
            os.symlink(os.path.join(TOP, "mold"), os.path.join(folder, "mold"))
            done = self.imported(MOLD_LIBRARY="", PYTHONPATH=folder)
            if done.returncode == 0:
                self.skipTest("the system has an installed libmold.so")
            self.assertIn("ImportError: libmold.so was not found", done.stderr)
