#!/usr/bin/env python3
"""Shows the gaps of a captured session, and how late line B is after line A.

    PYTHONPATH=library/python python3 library/python/examples/gaps.py [--session SESSION] [--picture FILE] CAPTURE

The session is that of the first packet, unless --session names another. Line A is the first destination of the session
in the capture, and line B the second. The script prints

    datagrams N skipped S partial P    of the capture: all, and the frames of other kinds
    line A TO datagrams D missing M    a row for each line, and one for both together
    gap A FIRST LAST                   a row for each range of missing messages, of each line and of both
    late ...                           the delay of line B after line A, of the packets that both brought

A message is missing if a later one is in the capture. With --picture and matplotlib, both are drawn to FILE, a PNG. The
script prints them as bars if --picture is not given, or if matplotlib is not installed.
"""
import argparse
import statistics
import sys
from typing import Dict, List, Optional, Tuple

import mold

NAMES = ("A", "B")
BOTH = "both"
# The number of characters of a bar, and the number of rows of the delays.
WIDTH, ROWS = 60, 10
MICROSECOND = 1000


class Line:
    """What a line brought: its datagrams, the time of each data packet by its number, and what is missing."""

    def __init__(self, name: str, target: str) -> None:
        self.name, self.target, self.datagrams = name, target, 0
        self.times: Dict[int, int] = {}
        self.checker = mold.Checker()

    def take(self, time: int, packet: mold.Packet, datagram: bytes) -> None:
        self.datagrams += 1
        self.checker.take(datagram)
        if packet.messages:
            self.times.setdefault(packet.sequence, time)

    def gaps(self, first: int) -> List[mold.Range]:
        """The missing ranges from a number on."""
        return [mold.Range(max(it.first, first), it.last) for it in self.checker.ranges() if it.last >= first]


class Session:
    """The datagrams of a session in a capture, on its lines and together."""

    def __init__(self, name: Optional[bytes]) -> None:
        self.name = name
        self.lines: Dict[mold.Address, Line] = {}
        self.together = Line(BOTH, "")
        self.first = self.top = 0

    def read(self, capture: mold.Capture) -> None:
        for datagram in capture:
            try:
                packet = mold.decode(datagram.payload)
            except mold.MoldError:
                continue
            self.name = self.name or packet.session
            if packet.session == self.name:
                self.take(datagram, packet)

    def take(self, datagram: mold.Datagram, packet: mold.Packet) -> None:
        if datagram.destination not in self.lines and len(self.lines) < len(NAMES):
            target = "{}:{}".format(*datagram.destination)
            self.lines[datagram.destination] = Line(NAMES[len(self.lines)], target)
        if datagram.destination not in self.lines:
            return
        for line in (self.lines[datagram.destination], self.together):
            line.take(datagram.time, packet, datagram.payload)
        self.first = min(self.first or packet.sequence, packet.sequence)
        self.top = max(self.top, packet.top)

    def all_lines(self) -> List[Line]:
        return [*self.lines.values(), self.together]

    def delays(self) -> List[Tuple[int, float]]:
        """The number of each packet that both lines brought, and the microseconds by which line B was later."""
        if len(self.lines) < len(NAMES):
            return []
        a, b = (line.times for line in self.lines.values())
        return sorted((number, (b[number] - a[number]) / MICROSECOND) for number in a.keys() & b.keys())


def print_table(session: Session, capture: mold.Capture) -> None:
    print(f"datagrams {session.together.datagrams} skipped {capture.skipped} partial {capture.partial}")
    for line in session.all_lines():
        missing = sum(gap.last - gap.first + 1 for gap in line.gaps(session.first))
        print(" ".join(filter(None, ("line", line.name, line.target))), f"datagrams {line.datagrams} missing {missing}")
    for line in session.all_lines():
        for gap in line.gaps(session.first):
            print(f"gap {line.name} {gap.first} {gap.last}")
    delays = [delay for _, delay in session.delays()]
    if delays:
        print(f"late packets {len(delays)} least {min(delays):.1f} us median {statistics.median(delays):.1f} us "
              f"greatest {max(delays):.1f} us")


def print_bars(session: Session) -> None:
    """Prints where messages are missing, as a bar of the session for each line, and the delays as a histogram."""
    scale = WIDTH / max(1, session.top - session.first)
    for line in session.all_lines():
        bar = ["."] * WIDTH
        for gap in line.gaps(session.first):
            begin, end = (int((number - session.first) * scale) for number in (gap.first, gap.last + 1))
            end = max(end, begin + 1)
            bar[begin:end] = "#" * (end - begin)
        print(f"{line.name:>4} {''.join(bar)}")
    delays = [delay for _, delay in session.delays()]
    if delays:
        print_histogram(delays)


def print_histogram(delays: List[float]) -> None:
    least, step = min(delays), (max(delays) - min(delays)) / ROWS or 1.0
    counts = [0] * ROWS
    for delay in delays:
        counts[min(ROWS - 1, int((delay - least) / step))] += 1
    for row, count in enumerate(counts):
        print(f"{least + row * step:10.1f} us {count:8} {'#' * round(WIDTH * count / max(counts))}".rstrip())


def draw(session: Session, path: str) -> bool:
    """Draws the gaps and the delays to a file. Returns False if matplotlib is not installed."""
    try:
        import matplotlib
    except ImportError:
        return False
    matplotlib.use("Agg")
    from matplotlib import pyplot
    figure, (gaps, late) = pyplot.subplots(2, 1, sharex=True, figsize=(10, 6), layout="constrained")
    lines = session.all_lines()
    for row, line in enumerate(lines):
        ranges = [(gap.first, gap.last - gap.first + 1) for gap in line.gaps(session.first)]
        gaps.broken_barh(ranges, (row - 0.4, 0.8))
    gaps.set_yticks(range(len(lines)))
    gaps.set_yticklabels([line.name for line in lines])
    gaps.set_ylabel("missing on line")
    delays = session.delays()
    late.scatter([number for number, _ in delays], [delay for _, delay in delays], s=4)
    late.set_ylabel("line B after line A, µs")
    late.set_xlabel("sequence number")
    late.set_xlim(session.first, session.top)
    figure.savefig(path)
    return True


def main() -> int:
    parser = argparse.ArgumentParser(description=__doc__, formatter_class=argparse.RawDescriptionHelpFormatter)
    parser.add_argument("--session", type=mold.session_of)
    parser.add_argument("--picture", metavar="FILE")
    parser.add_argument("capture", metavar="CAPTURE")
    order = parser.parse_args()
    capture, session = mold.read_capture(order.capture), Session(order.session)
    try:
        session.read(capture)
    except (OSError, mold.CaptureError, mold.MoldError) as why:
        print(f"{order.capture}: {why}", file=sys.stderr)
        return 3
    print_table(session, capture)
    if order.picture and draw(session, order.picture):
        print(f"drawn {order.picture}")
    else:
        print_bars(session)
    return 0


if __name__ == "__main__":
    sys.exit(main())
