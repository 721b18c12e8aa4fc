"""An exchange over UDP on this machine, for tests of `mold receive`: a publisher that sends on two lossy lines, and
re-request servers. One loop runs all of it while the receiver, which is another process, runs."""
import heapq
import itertools
import math
import random
import select
import socket
import struct
import time
from dataclasses import dataclass, replace

import model
import udp_peers

NAME = "REPAIR"
SESSION = model.padded(NAME)
LINES = ("a", "b")
PORTS = {"a": udp_peers.LINE_A, "b": udp_peers.LINE_B}
# The port of the first server. Those of the others follow.
SERVERS = 9010
# Seconds between two calls of the publisher, and between two end packets.
STEP = 0.001
END_GAP = 0.02
# Seconds after which a receiver that has not ended is stopped.
PATIENCE = 20
# The option by which the system reports when a datagram came, and the form of that time. Python has no names for them.
SO_TIMESTAMPNS = 35
STAMP = struct.Struct("@ll")


@dataclass(frozen=True)
class Line:
    """What a line does with the datagrams of the publisher. Times are in seconds."""

    # The part of the datagrams that it loses, and that it repeats.
    lost: float = 0
    repeated: float = 0
    # How much later it brings each datagram, and by how much that varies.
    late: float = 0
    jitter: float = 0
    # How often bytes that are not a packet follow a datagram.
    foreign: float = 0
    # The index of the first packet that it no longer brings.
    dead_from: float = math.inf


@dataclass(frozen=True)
class Server:
    """A re-request server. Times are in seconds."""

    late: float = 0.005
    # The part of the requests that it loses.
    lost: float = 0
    is_dead: bool = False
    # The most requests of a second to which it responds, or 0 for no limit.
    limit: int = 0
    # The most messages of a response.
    most: int = 30
    # The numbers of messages that it does not have.
    lacks: range = range(0)


@dataclass(frozen=True)
class Plan:
    """A session, its lines and its servers."""

    packets: int = 3000
    # Messages in each packet, and packets in each second.
    count: int = 2
    rate: int = 10_000
    # The part of the packets that both lines lose, and a range of packets that both lose.
    common: float = 0
    cut: range = range(0)
    # The index of the first packet that is sent. Those before it were sent before the receiver began.
    start: int = 0
    a: Line = Line()
    # None if there is only line A.
    b: Line = Line()
    servers: tuple = (Server(),)

    def end(self):
        """One more than the number of the last message."""
        return self.packets * self.count + 1

    def first_of(self, index):
        """The number of the first message of a packet."""
        return index * self.count + 1

    def numbers(self, packets):
        """The numbers of the messages of a range of packets."""
        return range(self.first_of(packets.start), self.first_of(packets.stop))


def message(number):
    """A message of 8 to 32 bytes, or an empty one."""
    return b"" if number % 97 == 96 else number.to_bytes(8, "big") + bytes([number % 251]) * (number * 31 % 25)


def messages(first, end):
    return tuple(map(message, range(first, end)))


def data(first, end, session=SESSION):
    """The datagram of the messages from `first` to just below `end`."""
    return model.encoding(model.Packet("data", session, first, messages(first, end)))


def end_packet(number, session=SESSION):
    return model.encoding(model.Packet("end", session, number))


def address(name):
    """The address of a line, or of a server by its index."""
    return f"{udp_peers.own_host()}:{PORTS.get(name) or SERVERS + name}"


def stamping(port):
    """A socket for `stamped`."""
    made = udp_peers.bound(port)
    made.setsockopt(socket.SOL_SOCKET, SO_TIMESTAMPNS, 1)
    return made


def stamped(own):
    """The datagrams that have come to a socket, each with the time when it came, and with its sender."""
    while True:
        try:
            datagram, extra, _, sender = own.recvmsg(65535, socket.CMSG_SPACE(STAMP.size))
        except BlockingIOError:
            return
        seconds, nanoseconds = STAMP.unpack(extra[0][2])
        yield datagram, seconds + nanoseconds / 1e9, sender


@dataclass
class Request:
    """A request that came to a server."""

    time: float
    first: int
    count: int


class ServerPort:
    """The port of a server, and the requests that came to it."""

    def __init__(self, index, server):
        self.server, self.requests = server, []
        self.socket = stamping(SERVERS + index)

    def fileno(self):
        return self.socket.fileno()

    def receive(self):
        """The requests that have come, with their senders."""
        for datagram, at, sender in stamped(self.socket):
            request = model.request_of(datagram)
            self.requests.append(Request(at, request.sequence, request.count))
            yield self.requests[-1], sender

    def is_over_limit(self):
        """Whether the last request is over the limit of its second."""
        second = int(self.requests[-1].time)
        return 0 < self.server.limit < sum(int(it.time) == second for it in self.requests)


class Exchange:
    """A publisher, its lines and its servers."""

    def __init__(self, plan, seed=""):
        self.plan = plan
        self.choices = random.Random(f"{plan} {seed}")
        self.events, self.order = [], itertools.count()
        # The clock when the first receiver began.
        self.began = None
        # The index of the next packet.
        self.index = plan.start
        self.sender = udp_peers.bound(0)
        self.servers = [ServerPort(*it) for it in enumerate(plan.servers)]
        # A flag for each number that a line brought.
        self.was_brought = bytearray(plan.end())
        # What a server does with the first request in place of a response, if this is set.
        self.on_request = None
        self.at(0, self.publish)

    def close(self):
        for it in (self.sender, *(it.socket for it in self.servers)):
            it.close()

    # Time.

    def at(self, seconds, action, *arguments):
        """Does something when so much time has passed."""
        heapq.heappush(self.events, (self.now() + seconds, next(self.order), action, arguments))

    def now(self):
        return 0 if self.began is None else time.monotonic() - self.began

    def run(self, process, seconds=PATIENCE, is_done=None):
        """Runs until the receiver has ended, or for a time, or until something is done."""
        if self.began is None:
            self.began = time.monotonic()
        until = self.now() + seconds
        while process.poll() is None and self.now() < until and not (is_done and is_done()):
            while self.events and self.events[0][0] <= self.now():
                _, _, action, arguments = heapq.heappop(self.events)
                action(*arguments)
            wait = self.events[0][0] - self.now() if self.events else STEP
            for it in select.select(self.servers, [], [], min(STEP, max(0, wait)))[0]:
                self.serve(it)

    def has(self, likelihood):
        return likelihood > 0 and self.choices.random() < likelihood

    # The publisher and the lines.

    def sent(self):
        """The number of the last message that the publisher has sent."""
        return self.plan.first_of(self.index) - 1

    def end_after(self, packets):
        """Ends the session after these further packets."""
        self.plan = replace(self.plan, packets=self.index + packets)

    def publish(self):
        """Sends the packets that are due, and later the next ones."""
        plan = self.plan
        due = min(plan.packets, plan.start + 1 + int(self.now() * plan.rate))
        while self.index < due:
            index, self.index = self.index, self.index + 1
            first, end = plan.first_of(index), plan.first_of(index + 1)
            if index not in plan.cut and not self.has(plan.common):
                self.send_on_lines(index, data(first, end), range(first, end))
        if self.index < plan.packets:
            self.at(STEP, self.publish)
        else:
            self.publish_end()

    def publish_end(self):
        self.send_on_lines(self.plan.packets, end_packet(self.plan.end()), range(0))
        self.at(END_GAP, self.publish_end)

    def send_on_lines(self, index, datagram, numbers):
        for name, line in zip(LINES, (self.plan.a, self.plan.b)):
            if line is None or index >= line.dead_from or self.has(line.lost):
                continue
            for number in numbers:
                self.was_brought[number] = 1
            for _ in range(1 + self.has(line.repeated)):
                late = line.late + line.jitter * self.choices.random()
                if late:
                    self.at(late, self.send, name, datagram)
                else:
                    self.send(name, datagram)
            if self.has(line.foreign):
                self.send(name, datagram[:-1])

    def send(self, name, datagram):
        """Sends a datagram on a line."""
        self.sender.sendto(datagram, (udp_peers.own_host(), PORTS[name]))

    # The servers.

    def serve(self, port):
        for request, sender in port.receive():
            server = port.server
            if self.on_request:
                self.on_request, action = None, self.on_request
                action(port, sender)
            elif not (server.is_dead or port.is_over_limit() or self.has(server.lost)):
                end = min(request.first + min(request.count, server.most), self.plan.first_of(self.index))
                end = next((it for it in range(request.first, end) if it in server.lacks), end)
                if request.first < end:
                    self.at(server.late, port.socket.sendto, data(request.first, end), sender)

    # What happened.

    def requests(self):
        return sorted((request for port in self.servers for request in port.requests), key=lambda it: it.time)

    def most_in(self, seconds=1):
        """The most requests of a second, or of another time."""
        times = [it.time for it in self.requests()]
        low, most = 0, 0
        for high, at in enumerate(times):
            while times[low] <= at - seconds:
                low += 1
            most = max(most, high - low + 1)
        return most

    def least_requests(self):
        """How many requests the ranges need at least that no line brought."""
        most, least, length = max((it.most for it in self.plan.servers), default=1), 0, 0
        for flag in (*self.was_brought[1:], 1):
            if flag:
                least, length = least + -(-length // most), 0
            else:
                length += 1
        return least
