"""Peers of the program over UDP on this machine, for tests/long-run and fault_injection.py. Each process has its own
loopback address, so the ports of other processes do not matter. /proc/net/udp shows which datagrams the program has not
received yet."""
import os
import socket
import time

import generators
import model
import processes

LINE_A, LINE_B, SERVER, OWN = 9001, 9002, 9003, 9004
REQUESTING, FEEDING, PUBLISHED_A, PUBLISHED_B = 9005, 9006, 9007, 9008
# Seconds between two polls, and seconds that a datagram may wait before the program is woken.
PAUSE = 0.0002
MOST_WAIT = 0.002
# The time limit of each step, in seconds.
PATIENCE = 20
# How many messages of one byte fit in a datagram.
MOST_MESSAGES = 21000


def own_host():
    """A loopback address that no other process uses: its last three bytes are the process id."""
    return "127.{}.{}.{}".format(*os.getpid().to_bytes(3, "big"))


def bound(port):
    made = socket.socket(socket.AF_INET, socket.SOCK_DGRAM)
    made.setsockopt(socket.SOL_SOCKET, socket.SO_RCVBUF, 4 << 20)
    made.bind((own_host(), port))
    made.setblocking(False)
    return made


def arrived(own):
    """The datagrams that have arrived at a socket, with their senders."""
    received = []
    while True:
        try:
            received.append(own.recvfrom(65535))
        except BlockingIOError:
            return received


def socket_state(host, port):
    """The bytes that wait at a port, and how many datagrams the system has dropped there. None if the port is not open,
    and rarely otherwise: while other sockets are opened and closed, the system may leave out a row of its table."""
    wanted = f"{int.from_bytes(socket.inet_aton(host), 'little'):08X}:{port:04X}"
    with open("/proc/net/udp") as table:
        for line in table.readlines()[1:]:
            columns = line.split()
            if columns[1] == wanted:
                return int(columns[4].split(":")[1], 16), int(columns[-1])
    return None


def waiting(host, port):
    """How many bytes wait at a port, or None if it is not open."""
    state = socket_state(host, port)
    return state and state[0]


def await_ports(process, ports):
    """Waits until a program has opened these ports, and returns whether it has. It may have ended instead."""
    until = time.monotonic() + PATIENCE
    while time.monotonic() < until and process.poll() is None:
        if all(waiting(own_host(), port) is not None for port in ports):
            return True
        time.sleep(PAUSE)
    return False


class Feed:
    """Sends datagrams to a program one by one, each after the program has received the previous one."""

    def __init__(self, process, own):
        self.process = process
        self.own = own
        self.received = []

    def collect(self):
        """The datagrams that the program has sent back since the last call."""
        self.received += arrived(self.own)
        received, self.received = self.received, []
        return received

    def send(self, some_bytes, port, wake=None, bound_to=None):
        """Sends a datagram, and waits until the program has received it or has ended. If the datagram waits too long,
        `wake` is called."""
        self.own.sendto(some_bytes, (own_host(), port))
        since = time.monotonic()
        until = since + PATIENCE
        while self.process.poll() is None and waiting(bound_to or own_host(), port) and time.monotonic() < until:
            self.received += arrived(self.own)
            if wake and time.monotonic() > since + MOST_WAIT:
                wake()
                since = time.monotonic()
            time.sleep(PAUSE)


def publish_to(command, some_bytes, own):
    """The outcome of `publish`, and the datagrams of both lines, which are sockets of this worker."""
    addresses = [f"{own_host()}:{it.getsockname()[1]}" for it in own]
    for it in own:
        arrived(it)
    received = [[], []]
    with processes.running([*command, "--a", addresses[0], "--b", addresses[1]], some_bytes) as process:
        while process.poll() is None:
            for it, datagrams in zip(own, received):
                datagrams += arrived(it)
            time.sleep(PAUSE)
        outcome = processes.finish(process)
    return outcome, [datagrams + arrived(it) for it, datagrams in zip(own, received)]


def request_from_server(command, requests, own):
    """The outcome of `serve` with one turn for each request, and the datagrams that it sent."""
    arrived(own)
    arguments = ["--bind", f"{own_host()}:{SERVER}", "--turns", str(len(requests))]
    with processes.running([*command, *arguments]) as process:
        feed, received = Feed(process, own), []
        if await_ports(process, [SERVER]):
            for it in requests:
                feed.send(it, SERVER)
                received += feed.collect()
        outcome = processes.finish(process)
    return outcome, [it for it, _ in received + feed.collect()]


class Listening:
    """A listener that is fed datagrams one by one, and then brought to its end."""

    def __init__(self, process, own, view, form):
        self.feed = Feed(process, own)
        self.view = view
        self.form = form
        # Whether it was given an empty message that it cannot print. It then ends, and is sent nothing more.
        self.stopped = False
        # The view at the last call of `check_requests`.
        self.before = view
        # The datagrams that it was fed, with their ways.
        self.sent = []
        # How many heartbeats were sent on line A to wake it.
        self.beats = 0
        # The port that its requests come from.
        self.requester = None
        # Its requests that the model does not expect.
        self.unwanted = []

    def record(self, way, datagram):
        self.sent.append((way, datagram))
        printed = []
        self.view = model.take(self.view, datagram, printed)
        self.stopped = self.form == "blocks to empty" and any(model.empty_number(it.encode()) for it in printed)

    def check_requests(self):
        """Receives requests. Each has to be the expected one now or before the last datagram."""
        wanted = [it.wanted().encoding() for it in (self.before, self.view) if it.wanted()]
        self.before = self.view
        for request, sender in self.feed.collect():
            self.requester = sender[1]
            if request not in wanted:
                self.unwanted.append(request)

    def wake(self):
        """Sends a heartbeat with number 1. It changes and prints nothing, but ends the wait for both lines."""
        self.beats += 1
        self.feed.own.sendto(self.beat(), (own_host(), LINE_A))

    def beat(self):
        return model.encoding(model.Packet("heartbeat", self.view.session, 1))

    def send(self, way, datagram):
        """Sends a datagram on a line or as a response."""
        if self.stopped:
            return
        if way != b"answer":
            self.record(way, datagram)
            self.feed.send(datagram, LINE_A if way == b"a" else LINE_B)
        elif self.has_requested():
            self.record(way, datagram)
            self.feed.send(datagram, self.requester, self.wake, "0.0.0.0")
            # Wait until the listener has received this heartbeat and those that woke it.
            self.beats += 1
            self.feed.send(self.beat(), LINE_A)
        self.check_requests()

    def has_requested(self):
        """Waits for a request, and returns whether there was one. A listener with a gap sends one in each turn."""
        until = time.monotonic() + PATIENCE
        while self.requester is None and self.feed.process.poll() is None and time.monotonic() < until:
            self.check_requests()
            time.sleep(PAUSE)
        return self.requester is not None

    def bring_to_end(self):
        """Sends the missing messages and the end of session."""
        while self.view.wanted() and not self.stopped:
            first, count = self.view.next, min(self.view.wanted().count, MOST_MESSAGES)
            messages = tuple(b"%d" % (it % 10) for it in range(first, first + count))
            self.send(b"a", model.encoding(model.Packet("data", self.view.session, first, messages)))
        if not self.view.is_finished():
            self.send(b"b", model.encoding(model.Packet("end", self.view.session, self.view.known)))


def feed_listener(command, view, form, items, own):
    """The outcome of `listen`, which starts with this view and prints messages in this form, and the `Listening` with
    what it was sent."""
    arrived(own)
    ports = {"a": LINE_A, "b": LINE_B, "server": OWN}
    addresses = [f"--{name}={own_host()}:{port}" for name, port in ports.items()]
    with processes.running([*command, *addresses, "--turns", "1000000"]) as process:
        listening = Listening(process, own, view, form)
        if await_ports(process, [LINE_A, LINE_B]):
            for way, datagram in items:
                if generators.view_after(listening.view, way, datagram):
                    listening.send(way, datagram)
            listening.bring_to_end()
        return processes.finish(process), listening
