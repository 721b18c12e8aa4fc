"""Peers of `mold receive` that do what a check states, datagram by datagram: senders on both lines, and servers. Each
process has its own loopback address."""
import os
import re
import select
import signal
import socket
import time
from contextlib import ExitStack, closing, contextmanager
from dataclasses import dataclass

import exchange
import model
import processes
import udp_peers
from exchange import NAME, SESSION

# The time limit of each wait, in seconds.
PATIENCE = 10
# Seconds between two looks at what is awaited.
PAUSE = 0.002
# Addresses of this machine that no server has.
STRANGERS = ("127.0.0.2", "127.0.0.3")
# A line of statistics.
STATS = re.compile(
    r"stats at (?P<at>\d+) next (?P<next>\d+) known (?P<known>\d+) gap (?P<gap>none none|\d+ \d+) "
    r"missing (?P<missing>\d+) stored (?P<stored>\d+) requests (?P<requests>\d+) answers (?P<answers>\d+) "
    r"useless (?P<useless>\d+) lost (?P<lost>\d+) contradictions (?P<contradictions>\d+) dropped (?P<dropped>\d+) "
    r"a datagrams (?P<a>\d+) first (?P<first_a>\d+) again (?P<again_a>\d+) refused (?P<refused_a>\d+) "
    r"late (?P<late_a>\d+)(?: b datagrams (?P<b>\d+) first (?P<first_b>\d+) again (?P<again_b>\d+) "
    r"refused (?P<refused_b>\d+) late (?P<late_b>\d+))?")


class Wrong(Exception):
    """The program did something wrong, for the given reason."""


def need(holds, *words):
    if not holds:
        raise Wrong(" ".join(str(it)[:500] for it in words))


def same(what, got, wanted):
    need(got == wanted, what, "is", got, "and not", wanted)


def await_that(holds, *words):
    """Waits until something holds, and returns it. It is Wrong if the time is over."""
    until = time.monotonic() + PATIENCE
    while not (found := holds()):
        need(time.monotonic() < until, "the time is over:", *words)
        time.sleep(PAUSE)
    return found


@contextmanager
def stopped(process):
    """Stops a program for a while."""
    process.send_signal(signal.SIGSTOP)
    os.waitid(os.P_PID, process.pid, os.WSTOPPED | os.WEXITED | os.WNOWAIT)
    yield
    process.send_signal(signal.SIGCONT)


def printed(numbers):
    """The lines of these messages of the exchange."""
    return "".join(f"{it} {model.printed_message(exchange.message(it))}\n" for it in numbers)


def data(first, *messages, session=SESSION):
    return model.encoding(model.Packet("data", session, first, messages))


def beat(number, session=SESSION):
    return model.encoding(model.Packet("heartbeat", session, number))


def bound(host, port=0):
    made = socket.socket(socket.AF_INET, socket.SOCK_DGRAM)
    made.bind((host, port))
    made.settimeout(PATIENCE)
    return made


@dataclass
class Asked:
    """A request that came to a server: the server's index, the time, the request, and who sent it."""

    server: int
    time: float
    first: int
    count: int
    sender: tuple


class Receiving:
    """A process of `mold receive` or `mold listen`, with a publisher, strangers and servers."""

    def __init__(self, mold, *options, command="receive", lines="ab", servers=1, session=("--session", NAME),
                 descriptors=()):
        self.opened = ExitStack()
        self.publisher, *self.strangers = (self.opened.enter_context(closing(bound(it)))
                                           for it in (udp_peers.own_host(), *STRANGERS))
        self.ports = [exchange.ServerPort(it, exchange.Server()) for it in range(servers)]
        for it in self.ports:
            self.opened.enter_context(closing(it.socket))
        self.asked_yet, self.lines = [], lines
        lines_of = [text for it in lines for text in (f"--{it}", exchange.address(it))]
        servers_of = [text for it in range(servers) for text in ("--server", exchange.address(it))]
        self.began = time.monotonic()
        self.command = [mold, command, *session, *lines_of, *servers_of, *map(str, options)]
        self.process = self.opened.enter_context(processes.running(self.command, descriptors=descriptors))
        need(udp_peers.await_ports(self.process, [exchange.PORTS[it] for it in lines]), "did not open its ports:",
             *self.texts())

    def __enter__(self):
        return self

    def __exit__(self, *_):
        self.opened.close()

    def texts(self):
        """Standard output and standard error so far."""
        return [processes.read_all(it).decode() for it in processes.streams()[1:]]

    def notes(self):
        """The whole lines of standard error so far."""
        return self.texts()[1].split("\n")[:-1]

    def send(self, line, *datagrams, by=None):
        """Sends datagrams on a line, from this socket or the publisher's. Waits until the program has received them."""
        to = udp_peers.own_host(), exchange.PORTS[line]
        for it in datagrams:
            (by or self.publisher).sendto(it, to)
        self.await_received(*to)

    def await_received(self, host, port):
        await_that(lambda: udp_peers.waiting(host, port) == 0 or self.process.poll() is not None,
                   "datagrams wait at", port)

    def look(self, patience=0):
        """Collects the requests that have come, and waits for one at most so long."""
        for port in select.select(self.ports, [], [], patience)[0]:
            self.asked_yet += [Asked(self.ports.index(port), it.time, it.first, it.count, sender)
                               for it, sender in port.receive()]
        self.asked_yet.sort(key=lambda it: it.time)

    def asked(self):
        """The next request."""
        until = time.monotonic() + PATIENCE
        while not self.asked_yet:
            need(time.monotonic() < until and self.process.poll() is None, "no request comes:", *self.texts())
            self.look(0.05)
        return self.asked_yet.pop(0)

    def respond(self, asked, *datagrams):
        """Sends responses from the server that was asked."""
        for it in datagrams:
            self.ports[asked.server].socket.sendto(it, asked.sender)
        self.await_received("0.0.0.0", asked.sender[1])

    def finish(self):
        """Status, standard output, and the lines of standard error."""
        until = time.monotonic() + PATIENCE
        while self.process.poll() is None:
            need(time.monotonic() < until, "does not end:", *self.texts())
            time.sleep(PAUSE)
        found = processes.finish(self.process)
        return found.status, found.text.decode(), found.errors.decode().splitlines()

    def finish_with(self, status, text, *notes):
        """The program ends with these texts."""
        same("the outcome", self.finish(), (status, text, list(notes)))

    def finish_with_stats(self, status, text, *notes):
        """The same, with one line of statistics before the notes. Returns its fields."""
        found_status, found_text, (stats, *others) = self.finish()
        same("the outcome", (found_status, found_text, others), (status, text, list(notes)))
        return fields_of(stats)


def fields_of(line):
    """The fields of a line of statistics."""
    found = STATS.fullmatch(line)
    need(found, "the statistics are", line)
    return {name: text if name == "gap" else text and int(text) for name, text in found.groupdict().items()}
