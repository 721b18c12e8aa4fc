#!/usr/bin/env python3
"""Receives two lines of a session, requests what both lost, and prints each message once, in order.

    PYTHONPATH=library/python python3 library/python/examples/receive.py SESSION A B SERVER

SESSION is the name of the session. A and B are the ports of the lines, and SERVER is the port of the re-request server,
all at 127.0.0.1. A message is printed as its number and its bytes in hexadecimal digits. The script ends when all
messages of the session were delivered. A datagram that is refused is reported on standard error.
"""
import selectors
import socket
import sys
import time

import mold

HOST, GREATEST = "127.0.0.1", 65_535
SECOND = 10**9


def opened(port: int) -> socket.socket:
    """A socket that receives datagrams at a port; 0 is any free port."""
    made = socket.socket(socket.AF_INET, socket.SOCK_DGRAM)
    made.bind((HOST, port))
    return made


def until_deadline(repairer: mold.Repairer) -> float:
    """The seconds until the repairer's deadline, at most one."""
    now = time.monotonic_ns()
    deadline = repairer.deadline(now)
    return 1.0 if deadline is None else min(max(deadline - now, 0), SECOND) / SECOND


def take(repairer: mold.Repairer, origin: int, datagram: bytes) -> None:
    try:
        repairer.take(time.monotonic_ns(), origin, datagram)
    except mold.MoldError as why:
        print(f"refused: {why}", file=sys.stderr)


def main() -> None:
    session, *ports = sys.argv[1:]
    a, b, server = map(int, ports)
    sockets = {mold.Line.A: opened(a), mold.Line.B: opened(b), mold.Line.SERVER: opened(0)}
    with mold.Repairer(session) as repairer, selectors.DefaultSelector() as ready:
        for origin, line in sockets.items():
            ready.register(line, selectors.EVENT_READ, origin)
        while not repairer.finished:
            for key, _ in ready.select(until_deadline(repairer)):
                take(repairer, key.data, sockets[key.data].recv(GREATEST))
            for number, message in repairer.drain():
                print(number, message.hex(), flush=True)
            for request, _ in repairer.requests(time.monotonic_ns()):
                sockets[mold.Line.SERVER].sendto(request, (HOST, server))


if __name__ == "__main__":
    main()
