#!/usr/bin/env python3
"""Lines over UDP on this machine that lose datagrams. Each datagram that arrives at a port IN is forwarded to its port
OUT or dropped, at random with a fixed seed. About half are dropped. It ends after two seconds without a datagram, or
after thirty if none arrives at all. Then it prints how many datagrams each line lost.

    python3 examples/lossy-lines.py IN OUT [IN OUT]...
"""
import random
import select
import socket
import sys


class Line:
    def __init__(self, port, out):
        self.socket = socket.socket(socket.AF_INET, socket.SOCK_DGRAM)
        self.socket.bind(("127.0.0.1", port))
        self.out = ("127.0.0.1", out)
        self.chance = random.Random(port)
        self.received = self.lost = 0

    def fileno(self):
        return self.socket.fileno()

    def forward(self):
        datagram = self.socket.recv(65535)
        self.received += 1
        if self.chance.random() < 0.5:
            self.lost += 1
        else:
            self.socket.sendto(datagram, self.out)


ports = [int(argument) for argument in sys.argv[1:]]
lines = [Line(port, out) for port, out in zip(ports[::2], ports[1::2])]
wait = 30
while ready := select.select(lines, [], [], wait)[0]:
    wait = 2
    for line in ready:
        line.forward()
for line in lines:
    print(f"line to port {line.out[1]} lost {line.lost} of {line.received}")
