#!/usr/bin/env python3
"""Sends datagrams to an address or to a multicast group. Each line of standard input is one datagram in hexadecimal
digits, as `mold pack` prints them.

    python3 examples/send.py [--pause SECONDS] [--interface ADDRESS] ADDRESS

It waits SECONDS after each datagram; the default is 0.001. The datagrams of a group leave by the network interface that
has the address given with --interface.
"""
import argparse
import socket
import sys
import time

parser = argparse.ArgumentParser(description=__doc__, formatter_class=argparse.RawDescriptionHelpFormatter)
parser.add_argument("--pause", type=float, default=0.001, metavar="SECONDS")
parser.add_argument("--interface", metavar="ADDRESS")
parser.add_argument("address", metavar="ADDRESS")
order = parser.parse_args()
host, _, port = order.address.rpartition(":")
sender = socket.socket(socket.AF_INET, socket.SOCK_DGRAM)
if order.interface:
    sender.setsockopt(socket.IPPROTO_IP, socket.IP_MULTICAST_IF, socket.inet_aton(order.interface))
for line in sys.stdin:
    sender.sendto(bytes.fromhex(line), (host, int(port)))
    time.sleep(order.pause)
