#!/usr/bin/env python3
"""Writes a capture of datagrams, as a pcap file. Each line of standard input is one datagram in hexadecimal digits, as
`mold pack` prints them.

    python3 examples/write-capture.py ADDRESS > FILE

The datagrams are sent to ADDRESS, such as 239.192.1.1:26477, from 10.0.0.7:5000, one in each second. The frames are
those of raw IP, without checksums.
"""
import argparse
import socket
import struct
import sys

# The link type of raw IP, and the time of the first datagram, in seconds since 1970.
RAW, BEGIN = 101, 1764374400

parser = argparse.ArgumentParser(description=__doc__, formatter_class=argparse.RawDescriptionHelpFormatter)
parser.add_argument("address", metavar="ADDRESS")
host, _, port = parser.parse_args().address.rpartition(":")
source, target = socket.inet_aton("10.0.0.7"), socket.inet_aton(host)
output = sys.stdout.buffer
# The magic, the version 2.4, two fields that nobody uses, the longest frame and the link type.
output.write(struct.pack("<IHHIIII", 0xA1B2C3D4, 2, 4, 0, 0, 262144, RAW))
for number, line in enumerate(sys.stdin):
    payload = bytes.fromhex(line)
    udp = struct.pack(">HHHH", 5000, int(port), 8 + len(payload), 0) + payload
    packet = struct.pack(">BBHIBBH4s4s", 0x45, 0, 20 + len(udp), 0, 64, socket.IPPROTO_UDP, 0, source, target) + udp
    output.write(struct.pack("<IIII", BEGIN + number, 0, len(packet), len(packet)) + packet)
