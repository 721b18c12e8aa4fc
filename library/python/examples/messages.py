#!/usr/bin/env python3
"""Prints the number and the bytes of each message of a capture.

    PYTHONPATH=library/python python3 library/python/examples/messages.py CAPTURE
"""
import sys

import mold

for datagram in mold.read_capture(sys.argv[1]):
    for number, message in mold.decode(datagram.payload).numbered():
        print(number, message.hex())
