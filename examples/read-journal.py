#!/usr/bin/env python3
"""Prints the messages of a journal file as `mold listen` does. Each line has a sequence number and the message in
hexadecimal digits, or - for an empty message. It reads files of versions 1 to 3.

    python3 examples/read-journal.py FILE

It does not check the file. `mold upgrade --journal FILE --to /dev/null` reports whether the file is valid.
"""
import signal
import sys

# If the reader of the output closes the pipe early, as head does, end without a message.
signal.signal(signal.SIGPIPE, signal.SIG_DFL)
# The offset of the first message block or record, by the first eight bytes of the file.
OFFSETS = {b"MOLDJNL1": 18, b"MOLDJNL2": 27, b"MOLDJNL3": 18}

with open(sys.argv[1], "rb") as file:
    journal = file.read()
offset = OFFSETS[journal[:8]]
has_records = journal[:8] == b"MOLDJNL3"
number = 1
while offset < len(journal):
    # In version 3 two bytes come before each message block: an open gate and 00. Other bytes end the messages.
    if has_records:
        if journal[offset:offset + 2] != b"\1\0":
            break
        offset += 2
    length = int.from_bytes(journal[offset:offset + 2], "big")
    print(number, journal[offset + 2:offset + 2 + length].hex() or "-")
    offset += 2 + length
    number += 1
