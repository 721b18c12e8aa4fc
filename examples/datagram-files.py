#!/usr/bin/env python3
"""Makes files of datagrams that `mold check` reads. Each line of standard input is one datagram in hexadecimal digits.
The files are FOLDER/PREFIX00000001.pkt and so on, in the order of the lines.

    python3 examples/datagram-files.py FOLDER [PREFIX]

The folder is made if it does not exist. Existing files with these names are replaced. Empty lines are skipped.
"""
import os
import sys

folder, prefix = sys.argv[1], "".join(sys.argv[2:3])
os.makedirs(folder, exist_ok=True)
number = 0
for line in sys.stdin:
    if line.strip():
        number += 1
        with open(os.path.join(folder, f"{prefix}{number:08}.pkt"), "wb") as file:
            file.write(bytes.fromhex(line))
print(f"files {number}")
