#!/usr/bin/env python3
"""Writes what a peer B with steps of 1,000 ns sends: Hello, COUNT announcements, and Leave.

usage: stream.py COUNT
"""
import struct
import sys

HELLO = b"\x06\0\0\0\x01\x01\x01B\x02\0"
LEAVE = b"\x02\0\0\0\x01\x02"


def step(number):
    return b"\x12\0\0\0\x01\x03" + struct.pack("<QQ", number * 1000, 1000)


sys.stdout.buffer.write(HELLO + b"".join(map(step, range(int(sys.argv[1])))) + LEAVE)
