#!/usr/bin/env python3
"""Runs the proved program `silkit pipe` on random streams and compares it with a plain reference.

usage: random_streams.py [COUNT [SEED]]

The reference below is written from docs/FORMATS.md and the README alone. It reads a whole stream,
and works out what is written and the status. A stream is a list of messages of every kind, sometimes
cut, sometimes with a byte changed.
"""
import os
import random
import subprocess
import sys

TOP = os.path.dirname(os.path.dirname(os.path.abspath(__file__)))
PROGRAM = os.path.join(TOP, "crates", "silkit", "out", "silkit")


def number(value, width):
    return value.to_bytes(width, "little")


def counted(data, width=1):
    return number(len(data), width) + data


def frame(kind, fields=b"", version=1):
    return counted(bytes([version, kind]) + fields, 4)


def hello(name, role):
    return frame(1, counted(name) + bytes([role]) + counted(b""))


def next_step(at, size):
    return frame(3, number(at, 8) + number(size, 8))


LEAVE = frame(2)


class Bad(Exception):
    pass


class Fields:
    """The fields of a body, read in order."""

    def __init__(self, data):
        self.data = data

    def take(self, count):
        if len(self.data) < count:
            raise Bad
        taken, self.data = self.data[:count], self.data[count:]
        return taken

    def number(self, width, low=0, high=None):
        value = int.from_bytes(self.take(width), "little")
        if value < low or (high is not None and value > high):
            raise Bad
        return value

    def text(self, least=0):
        data = self.take(self.number(1))
        try:
            data.decode("utf-8")
        except UnicodeDecodeError:
            raise Bad from None
        if not least <= len(data) <= 64 or any(byte < 32 or byte == 127 for byte in data):
            raise Bad
        return data

    def bytes(self):
        data = self.take(self.number(2))
        if len(data) > 4096:
            raise Bad
        return data

    def head(self):
        self.number(4)
        self.number(8, 0, 2**62)
        self.number(8, 0, 2**63)


def read_body(body):
    """The kind and what `pipe` looks at: a Hello's role, a NextStep's time."""
    fields = Fields(body)
    if fields.number(1) != 1:
        raise Bad
    kind = fields.number(1)
    seen = None
    if kind == 1:
        fields.text(1)
        seen = fields.number(1, 0, 4)
        fields.text()
    elif kind == 3:
        seen = fields.number(8, 0, 2**62)
        fields.number(8, 1, 2**60)
    elif kind == 4:
        fields.number(4, 0, 63)
        fields.number(1, 1, 7)
        fields.text(1)
        fields.text(1)
        fields.text()
        keys = set()
        for _ in range(fields.number(1, 0, 16)):
            key = fields.text(1)
            if key in keys:
                raise Bad
            keys.add(key)
            fields.text()
            fields.number(1, 0, 1)
    elif kind == 6:
        if fields.number(1) not in range(10, 121, 10):
            raise Bad
        fields.number(8, 0, 2**62)
    elif kind == 7:
        names = [fields.text(1) for _ in range(fields.number(1, 1, 32))]
        if len(set(names)) < len(names):
            raise Bad
    elif kind == 9:
        fields.head()
        identifier = fields.number(4)
        flags = fields.number(1, 0, 3)
        length = len(fields.bytes())
        longer = flags & 2 and length in (12, 16, 20, 24, 32, 48, 64)
        if identifier >= (2**29 if flags & 1 else 2**11) or (length > 8 and not longer):
            raise Bad
    elif kind == 10:
        fields.head()
        if not 60 <= len(fields.bytes()) <= 1518:
            raise Bad
    elif kind in (11, 12):
        fields.head()
        fields.number(1, 0, 63)
        if kind == 11:
            checksum = fields.number(1, 0, 2)
            carries = fields.number(1, 0, 3) == 0
        else:
            carries = fields.number(1, 0, 2) == 2
            checksum = fields.number(1, 0, 2)
        length = len(fields.bytes())
        if length > 8 or (not carries and (checksum or length)):
            raise Bad
    elif kind == 13:
        fields.head()
        fields.bytes()
    elif kind in (14, 15):
        fields.head()
        if kind == 15:
            fields.number(4)
        fields.number(8, 1, 2**63)
        fields.bytes()
    elif kind == 16:
        fields.number(1, 1, 3)
    elif kind not in (2, 5, 8):
        raise Bad
    if fields.data:
        raise Bad
    return kind, seen


def messages(stream):
    """The messages of a stream, and whether a fault is behind them."""
    found = []
    while len(stream) >= 4:
        length = int.from_bytes(stream[:4], "little")
        if not 2 <= length <= 8192:
            return found, True
        if len(stream) < 4 + length:
            break
        try:
            found.append(read_body(stream[4 : 4 + length]))
        except Bad:
            return found, True
        stream = stream[4 + length :]
    return found, False


def expected(name, step, duration, stream):
    """What `pipe` writes on this stream, and its status."""
    found, fault = messages(stream)
    role = last = None
    left = bad = False
    for kind, seen in found:
        if kind not in (1, 2, 3):
            continue
        if kind == 1:
            bad = role is not None
            role = role if bad else seen
        elif kind == 2:
            bad = role is None
            left = not bad
        else:
            bad = role not in (2, 3) or (last is not None and seen <= last)
            last = last if bad else seen
        if bad or left:
            break
    free = role is not None and role not in (2, 3)
    begun = 0
    while begun * step < duration:
        at = begun * step
        if role is None or not (free or left or (last is not None and last >= at)):
            break
        begun += 1
    output = hello(name, 2) + b"".join(next_step(i * step, step) for i in range(begun + 1))
    if begun * step >= duration:
        output += LEAVE
    return output, 0 if left else 10 if bad or fault else 11


def head(rng):
    return number(rng.randrange(64), 4) + number(rng.randrange(5), 8) + number(rng.randrange(5), 8)


def other(rng):
    """A message of a kind that `pipe` passes over, most often one in order."""
    data = bytes(rng.randrange(256) for _ in range(rng.randrange(9)))
    return rng.choice(
        [
            lambda: frame(4, number(rng.randrange(66), 4) + bytes([rng.randrange(1, 9)]) + counted(b"P")
                + counted(b"T") + counted(b"") + bytes([2]) + counted(b"k") + counted(b"v") + bytes([1])
                + counted(rng.choice([b"k", b"l"])) + counted(b"") + bytes([0])),
            lambda: frame(5),
            lambda: frame(6, bytes([rng.choice([10, 50, 120, 0, 55])]) + number(0, 8)),
            lambda: frame(7, bytes([2]) + counted(b"A") + counted(rng.choice([b"A", b"B"]))),
            lambda: frame(8),
            lambda: frame(9, head(rng) + number(rng.choice([1, 2047, 2048]), 4) + bytes([rng.randrange(5)]) + counted(data, 2)),
            lambda: frame(10, head(rng) + counted(bytes(rng.choice([59, 60, 61])), 2)),
            lambda: frame(11, head(rng) + bytes([rng.choice([1, 63, 64]), 0, rng.randrange(4)]) + counted(data[: rng.choice([0, 0, 9])], 2)),
            lambda: frame(12, head(rng) + bytes([1, rng.randrange(4), 0]) + counted(data[: rng.choice([0, 0, 9])], 2)),
            lambda: frame(13, head(rng) + counted(data, 2)),
            lambda: frame(14, head(rng) + number(rng.randrange(3), 8) + counted(data, 2)),
            lambda: frame(15, head(rng) + number(1, 4) + number(rng.randrange(1, 3), 8) + counted(data, 2)),
            lambda: frame(16, bytes([rng.randrange(1, 5)])),
        ]
    )()


def random_stream(rng):
    parts, at = [], 0
    if rng.random() < 0.95:
        parts.append(hello(b"B", rng.choice([2, 2, 2, 3, 0, 1, 4])))
    for _ in range(rng.randrange(12)):
        if rng.random() < 0.25:
            parts.append(other(rng))
        else:
            at += rng.choice([0, 1, 500, 1000, 1000, 1001, 2500]) if rng.random() < 0.3 else 1000
            parts.append(next_step(at, 1000))
    if rng.random() < 0.7:
        parts.append(LEAVE)
    if rng.random() < 0.1:
        parts.append(other(rng))
    stream = bytearray(b"".join(parts))
    if stream and rng.random() < 0.15:
        stream[rng.randrange(len(stream))] = rng.randrange(256)
    if rng.random() < 0.15:
        stream = stream[: rng.randrange(len(stream) + 1)]
    return bytes(stream)


def main():
    count = int(sys.argv[1]) if len(sys.argv) > 1 else 1000
    rng = random.Random(int(sys.argv[2]) if len(sys.argv) > 2 else 1)
    seen = {}
    for turn in range(count):
        stream = random_stream(rng)
        step = rng.choice([1, 7, 500, 1000, 3000])
        duration = rng.choice([0, 1, 999, 1000, 5000])
        output, status = expected(b"A", step, duration, stream)
        run = subprocess.run([PROGRAM, "pipe", "A", str(step), str(duration)], input=stream, capture_output=True)
        if (run.stdout, run.returncode, run.stderr) != (output, status, b""):
            print(f"stream {turn}: step {step}, duration {duration}, input {stream.hex()}")
            print(f"wanted status {status} and {output.hex()}")
            print(f"got status {run.returncode} and {run.stdout.hex()}")
            return 1
        seen[status] = seen.get(status, 0) + 1
    print(f"{count} random streams, statuses {dict(sorted(seen.items()))}: as the reference says")
    return 0


if __name__ == "__main__":
    sys.exit(main())
