#!/usr/bin/env python3
"""Bytes, and what they are as streams, names, texts and payloads, worked out from the rules in docs/FORMATS.md alone.

    scripts/base_table.py           writes the table into crates/sk_tables, as `stdin` and `stdout`
    scripts/base_table.py --check   compares it with those

The proved program of crates/sk_tables is run on the first and has to answer the second. Each stream is also read
there in pieces of one byte and cut in two anywhere, and its messages are written again.
"""
import sys
from pathlib import Path

CRATE = Path(__file__).resolve().parent.parent / "crates/sk_tables"
LATEST = 2**62
LAST_MARK = 2**63
A_BYTE = b"\x55"


def u8(number):
    return number.to_bytes(1, "little")


def u16(number):
    return number.to_bytes(2, "little")


def u32(number):
    return number.to_bytes(4, "little")


def u64(number):
    return number.to_bytes(8, "little")


def name(text):
    return u8(len(text)) + text.encode()


def payload(length):
    return u16(length) + A_BYTE * length


def head(service=0, stamp=0, mark=0):
    return [u32(service), u64(stamp), u64(mark)]


LAST_HEAD = head(2**32 - 1, LATEST, LAST_MARK)


def frame(kind, fields, version=1):
    body = u8(version) + u8(kind) + b"".join(fields)
    return u32(len(body)) + body


def offset(fields, index):
    """Where the field of this index begins in a stream that begins with its frame."""
    return 4 + 2 + len(b"".join(fields[:index]))


HELLO, LEAVE, NEXT_STEP, SERVICE_ADD, SERVICES_END, STATUS, WORKFLOW, ABORT = range(1, 9)
CAN, ETH, LIN, LIN_RESPONSE, PUBLISH, CALL, REPLY, REFUSE = range(9, 17)
LONG = "n" * 64

# A message of each kind at its smallest: its fields.
SMALLEST = {
    HELLO: [name("A"), u8(0), name("")],
    LEAVE: [],
    NEXT_STEP: [u64(0), u64(1)],
    SERVICE_ADD: [u32(0), u8(1), name("A"), name("T"), name(""), u8(0)],
    SERVICES_END: [],
    STATUS: [u8(10), u64(0)],
    WORKFLOW: [u8(1), name("A")],
    ABORT: [],
    CAN: head() + [u32(0), u8(0), payload(0)],
    ETH: head() + [payload(60)],
    LIN: head() + [u8(0), u8(0), u8(0), payload(0)],
    LIN_RESPONSE: head() + [u8(0), u8(0), u8(0), payload(0)],
    PUBLISH: head() + [payload(0)],
    CALL: head() + [u64(1), payload(0)],
    REPLY: head() + [u32(0), u64(1), payload(0)],
    REFUSE: [u8(1)],
}

# Of those with numbers, names or bytes the largest.
LARGEST = {
    HELLO: [name(LONG), u8(4), name(LONG)],
    NEXT_STEP: [u64(LATEST), u64(2**60)],
    STATUS: [u8(120), u64(LATEST)],
    CAN: LAST_HEAD + [u32(2**29 - 1), u8(3), payload(64)],
    ETH: LAST_HEAD + [payload(1518)],
    LIN: LAST_HEAD + [u8(63), u8(2), u8(0), payload(8)],
    LIN_RESPONSE: LAST_HEAD + [u8(63), u8(2), u8(2), payload(8)],
    PUBLISH: LAST_HEAD + [payload(4096)],
    CALL: LAST_HEAD + [u64(2**63), payload(4096)],
    REPLY: LAST_HEAD + [u32(2**32 - 1), u64(2**63), payload(4096)],
    REFUSE: [u8(3)],
}


def longest_service():
    labels = []
    for last in "abcdefghijklmnop":
        labels += [name("k" * 63 + last), name("v" * 64), u8(1)]
    return frame(SERVICE_ADD, [u32(63), u8(7), name(LONG), name(LONG), name(LONG), u8(16)] + labels)


def longest_workflow():
    names = [name("n" * 63 + chr(ord("A") + index)) for index in range(32)]
    return frame(WORKFLOW, [u8(32)] + names)


# A publisher with one label, the label's fields among its own.
WITH_A_LABEL = [u32(5), u8(4), name("p"), name("t"), name("m"), u8(1), name("k"), name("v"), u8(1)]

# A field that breaks a rule in an else small message: the kind, the index of the field, and what stands there.
SPOILT = [
    (HELLO, 1, u8(5)),
    (HELLO, 0, name("")),
    (HELLO, 0, b"\x01\xff"),
    (NEXT_STEP, 0, u64(LATEST + 1)),
    (NEXT_STEP, 1, u64(0)),
    (NEXT_STEP, 1, u64(2**60 + 1)),
    (SERVICE_ADD, 0, u32(64)),
    (SERVICE_ADD, 1, u8(0)),
    (SERVICE_ADD, 1, u8(8)),
    (SERVICE_ADD, 5, u8(17)),
    (STATUS, 0, u8(0)),
    (STATUS, 0, u8(15)),
    (STATUS, 1, u64(LATEST + 1)),
    (WORKFLOW, 0, u8(0)),
    (WORKFLOW, 0, u8(33)),
    (CAN, 4, u8(4)),
    (ETH, 3, payload(59)),
    (ETH, 3, payload(1519)),
    (LIN, 3, u8(64)),
    (LIN, 4, u8(3)),
    (LIN, 5, u8(4)),
    (LIN, 6, payload(9)),
    (LIN_RESPONSE, 4, u8(3)),
    (PUBLISH, 1, u64(LATEST + 1)),
    (PUBLISH, 2, u64(LAST_MARK + 1)),
    (PUBLISH, 3, payload(4097)),
    (CALL, 3, u64(0)),
    (REPLY, 4, u64(2**63 + 1)),
    (REFUSE, 0, u8(0)),
    (REFUSE, 0, u8(4)),
]

# Fields of which each may stand, but not together, or not at the end: the kind, all fields, and where that is judged.
TOGETHER = [
    (SERVICE_ADD, SMALLEST[SERVICE_ADD][:5] + [u8(2), name("k"), name(""), u8(0), name("k"), name(""), u8(0)], 9),
    (SERVICE_ADD, SMALLEST[SERVICE_ADD][:5] + [u8(1), name("k"), name(""), u8(2)], 8),
    (WORKFLOW, [u8(0)], 0),
    (WORKFLOW, [u8(33)], 0),
    (WORKFLOW, [u8(2), name("A"), name("A")], 2),
    (CAN, head() + [u32(2**11), u8(0), payload(0)], 5),
    (CAN, head() + [u32(2**29), u8(1), payload(0)], 5),
    (CAN, head() + [u32(0), u8(0), payload(9)], 5),
    (CAN, head() + [u32(0), u8(2), payload(13)], 5),
    (LIN, head() + [u8(0), u8(0), u8(1), payload(1)], 6),
    (LIN, head() + [u8(0), u8(1), u8(3), payload(0)], 6),
    (LIN_RESPONSE, head() + [u8(0), u8(1), u8(0), payload(1)], 6),
]

# Fields of which the last is cut off, whatever else is wrong with it: the kind, the fields, and the last one's index.
CUT = [
    (SERVICE_ADD, SMALLEST[SERVICE_ADD][:5] + [u8(1), name("k"), name("")], 8),
    (CAN, head() + [u32(2**11), u8(0), u16(9)], 5),
    (PUBLISH, head() + [u16(4097)], 3),
]

# Streams whose front is no frame, or none of any kind: the messages before the fault, what it is, and where.
NO_FRAMES = [
    (u32(0), 0, "Short", 0),
    (u32(1), 0, "Short", 0),
    (u32(8193), 0, "TooLong", 0),
    (u32(2**24), 0, "TooLong", 0),
    (frame(LEAVE, []) + u32(0), 1, "Short", 6),
    # The version is judged before the kind, and the kind before the fields.
    (frame(LEAVE, [], version=2), 0, "BadVersion", 4),
    (frame(255, [], version=0), 0, "BadVersion", 4),
    (frame(0, []), 0, "BadKind", 5),
    (frame(17, []), 0, "BadKind", 5),
    (frame(LEAVE, [u8(0)]), 0, "BadField", 6),
    (frame(HELLO, [b"\x02\x41"]), 0, "Short", 6),
]


# A message of each kind that has fields, no two alike, and what is in it as the types of messages show it.
HEAD = head(1, 3, 2)
HEAD_SHOWN = "head: Head { service: 1, stamp: SimTime { ns: 3 }, mark: 2 }"


def text_shown(text):
    return f'Text {{ text: "{text}" }}'


def name_shown(text):
    return f"Name {{ text: {text_shown(text)} }}"


def bytes_shown(numbers):
    return f"Bytes {{ bytes: {list(numbers)} }}"


SHOWN = [
    (HELLO, [name("A"), u8(2), name("")],
        f"name: {name_shown('A')}, role: Participant {{ coordinated: false, synchronised: true }}, "
        f"address: {text_shown('')}"),
    (HELLO, [name("A"), u8(1), name("")],
        f"name: {name_shown('A')}, role: Participant {{ coordinated: true, synchronised: false }}, "
        f"address: {text_shown('')}"),
    (HELLO, [name("tool"), u8(4), name("[::1]:7000")],
        f"name: {name_shown('tool')}, role: Tool, address: {text_shown('[::1]:7000')}"),
    (NEXT_STEP, [u64(258), u64(772)], "at: SimTime { ns: 258 }, duration: 772"),
    (SERVICE_ADD, WITH_A_LABEL,
        f"service: Announced {{ service: Service {{ id: 5, kind: Publisher, name: {name_shown('p')}, "
        f"spec: Spec {{ topic: {name_shown('t')}, media: {text_shown('m')}, "
        f"labels: [Label {{ key: {name_shown('k')}, value: {text_shown('v')}, kind: Mandatory }}] }}, "
        "history: false } }"),
    (STATUS, [u8(70), u64(5)], "state: Stopping, until: SimTime { ns: 5 }"),
    (WORKFLOW, [u8(2), name("B"), name("A")], f"required: Names {{ names: [{name_shown('B')}, {name_shown('A')}] }}"),
    (CAN, HEAD + [u32(0x123), u8(2), u16(1) + b"\x77"],
        f"{HEAD_SHOWN}, frame: CanFrame {{ id: 291, extended: false, fd: true, payload: {bytes_shown(b'w')} }}"),
    (CAN, HEAD + [u32(0x12345), u8(1), u16(1) + b"\x77"],
        f"{HEAD_SHOWN}, frame: CanFrame {{ id: 74565, extended: true, fd: false, payload: {bytes_shown(b'w')} }}"),
    (ETH, HEAD + [payload(60)], f"{HEAD_SHOWN}, payload: {bytes_shown(A_BYTE * 60)}"),
    (LIN, HEAD + [u8(7), u8(1), u8(0), u16(1) + b"\x77"],
        f"{HEAD_SHOWN}, frame: LinFrame {{ id: 7, checksum: Classic, status: RxOk, payload: {bytes_shown(b'w')} }}"),
    (LIN_RESPONSE, HEAD + [u8(7), u8(2), u8(1), u16(1) + b"\x77"],
        f"{HEAD_SHOWN}, response: LinResponse {{ id: 7, mode: TxUnconditional, checksum: Classic, "
        f"payload: {bytes_shown(b'w')} }}"),
    (PUBLISH, HEAD + [u16(3) + b"abc"], f"{HEAD_SHOWN}, payload: {bytes_shown(b'abc')}"),
    (CALL, HEAD + [u64(6), u16(1) + b"\x77"], f"{HEAD_SHOWN}, call: 6, payload: {bytes_shown(b'w')}"),
    (REPLY, HEAD + [u32(4), u64(6), u16(1) + b"\x77"],
        f"{HEAD_SHOWN}, client: 4, call: 6, payload: {bytes_shown(b'w')}"),
    (REFUSE, [u8(2)], "reason: Full"),
]
KIND_NAMES = [
    "Hello", "Leave", "NextStep", "ServiceAdd", "ServicesEnd", "Status", "Workflow", "Abort",
    "Can", "Eth", "Lin", "LinResponse", "Publish", "Call", "Reply", "Refuse",
]
# What is a text or isn't, and a name likewise but for the empty one.
TEXTS = [
    "", " ", "~", "a", "Engine", "text/plain", "Größe", "日本", "a" * 64, "a" * 65,
    # Too long and a control character: the length is judged first.
    "\n" + "a" * 64,
    "a\nb", "\0", "ab\x1f\x1f", "ä\x7f", " \t",
]
# A byte that no UTF-8 has, one that is cut off, and a surrogate.
NO_TEXTS = [b"\xff", b"a\xc3", b"\xed\xa0\x80"]


def text_fault(text):
    if len(text.encode()) > 64:
        return f"TooLong({len(text.encode())})"
    for index, byte in enumerate(text.encode()):
        if byte < 0x20 or byte == 0x7F:
            return f"Control({index})"
    return None


def texts():
    for text in TEXTS:
        for word in ("name", "text"):
            found = "Empty" if word == "name" and not text else text_fault(text)
            row = digits(text.encode()) or "00*0"
            yield f"{word} {row}", f"[{text}] [{text}]" if found is None else f"[{found}] [none]"
    for data in NO_TEXTS:
        for word in ("name", "text"):
            yield f"{word} {data.hex()}", "[no UTF-8] [none]"


def digits(stream):
    """A stream in hexadecimal, many equal bytes as one piece."""
    pieces = []
    start = 0
    while start < len(stream):
        end = start
        while end < len(stream) and stream[end] == stream[start]:
            end += 1
        if end - start >= 16:
            pieces.append(f"{stream[start]:02x}*{end - start}")
        elif pieces and "*" not in pieces[-1]:
            pieces[-1] += stream[start:end].hex()
        else:
            pieces.append(stream[start:end].hex())
        start = end
    return " ".join(pieces)


def found(messages, open_bytes=0):
    return f"{messages} messages, {open_bytes} bytes open"


def fault(messages, what, at):
    return f"{messages} messages, {what} at {at}"


def faults():
    """All streams with a fault: the messages before it, what it is, and where."""
    yield from NO_FRAMES
    for kind, index, spoilt in SPOILT:
        fields = list(SMALLEST[kind])
        fields[index] = spoilt
        yield frame(kind, fields), 0, "BadField", offset(fields, index)
    for kind, fields, index in TOGETHER:
        yield frame(kind, fields), 0, "BadField", offset(fields, index)
    for kind, fields, index in CUT:
        yield frame(kind, fields), 0, "Short", offset(fields, index)


def ends():
    """Bodies that end within their fields, and the field of which the next byte would be."""
    for kind, fields in [*SMALLEST.items(), (SERVICE_ADD, WITH_A_LABEL)]:
        body = b"".join(fields)
        for cut in range(len(body)):
            index = next(i for i in range(len(fields)) if offset(fields, i + 1) - 6 > cut)
            yield frame(kind, [body[:cut]]), 0, "Short", offset(fields, index)


def streams():
    """A section's title, or a stream and what is found in it."""
    step = frame(NEXT_STEP, SMALLEST[NEXT_STEP])
    leave = frame(LEAVE, [])
    hello = frame(HELLO, SMALLEST[HELLO])
    yield "# Nothing, and open rests.", None
    yield "00*0", found(0)
    yield "120000", found(0, 3)
    yield digits(step[:21]), found(0, 21)
    yield f"{step[:21].hex()} {step[21:].hex()}", found(1)
    yield f"{leave.hex()} {step[:5].hex()} 00*0", found(1, 5)
    yield f"{hello.hex()} {step.hex()}{leave.hex()}", found(3)
    yield "# Each kind at its smallest.", None
    for kind, fields in SMALLEST.items():
        yield digits(frame(kind, fields)), found(1)
    yield "# Of those with numbers, names or bytes the largest.", None
    for kind, fields in LARGEST.items():
        yield digits(frame(kind, fields)), found(1)
    for stream in (longest_service(), longest_workflow()):
        yield digits(stream), found(1)
    yield "# Faults.", None
    for stream, messages, what, at in faults():
        yield digits(stream), fault(messages, what, at)
    yield "# The same behind a Hello, in two pieces and no bytes, and before a Leave.", None
    for stream, messages, what, at in faults():
        half = len(stream) // 2
        pieces = [hello.hex(), digits(stream[:half]), digits(stream[half:]), "00*0", leave.hex()]
        yield " ".join(pieces), fault(messages + 1, what, at + len(hello))
    yield "# A body that ends within a field is Short at that field.", None
    for stream, messages, what, at in ends():
        yield digits(stream), fault(messages, what, at)


def rows():
    """All lines, each with its answer."""
    for stream, answer in streams():
        yield (stream, stream) if answer is None else (f"read {stream}", answer)
    yield ("# What is in messages.",) * 2
    for kind, fields, shown in SHOWN:
        yield f"show {digits(frame(kind, fields))}", f"{KIND_NAMES[kind - 1]} {{ {shown} }}"
    for kind in (LEAVE, SERVICES_END, ABORT):
        yield f"show {digits(frame(kind, []))}", KIND_NAMES[kind - 1]
    yield ("# Names and texts, as they are made and as they are read.",) * 2
    yield from texts()
    yield ("# Payloads.",) * 2
    yield "payload 00*0", "kept"
    yield "payload 00ff", "kept"
    yield "payload 07*4096", "kept"
    yield "payload 07*4097", "TooLong(4097)"


def main():
    table = list(rows())
    files = {CRATE / "stdin": [row for row, _ in table], CRATE / "stdout": [answer for _, answer in table]}
    texts = {path: "".join(f"{line}\n" for line in lines) for path, lines in files.items()}
    if sys.argv[1:] != ["--check"]:
        for path, text in texts.items():
            path.write_text(text, encoding="utf-8")
        return 0
    for path, text in texts.items():
        if path.read_text(encoding="utf-8") != text:
            print(f"{path.name}: the table isn't that of the rules", file=sys.stderr)
            return 1
    print(f"base: {sum(not row.startswith('#') for row, _ in table)} rows")
    return 0


if __name__ == "__main__":
    sys.exit(main())
