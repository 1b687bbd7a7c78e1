#!/usr/bin/env python3
"""Runs the proved program `silkit check` on a table of configurations, one case per key and rule, on
files and outputs of the host that fail, and the program on words with and without a reading.

usage: configurations.py

What is wanted is written from docs/FORMATS.md and the README: the status, the output and the lines on
standard error.
"""
import json
import os
import subprocess
import sys
import tempfile
import time

TOP = os.path.dirname(os.path.dirname(os.path.abspath(__file__)))
PROGRAM = os.path.join(TOP, "crates", "silkit", "out", "silkit")

# Each list of services with the key of what its entries speak of.
LISTS = [
    ("CanControllers", "Network"),
    ("EthernetControllers", "Network"),
    ("LinControllers", "Network"),
    ("DataPublishers", "Topic"),
    ("DataSubscribers", "Topic"),
    ("RpcServers", "FunctionName"),
    ("RpcClients", "FunctionName"),
]
LONG = "n" * 65
# What stands where a text is wanted, and isn't one; and what is no name, and no address.
NO_TEXTS = [1, True, None, ["A"], {"A": 1}]
NO_NAMES = ["", LONG, "a\nb", "a\u007f"]
NO_ADDRESSES = [
    "",
    "localhost:8500",
    "tcp://localhost:8500",
    "silkit://:8500",
    "silkit://localhost",
    "silkit://localhost:",
    "silkit://localhost:0",
    "silkit://localhost:65536",
    "silkit://local_host:8500",
    "silkit://localhost:8500/",
    "silkit://" + "h" * 60 + ":1",
]
# Numbers that aren't whole as JSON is read here, and whole ones out of range.
NO_NUMBERS = ["1.0", "1e3", "-0", "-1", "18446744073709551616", '"1"', "null", "true", "[]"]


def cases():
    """Texts with the path and the rule that they break."""
    yield "[", "", "not JSON"
    yield "", "", "not JSON"
    yield '{"A":1e400}', "", "not JSON"
    yield '{"A":"\\ud800"}', "", "not JSON"
    yield "[" * 200 + "]" * 200, "", "not JSON"
    yield b'{"ParticipantName":"\xff"}', "", "not JSON"
    for root in ("1", "null", '"A"', "[]", "true"):
        yield root, "", "wrong type"
    for value in NO_TEXTS:
        yield {"ParticipantName": value}, "/ParticipantName", "wrong type"
        yield {"Middleware": {"RegistryUri": value}}, "/Middleware/RegistryUri", "wrong type"
    for value in NO_NAMES:
        yield {"ParticipantName": value}, "/ParticipantName", "bad value"
    for value in NO_ADDRESSES:
        yield {"Middleware": {"RegistryUri": value}}, "/Middleware/RegistryUri", "bad value"
    for value in (1, "A", None, []):
        yield {"Middleware": value}, "/Middleware", "wrong type"
    for key, target in LISTS:
        at = f"/{key}"
        for value in (1, "A", None, {}):
            yield {key: value}, at, "wrong type"
        yield {key: [{"Name": f"n{i}"} for i in range(65)]}, at, "bad value"
        # The length is judged before any entry.
        yield {key: [1] * 65}, at, "bad value"
        for value in (1, "A", None, []):
            yield {key: [{"Name": "a"}, value]}, f"{at}/1", "wrong type"
        yield {key: [{target: "t"}]}, f"{at}/0/Name", "missing"
        for value in NO_TEXTS:
            yield {key: [{"Name": value}]}, f"{at}/0/Name", "wrong type"
            yield {key: [{"Name": "a", target: value}]}, f"{at}/0/{target}", "wrong type"
        for value in NO_NAMES:
            yield {key: [{"Name": value}]}, f"{at}/0/Name", "bad value"
            yield {key: [{"Name": "a", target: value}]}, f"{at}/0/{target}", "bad value"
        # At the later of two, before its other keys.
        yield {key: [{"Name": "a"}, {"Name": "b"}, {"Name": "a", target: 1}]}, f"{at}/2/Name", "double"
        # The name comes before the rest of an entry, and an earlier entry before a later one.
        yield {key: [{"Name": 1, target: 1}]}, f"{at}/0/Name", "wrong type"
        yield {key: [{"Name": "a", target: 1}, {}]}, f"{at}/0/{target}", "wrong type"
    for text in NO_NUMBERS:
        entry = '{"DataPublishers":[{"Name":"a","History":%s}]}' % text
        yield entry, "/DataPublishers/0/History", "wrong type"
    for number in ("2", "18446744073709551615"):
        entry = '{"DataPublishers":[{"Name":"a","History":%s}]}' % number
        yield entry, "/DataPublishers/0/History", "bad value"
    # The order of the table: the name of the participant first, then the lists, then the middleware.
    for earlier, later in zip(LISTS, LISTS[1:]):
        yield {later[0]: 1, earlier[0]: 1}, f"/{earlier[0]}", "wrong type"
        yield {"ParticipantName": 1, earlier[0]: 1}, "/ParticipantName", "wrong type"
        yield {"Middleware": 1, later[0]: 1}, f"/{later[0]}", "wrong type"


def sound():
    """Configurations with their canonical text and the paths of what isn't used."""
    yield "{}", "{}", []
    yield ' {"b":1, "a/~c" : [1e9] ,"Middleware":{}} ', "{}", ["/a~1~0c", "/b"]
    # Of two equal keys the last counts.
    yield '{"ParticipantName":"A","ParticipantName":"B"}', '{"ParticipantName":"B"}', []
    yield {"Middleware": {"RegistryUri": "silkit://a-1.b:65535", "x": 1}}, '{"Middleware":{"RegistryUri":"silkit://a-1.b:65535"}}', ["/Middleware/x"]
    for history in (0, 1):
        text = '{"DataPublishers":[{"History":%d,"Name":"a","Topic":"t"}]}' % history
        yield text, text, []
    for key, target in LISTS:
        yield {key: []}, "{}", []
        text = '{"%s":[{"Name":"a"},{"Name":"b"}]}' % key
        value = {key: [{"Name": "a", "y": 0, "x": 0}, {"Name": "b"}], "Z": 0}
        yield value, text, ["/Z", f"/{key}/0/x", f"/{key}/0/y"]
        # Of publishers alone there is a history.
        if key != "DataPublishers":
            yield {key: [{"Name": "a", "History": 1}]}, '{"%s":[{"Name":"a"}]}' % key, [f"/{key}/0/History"]
        entry = dict(sorted([("Name", "a"), (target, "ä\"\\")]))
        wanted = json.dumps({key: [entry]}, separators=(",", ":"), ensure_ascii=False)
        yield {key: [entry]}, wanted, []
        names = [{"Name": f"n{i}"} for i in range(64)]
        yield {key: names}, json.dumps({key: names}, separators=(",", ":")), []


# Words without a reading, with what is said of them. Where the first is `pipe`, nothing is.
WORDS = [
    ([], "silkit: usage\n"),
    (["--help"], "silkit: usage\n"),
    (["Check", "a.json"], "silkit: usage\n"),
    ([b"\xff"], "silkit: usage\n"),
    (["check", b"a\xff.json"], "silkit: usage\n"),
    (["pipe", b"\xff", "1", "1"], ""),
    (["Pipe", "A", "1", "5"], "silkit: usage\n"),
    (["pipe"], ""),
    (["pipe", "--help"], ""),
    (["pipe", "--version"], ""),
    (["pipe", "A", "1"], ""),
    (["pipe", "A", "1", "5", "6"], ""),
    (["pipe", "A", "1", "5", "--help"], ""),
    (["pipe", "A", "1", "5", "--fast"], ""),
    (["pipe", "", "1", "5"], ""),
    (["pipe", "-A", "1", "5"], ""),
    (["pipe", LONG, "1", "5"], ""),
    (["pipe", "a\nb", "1", "5"], ""),
    (["pipe", "A", "0", "5"], ""),
    (["pipe", "A", str(2**60 + 1), "5"], ""),
    (["pipe", "A", "1", str(2**61 + 1)], ""),
    (["pipe", "A", "+1", "5"], ""),
    (["pipe", "A", "1", ""], ""),
    (["pipe", "A", "1", "-5"], ""),
    (["pipe", "A", "1", "9" * 26], ""),
]
# Words that have a reading though they look odd: leading zeros, `--`, a name that is a hyphen or
# begins with one behind `--`. The input ends at once, so the status is 11.
ODD_WORDS = [
    ["pipe", "A", "01", "00"],
    ["pipe", "--", "A", "1", "0"],
    ["pipe", "A", "1", "--", "0"],
    ["pipe", "A", "1", "0", "--"],
    ["pipe", "-", "1", "0"],
    ["pipe", "--", "-A", "1", "0"],
]


def outside(room):
    """Runs on files that aren't there or can't be read, and on an output that can't be written: the
    words, where the output goes, the status and what is said."""
    absent = os.path.join(room, "absent.json")
    inside = os.path.join(os.devnull, "a.json")
    fine = os.path.join(room, "fine.json")
    with open(fine, "w") as file:
        file.write('{"Logging":{}}')
    yield absent, None, 1, f"silkit: {absent}: no such file\n"
    yield room, None, 3, f"silkit: read fault: {room}\n"
    yield inside, None, 3, f"silkit: read fault: {inside}\n"
    yield fine, "/dev/full", 4, "warning: /Logging: not used\nsilkit: write fault\n"


def run_outside(room):
    """The first of those runs that isn't as wanted, or None."""
    for file, output, status, said in outside(room):
        if output is not None and not os.path.exists(output):
            continue
        with open(output or os.devnull, "wb") as target:
            run = subprocess.run([PROGRAM, "check", file], stdout=target, stderr=subprocess.PIPE)
        got = (run.returncode, run.stderr.decode())
        if got != (status, said):
            return f"file {file!r}\nwanted {(status, said)}\ngot    {got}"
    return None


def read_slowly(room):
    """An output longer than a pipe's buffer, read in pieces with pauses."""
    path = os.path.join(room, "long.json")
    lists = {key: [{"Name": f"{i:02}" + "n" * 62, target: "t" * 64} for i in range(64)] for key, target in LISTS}
    with open(path, "w") as file:
        json.dump(lists, file)
    wanted = json.dumps(
        {key: [dict(sorted(entry.items())) for entry in entries] for key, entries in sorted(lists.items())},
        separators=(",", ":"),
    )
    run = subprocess.Popen([PROGRAM, "check", path], stdout=subprocess.PIPE, stderr=subprocess.PIPE)
    got = b""
    while piece := os.read(run.stdout.fileno(), 5000):
        got += piece
        time.sleep(0.01)
    said = run.stderr.read()
    if (run.wait(), got.decode(), said) != (0, wanted + "\n", b""):
        return f"{len(wanted)} bytes read slowly: got {len(got)}, status {run.returncode}, {said!r}"
    return None if len(wanted) > 65536 else "the long output isn't longer than a pipe's buffer"


def run_together(room):
    """Two runs on one standard error at once: their lines don't mix."""
    path = os.path.join(room, "keys.json")
    with open(path, "w") as file:
        json.dump({f"key{i:04}": 0 for i in range(3000)}, file)
    reader, writer = os.pipe()
    runs = [subprocess.Popen([PROGRAM, "check", path], stdout=subprocess.DEVNULL, stderr=writer) for _ in range(2)]
    os.close(writer)
    with os.fdopen(reader, "rb") as stream:
        lines = stream.read().decode().splitlines()
    wanted = sorted(2 * [f"warning: /key{i:04}: not used" for i in range(3000)])
    if [run.wait() for run in runs] != [0, 0] or sorted(lines) != wanted:
        mixed = sum(1 for line in lines if line not in set(wanted))
        return f"two runs on one standard error: {len(lines)} lines, {mixed} of them mixed"
    return None


def as_bytes(value):
    if isinstance(value, bytes):
        return value
    return (value if isinstance(value, str) else json.dumps(value)).encode()


def main():
    wanted = [(as_bytes(value), 1, "", f"silkit: {path}: {rule}\n") for value, path, rule in cases()]
    for value, text, unused in sound():
        lines = "".join(f"warning: {path}: not used\n" for path in unused)
        wanted.append((as_bytes(value), 0, text + "\n", lines))
    with tempfile.TemporaryDirectory() as room:
        path = os.path.join(room, "a.json")
        for content, status, output, said in wanted:
            with open(path, "wb") as file:
                file.write(content)
            run = subprocess.run([PROGRAM, "check", path], capture_output=True)
            got = (run.returncode, run.stdout.decode(), run.stderr.decode())
            if got != (status, output, said):
                print(f"configuration {content!r}\nwanted {(status, output, said)}\ngot    {got}")
                return 1
        for fault in (run_outside(room), read_slowly(room), run_together(room)):
            if fault is not None:
                print(fault)
                return 1
    rows = [(words, 2, said) for words, said in WORDS] + [(words, 11, "") for words in ODD_WORDS]
    for words, status, said in rows:
        run = subprocess.run([PROGRAM, *words], capture_output=True, stdin=subprocess.DEVNULL)
        got = (run.returncode, run.stderr.decode())
        if got != (status, said) or (status == 2 and run.stdout):
            print(f"words {words!r}\nwanted {(status, said)}\ngot    {got}")
            return 1
    print(f"{len(wanted)} configurations, files and outputs that fail, {len(rows)} rows of words: as the format says")
    return 0


if __name__ == "__main__":
    sys.exit(main())
