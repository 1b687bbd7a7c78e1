#!/usr/bin/env python3
"""Runs the proved program `silkit simulate` on random scenarios, and checks each journal entry by entry; and on a table
of faulty ones, one case for each key and rule, and on files and outputs of the host that fail.

usage: simulations.py [COUNT [SEED]]
       simulations.py --selftest

The participants of these scenarios have services, and do nothing of their own: those with scripts are run by
scripts/scripted_runs.py. What a journal may say is in scripts/journal_rules.py, which is written from the documents alone.
With a COUNT below 300 the runs of 500,000 entries are left out. With --selftest one run's text is changed, line by line,
and the checker has to refuse each change. SILKIT in the environment names another program to run.
"""
import json
import os
import random
import subprocess
import sys
import tempfile

# What is imported here leaves no files beside the scripts.
sys.dont_write_bytecode = True

import script_rules
from journal_rules import SERVICES, Wrong, check_run

TOP = os.path.dirname(os.path.dirname(os.path.abspath(__file__)))
PROGRAM = os.environ.get("SILKIT") or os.path.join(TOP, "crates", "silkit", "out", "silkit")

# ---- scenarios

NAMES = ["A", "AA", "B", "Z", "a", "b c", "ä", "Ä", "~", "z/", "\u4e00", "\U0001f600", '"', "\\", "n" * 64, "N01", "N1", "é"]


def random_services(rng, most):
    """Services as a file gives them."""
    services = []
    for name in rng.sample(NAMES, rng.randint(0, most)):
        kind = rng.choice(SERVICES)
        service = {"kind": kind, "name": name}
        if kind in SERVICES[:3]:
            if rng.random() < 0.5:
                service["network"] = rng.choice(NAMES)
        else:
            service["topic" if kind in SERVICES[3:5] else "function"] = rng.choice(NAMES)
            if rng.random() < 0.3:
                service["media"] = rng.choice(["", "text/plain", "ä"])
            if rng.random() < 0.5:
                service["labels"] = [
                    {"key": key, "value": rng.choice(["", "1", "ß"]), "kind": rng.choice(["optional", "mandatory"])}
                    for key in rng.sample(NAMES, rng.randint(0, 3))
                ]
            if kind == "publisher" and rng.random() < 0.5:
                service["history"] = rng.randint(0, 1)
        services.append(dict(rng.sample(list(service.items()), len(service))))
    return services


def random_scenario(rng, most=6):
    """A scenario as JSON."""
    names = rng.sample(NAMES, rng.randint(1, most))
    entries = []
    sizes = rng.choice([[1, 2, 3], [1000, 1500, 4000], [7, 7, 9, 40], [10**6], [2**60, 2**59, 2**60 - 1]])
    for name in names:
        coordinated = rng.random() < rng.choice([0.2, 0.8, 1])
        size = rng.choice(sizes) if rng.random() < 0.8 else None
        entry = {"name": name}
        if not coordinated or rng.random() < 0.3:
            entry["mode"] = "coordinated" if coordinated else "autonomous"
        if size is not None:
            entry["step"] = size
        services = random_services(rng, rng.choice([0, 3, 6]))
        if services or rng.random() < 0.1:
            entry["services"] = services
        entries.append(dict(rng.sample(list(entry.items()), len(entry))))
    least = min([entry["step"] for entry in entries if "step" in entry] or [1000])
    duration = max(0, min(least * rng.randint(0, 20) + rng.choice([0, 0, -1, 1]), 2**61))
    required = sorted(entry["name"] for entry in entries if entry.get("mode") != "autonomous")
    value = {"duration": duration, "participants": entries}
    if required and rng.random() < 0.5:
        required = rng.sample(required, rng.randint(1, len(required)))
        value["required"] = required
    value = dict(rng.sample(list(value.items()), len(value)))
    return json.dumps(value, ensure_ascii=rng.random() < 0.5, indent=rng.choice([None, 1]))


LONG = "n" * 65
A = {"name": "A"}
NO_TEXTS = [1, True, None, ["A"], {"A": 1}]
NO_NAMES = ["", LONG, "a\nb", "a\u007f"]
NO_NUMBERS = ["1.0", "1e3", "-0", "-1", "18446744073709551616", '"1"', "null", "true", "[]"]


def faulty():
    """Texts with the path and the rule that they break."""
    for text in ("[", "", '{"duration":1e400}', '{"x":"\\ud800"}', "[" * 200 + "]" * 200, b'{"x":"\xff"}', "\ufeff{}"):
        yield text, "", "not JSON"
    for text in ("1", "null", '"A"', "[]", "true"):
        yield text, "", "wrong type"
    # Unknown keys first, in byte order; then the keys in the order of the table.
    fine = {"duration": 5, "required": ["A"], "participants": [A]}
    yield {"zz": 1, "b/~": 1, **fine, "duration": -1}, "/b~1~0", "unknown key"
    yield {"Duration": 1, **fine}, "/Duration", "unknown key"
    yield {}, "/duration", "missing"
    yield {"duration": 1}, "/participants", "missing"
    yield {"duration": 1, "required": ["A"]}, "/participants", "missing"
    yield {"duration": "1", "required": 1, "participants": 1}, "/duration", "wrong type"
    yield {"duration": 1, "required": 1, "participants": 1}, "/required", "wrong type"
    for text in NO_NUMBERS:
        yield '{"duration":%s,"participants":[{"name":"A"}]}' % text, "/duration", "wrong type"
        yield '{"duration":1,"participants":[{"name":"A","step":%s}]}' % text, "/participants/0/step", "wrong type"
    for value in (2**61 + 1, 2**64 - 1):
        yield {**fine, "duration": value}, "/duration", "out of range"
    for value in (0, 2**60 + 1, 2**64 - 1):
        yield {**fine, "participants": [{"name": "A", "step": value}]}, "/participants/0/step", "out of range"
    for value in (1, "A", None, {}):
        yield {**fine, "required": value}, "/required", "wrong type"
        yield {**fine, "participants": value}, "/participants", "wrong type"
    crowd = [{"name": f"n{i}"} for i in range(33)]
    for value in ([], crowd, [1] * 33):
        yield {**fine, "participants": value}, "/participants", "out of range"
    for value in ([], [part["name"] for part in crowd], [1] * 33):
        yield {**fine, "required": value, "participants": crowd[:32]}, "/required", "out of range"
    for value in NO_TEXTS:
        yield {**fine, "required": ["A", value]}, "/required/1", "wrong type"
        yield {**fine, "participants": [{"name": value}]}, "/participants/0/name", "wrong type"
        yield {**fine, "participants": [{"name": "A", "mode": value}]}, "/participants/0/mode", "wrong type"
    for value in NO_NAMES:
        yield {**fine, "required": ["A", value]}, "/required/1", "bad text"
        yield {**fine, "participants": [{"name": value}]}, "/participants/0/name", "bad text"
    for value in ("", "Coordinated", "autonomous ", "tool"):
        yield {**fine, "participants": [{"name": "A", "mode": value}]}, "/participants/0/mode", "out of range"
    for value in (1, "A", None, []):
        yield {**fine, "participants": [A, value]}, "/participants/1", "wrong type"
    yield {**fine, "participants": [A, {}]}, "/participants/1/name", "missing"
    yield {**fine, "participants": [{"steps": 0, "Name": 1, "mode": 1}]}, "/participants/0/Name", "unknown key"
    yield {**fine, "participants": [{"step": 0, "mode": 1, "name": 1}]}, "/participants/0/name", "wrong type"
    yield {**fine, "participants": [{"step": 0, "mode": 1, "name": "A"}]}, "/participants/0/mode", "wrong type"
    # A list goes by index, and each participant comes before the rules on several.
    yield {**fine, "participants": [{"name": "A", "step": 0}, {"x": 1}]}, "/participants/0/step", "out of range"
    yield {**fine, "participants": [A, A, {"name": "A", "step": 0}]}, "/participants/2/step", "out of range"
    yield {**fine, "required": ["B", "A", "B", 1]}, "/required/2", "name taken"
    yield {**fine, "required": ["C"], "participants": [A, {"name": "B"}, A]}, "/participants/2/name", "name taken"
    yield {**fine, "required": ["A", "C"], "participants": [A, {"name": "B"}]}, "/required/1", "no such participant"
    yield {**fine, "required": ["A", "a"]}, "/required/1", "no such participant"
    yield {**fine, "participants": [{"name": "A", "mode": "autonomous"}]}, "/required/0", "no such participant"
    # Of two equal keys the last counts.
    yield '{"duration":1,"participants":[{"name":"A"}],"participants":[]}', "/participants", "out of range"


def idle_scripts():
    """Scenarios as JSON whose scripts leave nothing in the journals: on variables alone, or for steps that never come."""
    for more in ({"vars": {"x": 1}, "ready": [{"set": "x", "to": 2}]}, {"script": [{"at": 1, "do": [{"stop": True}]}]}):
        yield json.dumps({"duration": 0, "participants": [{"name": "A", **more}]})


def at_the_edge(few):
    """Scenarios at a limit: 32 participants, the longest run, the most entries."""
    crowd = [(f"n{i:02}", True, 1000) for i in range(32)]
    yield 1000, crowd
    yield 2**61, [("A", True, 2**60), ("B", False, None)]
    kinds = [{"kind": "can", "name": f"c{i}"} for i in range(32)] + [{"kind": "server", "name": f"s{i}", "function": "f"} for i in range(32)]
    yield 3000, [("A", True, 1000, kinds), ("B", True, 1000, kinds[:1])]
    if not few:
        yield 300000, [("A", True, 1)]
        yield 150000, [("A", True, 1), ("B", True, 1)]


def written(duration, parts):
    """As JSON, of the name, the mode, the size and maybe the services of each participant."""
    entries = [{"name": part[0], "mode": "coordinated" if part[1] else "autonomous"} for part in parts]
    for entry, part in zip(entries, parts):
        entry.update({"step": part[2]} if part[2] else {})
        entry.update({"services": part[3]} if part[3:] else {})
    return json.dumps({"duration": duration, "participants": entries})


# ---- runs


def run(*words, output=subprocess.PIPE):
    """What the program writes and says, and its status."""
    done = subprocess.run([PROGRAM, *words], stdout=output, stderr=subprocess.PIPE)
    return (done.stdout or b"").decode(), done.stderr.decode(), done.returncode


def put_file(path, content):
    content = json.dumps(content) if isinstance(content, dict) else content
    with open(path, "wb") as file:
        file.write(content if isinstance(content, bytes) else content.encode())


def refused(room):
    """How many faulty files there are, and the first whose end isn't as wanted, or None."""
    path, count = os.path.join(room, "faulty.json"), 0
    for content, where, rule in faulty():
        put_file(path, content)
        wanted = ("", f"silkit: {where}: {rule}\n", 1)
        got = run("simulate", path)
        if got != wanted:
            return count, f"scenario {content!r}\nwanted {wanted}\ngot    {got}"
        count += 1
    put_file(path, b" " * 16777217)
    absent, fine = os.path.join(room, "absent.json"), os.path.join(room, "fine.json")
    put_file(fine, '{"duration":0,"participants":[{"name":"A"}]}')
    rows = [(path, None, f"silkit: {path}: more than 16777216 bytes\n", 1), (absent, None, f"silkit: {absent}: no such file\n", 1)]
    rows += [(room, None, f"silkit: read fault: {room}\n", 3), (fine, "/dev/full", "silkit: write fault\n", 4)]
    for file, output, said, ended in rows:
        with open(output or os.devnull, "wb") as target:
            got = run("simulate", file, output=target)
        if got != ("", said, ended):
            return count, f"file {file}\nwanted {(said, ended)}\ngot    {got[1:]}"
    return count, None


def plants(text):
    """The text of a run with one line taken out, doubled, changed or moved, and what was done."""
    lines = text[:-1].split("\n")
    title = None
    for at, line in enumerate(lines):
        if line.startswith("journal "):
            title = at
        if title is None or title == at:
            continue
        own, count = lines[title].split(" ")[1:]
        other = line[:-1] + ("1" if line[-1] == "0" else "0")
        for what, new, more in (("without", [], -1), ("twice", [line, line], 1), ("another end of", [other], 0)):
            changed = lines[:title] + [f"journal {own} {int(count) + more}"] + lines[title + 1 : at] + new + lines[at + 1 :]
            yield f"{what} line {at + 1}, {line}", "\n".join(changed) + "\n"
        # A message that was got may as well stand earlier; of these each goes over what it stands behind or waits for.
        if line.startswith(("begin", "state Running", "system", "end")):
            changed = lines[: at - 1] + [line, lines[at - 1]] + lines[at + 1 :]
            yield f"line {at + 1}, {line}, one earlier", "\n".join(changed) + "\n"


def selftest(room):
    """Whether each wrong text is refused, of a run of two in which each step waits for the other's."""
    kinds = [{"kind": "lin", "name": "l"}, {"kind": "publisher", "name": "p", "topic": "t", "history": 1}]
    text = written(4000, [("A", True, 1000, kinds), ("B", True, 1000)])
    path, scenario = os.path.join(room, "two.json"), script_rules.read(text.encode())
    put_file(path, text)
    output, said, ended = run("simulate", path)
    check_run(scenario, output, said, ended)
    count = 0
    for what, wrong in plants(output):
        try:
            check_run(scenario, wrong, said, ended)
        except Wrong:
            count += 1
            continue
        print(f"not refused: {what}")
        return 1
    print(f"{count} changes of one run: each is refused")
    return 0


def main():
    with tempfile.TemporaryDirectory() as room:
        if "--selftest" in sys.argv:
            return selftest(room)
        count = int(sys.argv[1]) if len(sys.argv) > 1 else 300
        rng = random.Random(int(sys.argv[2]) if len(sys.argv) > 2 else 1)
        cases = [random_scenario(rng) for _ in range(count)]
        cases += [*idle_scripts(), *(written(*case) for case in at_the_edge(count < 300))]
        path, seen, entries = os.path.join(room, "a.json"), {}, 0
        for turn, text in enumerate(cases):
            put_file(path, text)
            output, said, ended = run("simulate", path)
            try:
                entries += sum(journal.count for journal in check_run(script_rules.read(text.encode()), output, said, ended))
            except Wrong as why:
                print(f"scenario {turn}: {text}\nstatus {ended}, {said!r}\n{why}")
                return 1
            seen[ended] = seen.get(ended, 0) + 1
        faults, fault = refused(room)
        if fault is not None:
            print(fault)
            return 1
    print(f"{len(cases)} scenarios, statuses {dict(sorted(seen.items()))}, {entries} entries; {faults} faulty ones: as the documents say")
    return 0


if __name__ == "__main__":
    sys.exit(main())
