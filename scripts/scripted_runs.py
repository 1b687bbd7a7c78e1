#!/usr/bin/env python3
"""Runs the proved program `silkit` on scenarios with services and scripts.

usage: scripted_runs.py [COUNT [SEED]]
       scripted_runs.py --selftest

COUNT random scenarios are closed: their reports have to be those of the plain schedule (scripts/plain_schedule.py),
byte for byte. COUNT others may be anything: one is aborted, another stops or pauses, controllers change in steps. Of
both the journals have to be those of a safe world in which each step asks for what its script says
(scripts/journal_rules.py), and the report that of these journals. So it is with some that were worked out by hand, with
some at a limit, with those that docs/FORMATS.md shows, and with those that are made of numbers, as `generate` writes
them and as it runs them. With a COUNT below 200 the two longest runs are left out. With --selftest no program is run:
the readers are tried on runs that they make themselves, in any order of turns (scripts/own_runs.py), and on changes of
these, which have to be refused. SILKIT in the environment names another program.
"""
import json
import os
import random
import sys
import tempfile
from typing import NamedTuple

# What is imported here leaves no files beside the scripts.
sys.dont_write_bytecode = True

import plain_schedule
import scenario_rules
import script_rules
from journal_rules import Wrong, check_run, need
from own_runs import Run
from random_scripts import LAST, closed_scenario, random_scenario
from scenarios import samples
from simulations import PROGRAM, plants, put_file, run

COUNT, SEED = 200, 1

# ## Scenarios that were worked out by hand: the scenario, its report or the report's last line, the status, and what is said

MS = 1000000
COUNTER = """\
participant 0 A
step 1 0
sent pub 0000000000000000 P
step 2 2000000
sent pub 0100000000000000 P
step 3 4000000
sent pub 0200000000000000 P
step 4 6000000
sent pub 0300000000000000 P
participant 1 B
step 1 0
step 2 3000000
saw 0 0 pub 0000000000000000 S
saw 2000000 0 pub 0100000000000000 S
step 3 6000000
saw 4000000 0 pub 0200000000000000 S
steps 7 saw 3 sent 4
"""
# Each of three participants takes the steps below the bound that the first one's stop at 2 ms sets, which is 4 ms and 1 ns.
STOPPED = """\
participant 0 A
step 1 0
step 2 2000000
participant 1 B
step 1 0
step 2 3000000
participant 2 C
step 1 0
step 2 4000000
steps 6 saw 0 sent 0
"""


def counter(**more):
    """A publishes a count, and B sees it; more is what B has besides."""
    counts = [{"every": 2 * MS, "do": [{"publish": "P", "append": "x"}, {"add": "x", "by": 1}]}]
    a = {"name": "A", "step": 2 * MS, "vars": {"x": 0}, "services": [{"kind": "publisher", "name": "P", "topic": "T"}], "script": counts}
    b = {"name": "B", "step": 3 * MS, "services": [{"kind": "subscriber", "name": "S", "topic": "T"}], **more}
    return {"duration": 7 * MS, "participants": [a, b]}


def gateway():
    """An engine sends a frame each ms, a gateway publishes the last one each 5 ms, and a display hears that."""
    config = {"Logging": {}, "HealthCheck": {}, "Middleware": {"RegistryUri": "silkit://localhost:8500"}}
    can = {"kind": "can", "name": "C1", "network": "PT"}
    sends = [{"every": MS, "do": [{"can_send": "C1", "id": 291, "append": "rpm"}, {"add": "rpm", "by": 10}]}]
    publishes = [{"on": "C1", "do": [{"take": "rpm"}]}, {"every": 5 * MS, "do": [{"publish": "P", "append": "rpm"}]}]
    topic, ready = {"name": "P", "topic": "speed"}, [{"can_start": "C1"}]
    parts = [
        {"name": "Engine", "step": MS, "vars": {"rpm": 800}, "services": [can], "ready": ready, "script": sends},
        {"name": "Gateway", "step": 5 * MS, "vars": {"rpm": 0}, "services": [can, {"kind": "publisher", **topic}], "ready": ready,
            "script": publishes},
        {"name": "Display", "step": 20 * MS, "services": [{"kind": "subscriber", **topic}]},
    ]
    return {"duration": 1000 * MS, "participants": [{**part, "config": config} for part in parts]}


def stop():
    stops = [{"at": 2 * MS, "do": [{"stop": True}]}]
    parts = [{"name": "A", "step": 2 * MS, "script": stops}, {"name": "B", "step": 3 * MS}, {"name": "C", "step": 4 * MS}]
    return {"duration": 20 * MS, "participants": parts}


def worked():
    yield counter(), COUNTER, 0, ""
    yield stop(), STOPPED, 0, ""
    warnings = [f"warning: /participants/{k}/config/{key}: not used\n" for k in range(3) for key in ("HealthCheck", "Logging")]
    yield gateway(), "steps 1250 saw 1191 sent 1200\n", 0, "".join(warnings)
    yield counter(script=[{"at": 3 * MS, "do": [{"error": True}]}]), None, 6, "silkit: ended by abort: A\n"


# ## Scenarios at a limit, and the status


def limits(few):
    publish, change, start = {"publish": "P"}, {"set": "x", "to": 1}, {"can_start": "C"}
    # So many actions are done in one step; those on variables aren't counted. One more ends the run, also in Error.
    yield acting([[publish] * 256, [change] * 256]), 0
    yield acting([[publish] * 256, [change, publish]]), 6
    yield acting([[publish] * 200, [{"error": True}], [publish] * 56]), 6
    yield acting([[{"stop": True}], [publish] * 255, [publish]]), 6
    yield acting([[start] * 256], ready=[start] * 256), 0
    yield acting([[publish]], ready=[start] * 257), 6
    # The longest steps and times.
    yield acting([[publish, {"can_send": "C", "id": 1}]], 2**61, 2**60, [start], when={"every": 2**60, "from": 2**60}), 0
    yield acting([[publish, {"stop": True}]], 2**61, 2**60, when={"at": 2**60}), 0
    yield acting([[publish, {"stop": True}]], 2**61, 2**60, when={"at": 2**62}), 0
    # Within the answers to a step the journal comes to the most entries, and to the most bytes.
    if not few:
        yield acting([[{"can_sleep": "C"}] * 250], 2000), 6
        yield acting([[{**publish, "data": "5a" * 4096}] * 90], others=31), 6


def acting(rules, duration=3, size=1, ready=(), when=None, others=1):
    """A has these rules for each of its steps, or for these; of the others, as many as are named, B00 hears what it publishes."""
    services = [{"kind": "publisher", "name": "P", "topic": "t"}, {"kind": "can", "name": "C"}]
    script = [{"do": rule, **(when or {"every": size})} for rule in rules]
    a = {"name": "A", "step": size, "services": services, "vars": {"x": 0}, "ready": list(ready), "script": script}
    b = {"name": "B00", "step": size, "vars": {"x": 0}, "services": [{"kind": "subscriber", "name": "S", "topic": "t"}]}
    more = [{"name": f"B{index:02}"} for index in range(1, others)]
    return {"duration": duration, "participants": [a, {**b, "script": [{"on": "S", "do": [{"take": "x"}]}]}, *more]}


# ## Scenarios made of numbers

GENERATED = [
    (7, 2, 4), (7 + 2**31, 2, 4), (7, 2, 1), (0, 2, 2), (1, 3, 10), (2, 5, 7), (12345, 4, 20), (LAST, 3, 25), (99, 32, 2), (2**31 - 1, 2, 40),
]
# The last lines of some reports, which were worked out by hand.
LAST_LINES = {
    (7, 2, 4): "steps 6 saw 4 sent 6\n", (7 + 2**31, 2, 4): "steps 6 saw 4 sent 6\n", (7, 2, 1): "steps 2 saw 0 sent 2\n",
    (7, 8, 2000): "steps 8168 saw 8160 sent 8168\n",
}

# ## Runs


class Case(NamedTuple):
    """A scenario, and what is wanted of its run: the report, its end, the status, what is said; None where it may be anything."""

    text: str
    report: str = None
    last: str = None
    ended: int = None
    said: str = None


class Differs(Exception):
    def __init__(self, what, wanted, got):
        super().__init__(f"{what}\nwanted\n{wanted}\ngot\n{got}")


def same(what, wanted, got):
    if wanted != got:
        raise Differs(what, wanted, got)


def cases(count, seed):
    rng = random.Random(seed)
    for _ in range(count):
        text, plan = closed_scenario(rng)
        yield Case(text, report=plan, ended=0)
    for _ in range(count):
        yield Case(random_scenario(rng, False))
    for value, report, ended, said in worked():
        yield Case(json.dumps(value), last=report, ended=ended, said=said)
    for value, ended in limits(count < COUNT):
        yield Case(json.dumps(value), ended=ended)
    for text in samples():
        yield Case(text, report=planned(text), ended=0)
    for numbers in GENERATED:
        text = scenario_rules.generate(*numbers).decode()
        yield Case(text, report=planned(text), last=LAST_LINES.get(numbers), ended=0)


def planned(text):
    """The report of the plain schedule; None where the scenario isn't closed."""
    if not scenario_rules.is_closed(scenario_rules.read(text.encode())[1]):
        return None
    scenario = script_rules.read(text.encode())
    return plain_schedule.report(scenario, plain_schedule.play(scenario))


def check(case, path):
    """The status of a run, and how many entries its journals have, where all is as wanted."""
    put_file(path, case.text)
    data = case.text.encode()
    scenario, warnings = script_rules.read(data), "".join(f"warning: {line}\n" for line in scenario_rules.read(data)[2])
    output, said, ended = run("simulate", path)
    need(said.startswith(warnings), f"{warnings!r} isn't in front of {said!r}")
    journals = check_run(scenario, output, said[len(warnings) :], ended)
    report = report_of(scenario, journals)
    written, *others = run("simulate", path, "--report")
    same("the report of the journals", report, written)
    same("standard error and status with --report", [said, ended], others)
    wanted = [(case.report, report), (case.last, report[-len(case.last or "") :]), (case.ended, ended), (case.said, said)]
    for what, (one, other) in zip(("the report", "the end of the report", "the status", "standard error"), wanted):
        same(what, other if one is None else one, other)
    return ended, sum(journal.count for journal in journals)


def report_of(scenario, journals):
    """That of the journals of a run; of one that stalled nothing is written."""
    return plain_schedule.report(scenario, [journal.steps for journal in journals]) if journals else ""


def check_generate(numbers):
    """What `generate` writes, and what it says of the run: the same each time."""
    words = [str(number) for number in numbers]
    text = scenario_rules.generate(*numbers).decode()
    same(f"generate {words}", (text, "", 0), run("generate", *words))
    last = LAST_LINES.get(numbers) or planned(text).split("\n")[-2] + "\n"
    for _ in range(2):
        same(f"generate {words} --run", (last, "", 0), run("generate", *words, "--run"))


def first_fault(count, seed):
    """The first run that isn't as wanted, or None; and how many runs had which status, and how many entries."""
    statuses, entries = {}, 0
    with tempfile.TemporaryDirectory() as room:
        for turn, case in enumerate(cases(count, seed)):
            try:
                ended, more = check(case, os.path.join(room, "a.json"))
            except (Wrong, Differs) as why:
                return f"scenario {turn}: {case.text}\n{why}", statuses, entries
            statuses[ended], entries = statuses.get(ended, 0) + 1, entries + more
    for numbers in (*GENERATED, *LAST_LINES):
        try:
            check_generate(numbers)
        except Differs as why:
            return str(why), statuses, entries
    return None, statuses, entries


# ## The readers alone


def selftest():
    """The plain schedule against runs in any order of turns, and the reader of journals on changes of some of them."""
    rng, refused = random.Random(SEED), 0
    for turn in range(COUNT):
        text, plan = closed_scenario(rng)
        scenario = script_rules.read(text.encode())
        output, has_ended = Run(scenario, rng).play()
        try:
            need(has_ended, "not all have ended")
            same("the plain schedule", plan, report_of(scenario, check_run(scenario, output, "", 0)))
        except (Wrong, Differs) as why:
            print(f"scenario {turn}: {text}\n{output}\n{why}")
            return 1
        changes = list(plants(output)) if len(output) < 20000 else []
        for what, wrong in rng.sample(changes, min(10, len(changes))):
            # What is moved may as well stand there.
            if "one earlier" not in what:
                if not is_refused(scenario, wrong):
                    print(f"scenario {turn}: {text}\nnot refused: {what}")
                    return 1
                refused += 1
    print(f"{COUNT} runs in any order, with the report of the plain schedule; {refused} changes of them: each is refused")
    return 0


def is_refused(scenario, text):
    try:
        check_run(scenario, text, "", 0)
    except Wrong:
        return True
    return False


def main():
    if "--selftest" in sys.argv:
        return selftest()
    if not os.path.exists(PROGRAM):
        sys.exit(f"scripted_runs.py: {PROGRAM} isn't there: run `rt ci` first")
    count, seed = [int(word) for word in sys.argv[1:]] + [COUNT, SEED][len(sys.argv) - 1 :]
    fault, statuses, entries = first_fault(count, seed)
    if fault is not None:
        print(fault)
        return 1
    print(
        f"{2 * count} random scenarios with scripts: reports as the plain schedule's, journals safe; "
        f"with those by hand, at limits, of the documents and made of numbers statuses {dict(sorted(statuses.items()))}, {entries} entries"
    )
    return 0


if __name__ == "__main__":
    sys.exit(main())
