#!/usr/bin/env python3
"""Runs the proved program `sk_script_tables` on a table of scenarios, on random changes of scenarios, and on generated ones.

usage: scenarios.py [--rules]

What the rows of the table are to give is written out by hand, from docs/FORMATS.md. A changed or generated scenario is
compared with what scripts/scenario_rules.py makes of it, which is written from that document alone. With --rules only that
reader is tried on the table, and no program is run. SCRIPT_TABLES in the environment names another program.

The program reads requests, a line each: `read HEX` or `text HEX` with the bytes of a file in hexadecimal, or
`generate NUMBER PARTICIPANTS STEPS`. It answers `fault PATH: RULE`; or for `read` `scenario COUNT`, so many lines with the
warnings (`warning: ` may stand before each), and `closed` or `open`; or for the others a line with the canonical text.
"""
import copy
import json
import os
import random
import re
import subprocess
import sys

# What is imported here leaves no files beside the scripts.
sys.dont_write_bytecode = True

import configurations
import scenario_rules as rules
import simulations
from configurations import LONG, NO_NAMES, NO_NUMBERS, NO_TEXTS

TOP = os.path.dirname(os.path.dirname(os.path.abspath(__file__)))
PROGRAM = os.environ.get("SCRIPT_TABLES") or os.path.join(TOP, "crates", "sk_script_tables", "out", "sk_script_tables")
DIFFERENCES = 3

# ## Forms of rows: a file, and what is wanted

A = "/participants/0"
LAST = 2**64 - 1
# One service of each kind, and two variables: what most actions below are about.
SERVICES = [
    {"kind": "can", "name": "C"}, {"kind": "ethernet", "name": "E"}, {"kind": "lin", "name": "L"},
    {"kind": "publisher", "name": "P", "topic": "T"}, {"kind": "subscriber", "name": "S", "topic": "T"},
    {"kind": "server", "name": "F", "function": "G"}, {"kind": "client", "name": "K", "function": "G"},
]
TOLD_SERVICES = (
    '"services":[{"kind":"can","name":"C"},{"kind":"ethernet","name":"E"},{"kind":"lin","name":"L"},'
    '{"kind":"publisher","name":"P","topic":"T"},{"kind":"subscriber","name":"S","topic":"T"},'
    '{"function":"G","kind":"server","name":"F"},{"function":"G","kind":"client","name":"K"}]'
)


def one(**keys):
    """A scenario of one participant."""
    return {"duration": 0, "participants": [{"name": "A", **keys}]}


def full(**keys):
    return one(services=SERVICES, vars={"x": 0, "y": 7}, **keys)


def ready(*actions):
    return full(ready=list(actions))


def step(*actions, **condition):
    return full(script=[{"do": list(actions), **(condition or {"at": 0})}])


def told(keys):
    """The canonical text of one participant with these keys."""
    return '{"duration":0,"participants":[{%s}]}\n' % keys


def told_full(keys):
    return told(f'"name":"A",{keys},{TOLD_SERVICES},"vars":{{"x":0,"y":7}}')


def told_ready(actions):
    return told_full(f'"ready":[{actions}]')


def told_step(actions, condition='"at":0'):
    """The condition has to stand behind `do`, as `every`, or before it."""
    do = f'"do":[{actions}]'
    return told_full('"script":[{%s}]' % (f"{condition},{do}" if condition.startswith('"at') else f"{do},{condition}"))


READY, DO = f"{A}/ready/0", f"{A}/script/0/do/0"

# ## Scenarios with a fault: the file, the path and the rule


def faults():
    yield from simulations.faulty()
    yield from depths()
    yield from participant_faults()
    yield from service_faults()
    yield from label_faults()
    yield from configuration_faults()
    yield from variable_faults()
    yield from ready_faults()
    yield from action_faults()
    yield from data_faults()
    yield from place_faults()
    yield from rule_faults()
    yield from faults_together()


def depths():
    yield "[" * 127 + "]" * 127, "", "wrong type"
    yield "[" * 128 + "]" * 128, "", "not JSON"
    yield '{"a":' * 126 + "[]" + "}" * 126, "/a", "unknown key"
    yield '{"a":' * 126 + "[{}]" + "}" * 126, "", "not JSON"
    yield unused(124), "", "not JSON"


def unused(levels):
    """A value that isn't used, below four other levels."""
    return '{"duration":0,"participants":[{"name":"A","config":{"x":%s}}]}' % ("[" * levels + "]" * levels)


def participant_faults():
    # The order of a participant's keys.
    order = ["name", "mode", "step", "services", "config", "vars", "ready", "script"]
    for earlier, later in zip(order, order[1:]):
        yield one(**{later: None, earlier: None}), f"{A}/{earlier}", "wrong type"
    for key in ("async", "ready_async", "late", "bus", "Name", "Services"):
        yield one(**{key: 1, "mode": 1}), f"{A}/{key}", "unknown key"
    for key in ("services", "ready", "script"):
        for value in (1, "A", None, {}, True):
            yield one(**{key: value}), f"{A}/{key}", "wrong type"


BUS = ("can", "ethernet", "lin")
OTHERS = {"publisher": "topic", "subscriber": "topic", "server": "function", "client": "function"}
EVERY_KEY = {"network": "N", "topic": "T", "function": "F", "media": "", "labels": [], "history": 0}


def service_faults():
    at = f"{A}/services/0"
    for value in (1, "can", None, []):
        yield one(services=[value]), at, "wrong type"
    yield one(services=[{"kind": "can", "name": f"n{i}"} for i in range(65)]), f"{A}/services", "out of range"
    yield one(services=[1] * 65), f"{A}/services", "out of range"
    # The kind comes first; without one that can be read, behind the keys that no kind has.
    yield one(services=[{}]), f"{at}/kind", "missing"
    yield one(services=[{"name": 1, **EVERY_KEY}]), f"{at}/kind", "missing"
    yield one(services=[{"Topic": 1, "Kind": "can", "kind": 1}]), f"{at}/Kind", "unknown key"
    yield one(services=[{"kind": 1, "topics": 1}]), f"{at}/topics", "unknown key"
    for value in NO_TEXTS:
        yield one(services=[{"kind": value, "name": ""}]), f"{at}/kind", "wrong type"
    for value in ("", "CAN", "can ", "flexray", "tool"):
        yield one(services=[{"kind": value, "name": ""}]), f"{at}/kind", "out of range"
    for kind in (*BUS, *OTHERS):
        yield one(services=[{"kind": kind}]), f"{at}/name", "missing"
        for value in NO_NAMES:
            yield one(services=[{"kind": kind, "name": value}]), f"{at}/name", "bad text"
    yield from keys_of_kinds(at)
    yield from services_of_one_name()


def keys_of_kinds(at):
    for kind in BUS:
        service = {"kind": kind, "name": "n"}
        for key in ("topic", "function", "media", "labels", "history"):
            yield one(services=[{**service, key: 1, "name": 1}]), f"{at}/{key}", "unknown key"
        yield one(services=[{**service, "network": 1}]), f"{at}/network", "wrong type"
        yield one(services=[{**service, "network": ""}]), f"{at}/network", "bad text"
    for kind, target in OTHERS.items():
        service = {"kind": kind, "name": "n", target: "t"}
        yield one(services=[{"kind": kind, "name": "n", "media": 1}]), f"{at}/{target}", "missing"
        yield one(services=[{"kind": kind, "name": 1, target: 1}]), f"{at}/name", "wrong type"
        for value in NO_NAMES:
            yield one(services=[{**service, target: value, "media": 1}]), f"{at}/{target}", "bad text"
        yield one(services=[{**service, "network": "n", "media": 1}]), f"{at}/network", "unknown key"
        other = "topic" if target == "function" else "function"
        yield one(services=[{**service, other: "t"}]), f"{at}/{other}", "unknown key"
        yield one(services=[{**service, "media": 1, "labels": 1}]), f"{at}/media", "wrong type"
        for value in (LONG, "a\nb", "\u007f"):
            yield one(services=[{**service, "media": value, "labels": 1}]), f"{at}/media", "bad text"
        if kind != "publisher":
            yield one(services=[{**service, "history": 0, "labels": 1}]), f"{at}/history", "unknown key"
    publisher = {"kind": "publisher", "name": "n", "topic": "t"}
    yield one(services=[{**publisher, "history": 5, "labels": 1}]), f"{at}/labels", "wrong type"
    yield one(services=[{**publisher, "history": 2}]), f"{at}/history", "out of range"
    for value in (True, "1", None, 0.5):
        yield one(services=[{**publisher, "history": value}]), f"{at}/history", "wrong type"


def services_of_one_name():
    # Of whichever kinds; at the later one, before its other keys, and behind what is wrong with an earlier one.
    for kind in ("can", "server"):
        twice = [{"kind": "can", "name": "n"}, {"kind": "lin", "name": "m"}, {"kind": kind, "name": "n"}]
        yield one(services=twice), f"{A}/services/2/name", "name taken"
    yield one(services=[{"kind": "can", "name": "n", "network": 1}, {"kind": "can", "name": "n"}]), (
        f"{A}/services/0/network"
    ), "wrong type"


def label_faults():
    fine = {"key": "k", "value": "v", "kind": "optional"}
    at = f"{A}/services/0/labels"

    def labels(*items):
        return one(services=[{"kind": "subscriber", "name": "n", "topic": "t", "labels": list(items)}])

    yield labels(*[{**fine, "key": f"k{i}"} for i in range(17)]), at, "out of range"
    yield labels(*[1] * 17), at, "out of range"
    for value in (1, "k", None, []):
        yield labels(fine, value), f"{at}/1", "wrong type"
    yield labels({**fine, "Key": 1, "key": 1}), f"{at}/0/Key", "unknown key"
    for key in ("key", "value", "kind"):
        yield labels({other: fine[other] for other in fine if other != key}), f"{at}/0/{key}", "missing"
        yield labels({**fine, key: 1}), f"{at}/0/{key}", "wrong type"
    yield labels({}), f"{at}/0/key", "missing"
    yield labels({"key": "k", "kind": ""}), f"{at}/0/value", "missing"
    for value in NO_NAMES:
        yield labels({**fine, "key": value, "value": 1}), f"{at}/0/key", "bad text"
    yield labels({**fine, "value": LONG, "kind": 1}), f"{at}/0/value", "bad text"
    yield labels({**fine, "kind": "Optional"}), f"{at}/0/kind", "out of range"
    yield labels(fine, {**fine, "key": "l"}, {**fine, "value": 1}), f"{at}/2/key", "name taken"


# What a fault of a configuration is called in a scenario.
RENAMED = {"bad value": "out of range", "double": "name taken"}


def configuration_faults():
    for value, path, rule in configurations.cases():
        text = configurations.as_bytes(value)
        file = b'{"duration":0,"participants":[{"name":"A","config":' + text + b"}]}"
        yield file, path if rule == "not JSON" else f"{A}/config{path}", RENAMED.get(rule, rule)
    # It comes behind the services and before the variables, and a later participant's fault behind it.
    yield one(services=1, config=1), f"{A}/services", "wrong type"
    yield one(vars=1, config={"ParticipantName": ""}), f"{A}/config/ParticipantName", "out of range"


def variable_faults():
    at = f"{A}/vars"
    for value in (1, "x", None, []):
        yield one(vars=value), at, "wrong type"
    yield one(vars={f"n{i}": 0 for i in range(65)}), at, "out of range"
    yield one(vars={f"n{i}" * 40: None for i in range(65)}), at, "out of range"
    yield one(vars={"": 0}), f"{at}/", "bad text"
    for name in (LONG, "a\u0001b", "a\u007f"):
        yield one(vars={name: None}), f"{at}/{name}", "bad text"
    yield one(vars={"b/~": 1, "a": 0, "c": None, "b/~c": "1"}), f"{at}/b~1~0c", "wrong type"
    yield one(vars={"ä": None, "z": None}), f"{at}/z", "wrong type"
    for text in NO_NUMBERS:
        yield '{"duration":0,"participants":[{"name":"A","vars":{"x":%s}}]}' % text, f"{at}/x", "wrong type"


def ready_faults():
    for value in (1, "can_start", None, []):
        yield ready({"can_start": "C"}, value), f"{A}/ready/1", "wrong type"
    # Keys that no action has come first, then the place, then the keys of other actions.
    yield ready({"publish": "P", "dato": "", "zz": 1}), f"{READY}/dato", "unknown key"
    yield ready({"Can_start": "C", "can_start": 1, "rate": 1}), f"{READY}/Can_start", "unknown key"
    yield ready({}), READY, "not allowed here"
    yield ready({"rate": 1, "data": 1}), READY, "not allowed here"
    yield ready({"can_start": 1, "can_stop": 1}), READY, "not allowed here"
    yield ready({"can_start": "C", "error": False}), READY, "not allowed here"
    for first, keys in TO_RULES.items():
        yield ready({first: None, "rate": 1, **keys}), READY, "not allowed here"
    yield ready({"can_start": 1, "to": 1, "rate": 1, "fd": 1}), f"{READY}/fd", "unknown key"


# Actions that stand in rules alone, and those that may stand anywhere: the first key, its value, and the needed keys.
TO_RULES = {
    "can_send": {"id": 1}, "eth_send": {}, "lin_header": {"id": 1}, "lin_frame": {"id": 1}, "publish": {}, "call": {},
    "reply": {}, "take": {}, "pause": {}, "stop": {}, "error": {},
}
ANYWHERE = {
    "can_baud": {"rate": 1}, "can_start": {}, "can_stop": {}, "can_reset": {}, "can_sleep": {}, "eth_activate": {},
    "eth_deactivate": {}, "lin_init": {"role": "slave"}, "lin_response": {"id": 1, "mode": "rx"}, "lin_sleep": {},
    "lin_wakeup": {}, "set": {"to": 1}, "add": {"by": 1},
}
NAMED = {"can": "C", "eth": "E", "lin": "L", "pub": "P", "cal": "K", "rep": "F"}
# What a first key that isn't about a service says.
SAID = {"set": "x", "add": "x", "take": "x", "pause": 1, "stop": True, "error": True}


def said(first):
    return SAID.get(first) or NAMED[first[:3]]


def place(first):
    """The condition with which an action may stand in a rule."""
    return {"on": "F"} if first in ("reply", "take") else {"at": 0}


def action_faults():
    every = {**TO_RULES, **ANYWHERE}
    for first, keys in every.items():
        yield from first_key_faults(first, keys)
        for key in keys:
            fine = {first: said(first), **keys}
            yield step({other: fine[other] for other in fine if other != key}, **place(first)), f"{DO}/{key}", "missing"
            yield step({**fine, key: None}, **place(first)), f"{DO}/{key}", "wrong type"
        # A key of another action.
        for key in ("rate", "extended", "role", "mode", "to", "by", "append", "checksum"):
            if key not in rules.ACTIONS[first][2]:
                yield step({first: said(first), key: 1, **keys}, **place(first)), f"{DO}/{key}", "unknown key"
    yield from number_faults()
    yield from word_faults()


def first_key_faults(first, keys):
    if first == "reply":
        return
    for value in (None, [], 1.5):
        yield step({first: value, **keys}, **place(first)), f"{DO}/{first}", "wrong type"
    if first in ("pause", "stop", "error"):
        return
    for value in NO_NAMES:
        yield step({first: value, **keys}, **place(first)), f"{DO}/{first}", "bad text"
    rule = "no such variable" if first in SAID else "no such service"
    # A name of another case, and that of a service of each other kind, which is no variable either.
    for value in ("X", "c", *(name for name in NAMED.values() if name != said(first)), "S"):
        yield step({first: value, **{key: None for key in keys}}, **place(first)), f"{DO}/{first}", rule


def number_faults():
    for action, key, value in (
        ({"can_baud": "C"}, "rate", 2**32), ({"can_send": "C", "fd": 1}, "id", 2**32), ({"lin_header": "L"}, "id", 256),
        ({"lin_frame": "L", "data": 1}, "id", 256), ({"lin_response": "L", "mode": 1}, "id", 256), ({}, "pause", 1001),
    ):
        for number in (value, LAST):
            yield step({**action, key: number}), f"{DO}/{key}", "out of range"
    yield step({"pause": 0}), f"{DO}/pause", "out of range"
    for text in NO_NUMBERS:
        for action, key in ({"set": "x"}, "to"), ({"add": "x"}, "by"), ({"can_baud": "C"}, "rate"), ({}, "pause"):
            file = json.dumps(step({**action, key: 5}))
            yield file.replace(f'"{key}": 5', f'"{key}": {text}'), f"{DO}/{key}", "wrong type"


def word_faults():
    for value in ("Master", "", "both"):
        yield step({"lin_init": "L", "role": value}), f"{DO}/role", "out of range"
    response = {"lin_response": "L", "id": 1, "mode": "tx"}
    for value in ("TX", "", "sends"):
        yield step({**response, "mode": value, "checksum": 1}), f"{DO}/mode", "out of range"
    for value in ("Classic", "", "none"):
        yield step({**response, "checksum": value, "data": 1}), f"{DO}/checksum", "out of range"
        yield step({"lin_frame": "L", "id": 1, "checksum": value}), f"{DO}/checksum", "out of range"
    for value in (1, "true", None):
        yield step({"can_send": "C", "id": 1, "extended": value, "fd": 1}), f"{DO}/extended", "wrong type"
        yield step({"can_send": "C", "id": 1, "fd": value, "data": 1}), f"{DO}/fd", "wrong type"
    for first in ("stop", "error"):
        for value in (1, "true", None):
            yield step({first: value}), f"{DO}/{first}", "wrong type"
        yield step({first: False}), f"{DO}/{first}", "out of range"


def data_faults():
    sends = [{"can_send": "C", "id": 1}, {"eth_send": "E"}, {"publish": "P"}, {"call": "K"}]
    for action in sends:
        at = f"{DO}/data"
        yield step({**action, "data": 1, "append": 1}), at, "wrong type"
        for value in ("0", "0g", "ää", "0x00", " 00", "00\n", "0" * 8195):
            yield step({**action, "data": value, "append": 1}), at, "bad hex"
        yield step({**action, "data": "00" * 4097}), at, "out of range"
        # The shorter limit holds for each `append` that is there.
        for value in ("x", 1, "", "X"):
            yield step({**action, "data": "00" * 4089, "append": value}), at, "out of range"
        yield step({**action, "data": "00" * 4088, "append": 1}), f"{DO}/append", "wrong type"
        for value in NO_NAMES:
            yield step({**action, "append": value}), f"{DO}/append", "bad text"
        for value in ("X", "P", "xx"):
            yield step({**action, "append": value}), f"{DO}/append", "no such variable"
    yield step({"reply": "F", "data": "00" * 4089, "append": "x"}, on="F"), f"{DO}/data", "out of range"
    yield step({"lin_frame": "L", "id": 1, "data": "00" * 4097}), f"{DO}/data", "out of range"
    for mode in ("unused", "rx"):
        response = {"lin_response": "L", "id": 1, "mode": mode}
        yield ready({**response, "data": "00"}), f"{READY}/data", "out of range"
        yield ready({**response, "data": "0"}), f"{READY}/data", "bad hex"
    yield ready({"lin_response": "L", "id": 1, "mode": "tx", "data": "00" * 4097}), f"{READY}/data", "out of range"


def place_faults():
    # `reply`: in a rule on a server alone, and to that one.
    for condition in ({"at": 0}, {"every": 1}, {"on": "K"}, {"on": "C"}, {"on": "X"}, {"on": ""}, {"on": 1}, {"on": None}):
        yield step({"reply": "F", "data": 1}, **condition), DO, "not allowed here"
    two = SERVICES + [{"kind": "server", "name": "H", "function": "G"}]
    rule = {"on": "F", "do": [{"reply": "F"}, {"reply": "H"}]}
    yield one(services=two, script=[rule]), f"{A}/script/0/do/1", "not allowed here"
    for value in ("K", "X", "", 1, None, ["F"]):
        yield step({"reply": value}, on="F"), DO, "not allowed here"
    yield step({"reply": "K"}, on="K"), DO, "not allowed here"
    yield step({"reply": "F", "to": 1, "zz": 1}, on="F"), f"{DO}/zz", "unknown key"
    # `take`: in a rule on whatever; the fault of `on` comes behind the actions.
    for condition in ({"at": 0}, {"every": 1}):
        yield step({"take": 1}, **condition), DO, "not allowed here"
    for value in ("P", "X", "", 1, None):
        yield step({"take": 1}, on=value), f"{DO}/take", "wrong type"


def rule_faults():
    at = f"{A}/script/0"
    for value in (1, "do", None, []):
        yield full(script=[value]), at, "wrong type"
    fine = {"can_start": "C"}
    yield full(script=[{"at": 0, "do": [fine]}] * 257), f"{A}/script", "out of range"
    yield full(script=[1] * 257), f"{A}/script", "out of range"
    # Unknown keys, then the condition's count, then `from`, then `do`, then the condition.
    yield full(script=[{"On": 1, "if": 1, "from": 1}]), f"{at}/On", "unknown key"
    for rule in ({}, {"do": [fine]}, {"from": 1, "do": 1}, {"at": 0, "on": "S"}, {"at": 0, "every": 1, "on": "S", "do": 1}):
        yield full(script=[rule]), at, "not allowed here"
    for condition in ({"at": None}, {"on": None}):
        yield full(script=[{**condition, "from": 1, "do": 1}]), f"{at}/from", "unknown key"
        yield full(script=[condition]), f"{at}/do", "missing"
    for condition in ({"at": None}, {"on": None}, {"every": None, "from": None}):
        for value in (1, "stop", None, {}):
            yield full(script=[{**condition, "do": value}]), f"{at}/do", "wrong type"
        for value in ([], [fine] * 257, [1] * 257):
            yield full(script=[{**condition, "do": value}]), f"{at}/do", "out of range"
        yield step({"can_start": "X"}, **condition), f"{DO}/can_start", "no such service"
        yield step(fine, **condition), f"{at}/{[*condition][0]}", "wrong type"
    yield from condition_faults(at, fine)


def condition_faults(at, fine):
    for text in NO_NUMBERS:
        for key in ("at", "every"):
            yield json.dumps(step(fine, **{key: 5})).replace(f'"{key}": 5', f'"{key}": {text}'), f"{at}/{key}", "wrong type"
        text_of = json.dumps(step(fine, every=5)).replace('"every": 5', f'"every": 5, "from": {text}')
        yield text_of, f"{at}/from", "wrong type"
    for key, value in (("at", 2**62 + 1), ("at", LAST), ("every", 0), ("every", 2**60 + 1)):
        yield step(fine, **{key: value, **({"from": None} if key == "every" else {})}), f"{at}/{key}", "out of range"
    for value in NO_NAMES:
        yield step(fine, on=value), f"{at}/on", "bad text"
    for value in ("P", "X", "x", "s"):
        yield step(fine, on=value), f"{at}/on", "no such service"


def faults_together():
    """What participants must keep together, behind the rest."""
    b = {"name": "B"}
    renamed = {"name": "A", "config": {"ParticipantName": "B"}}
    fine = {"duration": 0}
    yield {**fine, "participants": [renamed, b]}, "/participants/1/name", "name taken"
    yield {**fine, "participants": [b, renamed, {"name": "A"}]}, "/participants/1/name", "name taken"
    yield {**fine, "participants": [{"name": "A"}, {"name": "A", "script": 1}]}, "/participants/1/script", "wrong type"
    yield {**fine, "participants": [{"config": {"ParticipantName": "B"}}]}, f"{A}/name", "missing"
    yield {**fine, "required": ["A"], "participants": [renamed]}, "/required/0", "no such participant"
    autonomous = {"name": "B", "mode": "autonomous"}
    yield {**fine, "required": ["A", "B"], "participants": [{"name": "A"}, autonomous]}, "/required/1", "no such participant"
    yield {**fine, "required": ["C"], "participants": [b, b]}, "/participants/1/name", "name taken"
    yield {**fine, "required": ["C"], "participants": [{"name": "A", "ready": [{}]}]}, READY, "not allowed here"


# ## Scenarios without one: the file, the canonical text and the warnings


def fine():
    yield from fine_participants()
    yield from fine_services()
    yield from fine_configurations()
    yield from fine_actions()
    yield from fine_rules()
    yield from fine_limits()


def fine_participants():
    yield one(), told('"name":"A"'), []
    blanks = ' {"participants" :\r\n[ {"name":"\\u0041", "mode":"coordinated"}],\t"duration":1, "duration": 0}'
    yield blanks, told('"name":"A"'), []
    yield one(mode="autonomous", step=2**60), told('"mode":"autonomous","name":"A","step":1152921504606846976'), []
    empty = one(services=[], config={}, vars={}, ready=[], script=[])
    yield empty, told('"name":"A"'), []
    yield one(name="coordinated"), told('"name":"coordinated"'), []
    yield one(name='a"\\ä\u2028 /~'), told('"name":"a\\"\\\\ä\u2028 /~"'), []
    yield one(vars={"b": LAST, "ä": 1, "a": 0, "n" * 64: 2}), (
        told('"name":"A","vars":{"a":0,"b":18446744073709551615,"' + "n" * 64 + '":2,"ä":1}')
    ), []
    # Participants in order, and required names that are those of all in this order, or not.
    parts = [{"name": "b"}, {"name": "B"}, {"name": "ab", "mode": "autonomous"}]
    text = '{"duration":5,"participants":[{"name":"B"},{"mode":"autonomous","name":"ab"},{"name":"b"}]%s}\n'
    for required, shown in ((None, ""), (["B", "b"], ""), (["b", "B"], ',"required":["b","B"]'), (["b"], ',"required":["b"]')):
        file = {"duration": 5, "participants": parts, **({"required": required} if required else {})}
        yield file, text % shown, []
    yield {"duration": 2**61, "participants": parts[2:]}, (
        '{"duration":2305843009213693952,"participants":[{"mode":"autonomous","name":"ab"}]}\n'
    ), []


def fine_services():
    for kind in BUS:
        for network, shown in ((None, ""), ("n", ""), ("N", ',"network":"N"')):
            service = {"name": "n", "kind": kind, **({"network": network} if network else {})}
            yield one(services=[service]), told('"name":"A","services":[{"kind":"%s","name":"n"%s}]' % (kind, shown)), []
    for kind, target in OTHERS.items():
        least = {"kind": kind, "name": "n", target: "n"}
        shown = {"topic": '"kind":"%s",%s"name":"n","topic":"n"', "function": '"function":"n","kind":"%s",%s"name":"n"'}[target]
        for more in ({}, {"media": "", "labels": []}):
            yield one(services=[{**least, **more}]), told('"name":"A","services":[{%s}]' % (shown % (kind, ""))), []
        labels = [{"key": "l", "value": "", "kind": "mandatory"}, {"kind": "optional", "key": "k", "value": "v" * 64}]
        middle = '"labels":[{"key":"l","kind":"mandatory","value":""},{"key":"k","kind":"optional","value":"%s"}],"media":"m/t",'
        told_labels = told('"name":"A","services":[{%s}]' % (shown % (kind, middle % ("v" * 64))))
        yield one(services=[{**least, "labels": labels, "media": "m/t"}]), told_labels, []
    for history, shown in ((0, ""), (1, '"history":1,')):
        publisher = {"kind": "publisher", "name": "n", "topic": "t", "history": history}
        yield one(services=[publisher]), told('"name":"A","services":[{%s"kind":"publisher","name":"n","topic":"t"}]' % shown), []


def fine_configurations():
    at = f"{A}/config"
    # Names of each kind are looked up apart, and what is overridden may fall together with a default.
    services = [
        {"kind": "can", "name": "C", "network": "N"}, {"kind": "lin", "name": "L"},
        {"kind": "publisher", "name": "P", "topic": "T", "history": 1, "media": "m"},
        {"kind": "client", "name": "K", "function": "G"},
    ]
    config = {
        "Logging": {"x": 1}, "ParticipantName": "Z", "CanControllers": [{"Name": "C", "Network": "C"}, {"Name": "L"}],
        "LinControllers": [{"Name": "C"}, {"Name": "L", "Network": "M", "History": 1}],
        "DataPublishers": [{"Name": "P", "Topic": "U", "History": 0, "b": 0, "a": 0}],
        "RpcClients": [{"Name": "K", "FunctionName": "H"}], "RpcServers": [{"Name": "K"}],
        "Middleware": {"RegistryUri": "silkit://localhost:8500", "y/": 1}, "HealthCheck": 1,
    }
    warnings = [
        f"{at}/HealthCheck: not used", f"{at}/Logging: not used", f"{at}/LinControllers/1/History: not used",
        f"{at}/DataPublishers/0/a: not used", f"{at}/DataPublishers/0/b: not used", f"{at}/Middleware/y~1: not used",
        f"{at}/CanControllers/1: no such service", f"{at}/LinControllers/0: no such service",
        f"{at}/RpcServers/0: no such service",
    ]
    text = told(
        '"name":"Z","services":[{"kind":"can","name":"C"},{"kind":"lin","name":"L","network":"M"},'
        '{"kind":"publisher","media":"m","name":"P","topic":"U"},{"function":"H","kind":"client","name":"K"}]'
    )
    yield one(services=services, config=config), text, warnings
    history = [{"Name": "P", "History": 1}]
    publisher = {"kind": "publisher", "name": "P", "topic": "T"}
    yield one(services=[publisher], config={"DataPublishers": history}), (
        told('"name":"A","services":[{"history":1,"kind":"publisher","name":"P","topic":"T"}]')
    ), []
    # By participants in the file's order, whose names change places; an action goes by the service's own name.
    first = {"name": "A", "config": {"x": 1, "ParticipantName": "C", "CanControllers": [{"Name": "n"}]}}
    second = {"name": "B", "config": {"RpcClients": [{"Name": "n"}], "ParticipantName": "A", "w": 1}}
    yield {"duration": 0, "required": ["C", "A"], "participants": [first, second]}, (
        '{"duration":0,"participants":[{"name":"A"},{"name":"C"}],"required":["C","A"]}\n'
    ), [
        f"{at}/x: not used", f"{at}/CanControllers/0: no such service", "/participants/1/config/w: not used",
        "/participants/1/config/RpcClients/0: no such service",
    ]
    yield unused(123), told('"name":"A"'), [f"{at}/x: not used"]


# Each action with its keys in another order, and its text: first those that may stand in `ready` too.
EASY = [
    ({"rate": 0, "can_baud": "C"}, '{"can_baud":"C","rate":0}'),
    ({"rate": 2**32 - 1, "can_baud": "C"}, '{"can_baud":"C","rate":4294967295}'),
    *(({first: "C"}, f'{{"{first}":"C"}}') for first in ("can_start", "can_stop", "can_reset", "can_sleep")),
    *(({first: "E"}, f'{{"{first}":"E"}}') for first in ("eth_activate", "eth_deactivate")),
    ({"role": "master", "lin_init": "L"}, '{"lin_init":"L","role":"master"}'),
    ({"role": "slave", "lin_init": "L"}, '{"lin_init":"L","role":"slave"}'),
    ({"lin_response": "L", "id": 255, "mode": "unused"}, '{"id":255,"lin_response":"L","mode":"unused"}'),
    (
        {"lin_response": "L", "id": 0, "mode": "rx", "checksum": "classic", "data": ""},
        '{"checksum":"classic","id":0,"lin_response":"L","mode":"rx"}',
    ),
    (
        {"lin_response": "L", "id": 1, "mode": "tx", "checksum": "unknown", "data": "00fFAb"},
        '{"data":"00ffab","id":1,"lin_response":"L","mode":"tx"}',
    ),
    *(({first: "L"}, f'{{"{first}":"L"}}') for first in ("lin_sleep", "lin_wakeup")),
    ({"to": LAST, "set": "x"}, '{"set":"x","to":18446744073709551615}'),
    ({"to": 0, "set": "y"}, '{"set":"y","to":0}'),
    ({"by": LAST, "add": "x"}, '{"add":"x","by":18446744073709551615}'),
]
IN_STEPS = [
    ({"can_send": "C", "id": 0}, '{"can_send":"C","id":0}'),
    ({"can_send": "C", "id": 1, "extended": False, "fd": False, "data": ""}, '{"can_send":"C","id":1}'),
    (
        {"can_send": "C", "id": 2**32 - 1, "extended": True, "fd": True, "data": "0A", "append": "y"},
        '{"append":"y","can_send":"C","data":"0a","extended":true,"fd":true,"id":4294967295}',
    ),
    ({"lin_header": "L", "id": 255}, '{"id":255,"lin_header":"L"}'),
    ({"lin_frame": "L", "id": 64}, '{"id":64,"lin_frame":"L"}'),
    (
        {"lin_frame": "L", "id": 0, "checksum": "enhanced", "data": "00" * 9},
        '{"checksum":"enhanced","data":"000000000000000000","id":0,"lin_frame":"L"}',
    ),
    ({"pause": 1}, '{"pause":1}'),
    ({"pause": 1000}, '{"pause":1000}'),
    ({"stop": True}, '{"stop":true}'),
    ({"error": True}, '{"error":true}'),
]
SENDS = {"eth_send": "E", "publish": "P", "call": "K"}


def fine_actions():
    for action, shown in EASY:
        yield ready(action), told_ready(shown), []
    for action, shown in EASY + IN_STEPS:
        yield step(action), told_step(shown), []
    for first, name in SENDS.items():
        yield step({first: name}), told_step(f'{{"{first}":"{name}"}}'), []
        for most, more, shown in ((4096, {}, ""), (4088, {"append": "x"}, '"append":"x",')):
            data = '"data":"%s"' % ("5a" * most)
            parts = f'{data},"{first}":"{name}"' if first > "data" else f'"{first}":"{name}",{data}'
            yield step({first: name, "data": "5A" * most, **more}), told_step("{%s%s}" % (shown, parts)), []
    for data, more, shown in (("", {}, ""), ("00", {}, '"data":"00",'), ("", {"append": "y"}, '"append":"y",')):
        yield step({"reply": "F", "data": data, **more}, on="F"), told_step('{%s"reply":"F"}' % shown, '"on":"F"'), []
    for service in "CELSFK":
        yield step({"take": "x"}, on=service), told_step('{"take":"x"}', f'"on":"{service}"'), []


def fine_rules():
    start = {"can_start": "C"}
    shown = '{"can_start":"C"}'
    for at in (0, 2**62):
        yield step(start, at=at), told_step(shown, f'"at":{at}'), []
    for every in (1, 2**60):
        yield step(start, every=every), told_step(shown, f'"every":{every}'), []
        yield step(start, every=every, **{"from": 0}), told_step(shown, f'"every":{every}'), []
        yield step(start, every=every, **{"from": LAST}), told_step(shown, f'"every":{every},"from":{LAST}'), []
    # All actions and rules stay in their order.
    yield step({"stop": True}, start, {"stop": True}), told_step('{"stop":true},%s,{"stop":true}' % shown), []
    script = [{"on": "S", "do": [start]}, {"at": 7, "do": [start]}, {"on": "C", "do": [start]}]
    text = '"script":[{"do":[%s],"on":"S"},{"at":7,"do":[%s]},{"do":[%s],"on":"C"}]' % (shown, shown, shown)
    yield full(script=script), told_full(text), []


def fine_limits():
    start, shown = {"can_start": "C"}, '{"can_start":"C"}'
    rules_told = ",".join(['{"at":0,"do":[%s]}' % shown] * 256)
    yield full(script=[{"at": 0, "do": [start]}] * 256), told_full(f'"script":[{rules_told}]'), []
    yield step(*[start] * 256), told_step(",".join([shown] * 256)), []
    yield ready(*[start] * 257), told_ready(",".join([shown] * 257)), []
    names = [f"{index:02}" for index in range(64)]
    services = ",".join('{"kind":"lin","name":"%s"}' % name for name in names)
    yield one(services=[{"kind": "lin", "name": name} for name in names]), told(f'"name":"A","services":[{services}]'), []
    variables = ",".join('"%s":1' % name for name in names)
    yield one(vars={name: 1 for name in names}), told('"name":"A","vars":{%s}' % variables), []
    labels = [{"key": name, "value": "", "kind": "optional"} for name in names[:16]]
    text = ",".join('{"key":"%s","kind":"optional","value":""}' % name for name in names[:16])
    yield one(services=[{"kind": "server", "name": "F", "function": "G", "labels": labels}]), (
        told('"name":"A","services":[{"function":"G","kind":"server","labels":[%s],"name":"F"}]' % text)
    ), []
    parts = ",".join('{"name":"%s"}' % name for name in names[:32])
    yield {"duration": 0, "participants": [{"name": name} for name in names[31::-1]], "required": names[:32]}, (
        '{"duration":0,"participants":[%s]}\n' % parts
    ), []


# ## Closed or open: the participants, and which it is


def closed():
    a, b = {"name": "A", "step": 1}, {"name": "B", "step": 2}
    yield {"participants": [a, b]}, True
    yield {"participants": [a, {"name": "B"}]}, False
    yield {"participants": [a, {**b, "mode": "autonomous"}]}, False
    yield {"participants": [a, b], "required": ["A"]}, False
    yield {"participants": [a, b], "required": ["B", "A"]}, True

    def acting(**keys):
        return {"participants": [{**a, "services": SERVICES, "vars": {"x": 0}, **keys}]}

    in_rules = {"can_send", "eth_send", "lin_header", "lin_frame", "publish", "call", "reply"}
    in_rules |= {"take", "pause", "stop", "set", "add"}
    for first, keys in {**TO_RULES, **ANYWHERE}.items():
        action = {first: said(first), **keys}
        rule = {**place(first), "do": [{"add": "x", "by": 1}, action]}
        yield acting(script=[{"every": 1, "do": [{"publish": "P"}]}, rule]), first in in_rules
        if first in ANYWHERE:
            yield acting(ready=[action]), True


# ## Random changes of scenarios


def samples():
    """The scenarios that docs/FORMATS.md shows."""
    with open(os.path.join(TOP, "docs", "FORMATS.md"), encoding="utf-8") as file:
        return re.findall(r"^```json\n(.*?)^```", file.read(), re.S | re.M)


KEYS = [
    *rules.ACTION_KEYS, "name", "mode", "step", "services", "config", "vars", "ready", "script", "kind", "network", "topic",
    "function", "media", "labels", "history", "key", "value", "do", "at", "every", "from", "on", "Name", "async", "zz", "a/~", "",
]
VALUES = [
    0, 1, 2, 63, 64, 255, 256, 1000, 1001, 2**32 - 1, 2**32, 2**60, 2**60 + 1, 2**61 + 1, 2**62, 2**62 + 1, LAST, -1, 0.5, True,
    False, None, "", "00", "0g", "a", "C", "E", "L", "P", "S", "F", "K", "x", "y", "A", "can", "lin", "server", "publisher", "tx",
    "rx", "master", "classic", "optional", "autonomous", LONG, "a\u0001", [], {}, [[]], {"stop": True}, {"take": "x"},
]


def places(value, found):
    """Each container in a value with each of its keys or indexes."""
    for key in value if isinstance(value, dict) else range(len(value)):
        found.append((value, key))
        if isinstance(value[key], (dict, list)):
            places(value[key], found)
    return found


def another(rng, value, found):
    """A value in place of this one, mostly of its type."""
    others = [container[key] for container, key in found] + VALUES
    alike = [other for other in others if type(other) is type(value)]
    return copy.deepcopy(rng.choice(alike if alike and rng.random() < 0.8 else others))


def change(rng, value):
    """One change somewhere in it."""
    found = places(value, [])
    if not found:
        return
    container, key = rng.choice(found)
    kind = rng.choice(["replace"] * 4 + ["drop", "add", "twice", "swap"])
    if kind == "replace":
        container[key] = another(rng, container[key], found)
    elif kind == "drop":
        del container[key]
    elif isinstance(container, list):
        new = copy.deepcopy(container[key]) if kind == "twice" else another(rng, container[key], found)
        container.insert(rng.randrange(len(container) + 1), new)
    elif kind == "add":
        container[rng.choice(KEYS)] = another(rng, container[key], found)
    elif kind == "swap":
        # Two members change their values.
        other = rng.choice([*container])
        container[key], container[other] = container[other], container[key]


def mutation(rng, bases):
    """A scenario with one to three changes, or with a byte of its text changed."""
    value = copy.deepcopy(rng.choice(bases))
    if rng.random() < 0.15:
        text = bytearray(json.dumps(value, ensure_ascii=rng.random() < 0.5).encode())
        text[rng.randrange(len(text))] = rng.choice(b'"{}[],:.-\\0189eEaz \xff')
        return bytes(text)
    for _ in range(rng.choice([1, 1, 2, 3])):
        change(rng, value)
    return json.dumps(value, ensure_ascii=rng.random() < 0.5, indent=rng.choice([None, 1])).encode()


def bases():
    sound = [json.loads(text) for text in samples()]
    sound += [file for file, _, _ in (*fine_services(), *fine_configurations()) if isinstance(file, dict)]
    every = [action for action, _ in EASY + IN_STEPS]
    script = [{"at": 0, "do": every}, {"every": 5, "from": 3, "do": [{"call": "K", "append": "x"}]}]
    script.append({"on": "F", "do": [{"take": "x"}, {"reply": "F", "data": "01", "append": "y"}]})
    return sound + [full(ready=[action for action, _ in EASY], script=script)] * 8


# ## Requests and answers


def read_request(file):
    return b"read " + file.hex().encode() + b"\n"


def text_request(file):
    return b"text " + file.hex().encode() + b"\n"


def answer(found):
    """As the program writes it, of what the rules give."""
    if found[0] == "fault":
        return f"fault {found[1]}: {found[2]}\n".encode()
    _, text, warnings = found
    lines = "".join(f"{warning}\n" for warning in warnings)
    return f"scenario {len(warnings)}\n{lines}".encode() + (b"closed\n" if rules.is_closed(text) else b"open\n")


def table():
    """Each row's file and what is wanted of it."""
    for file, path, rule in faults():
        yield configurations.as_bytes(file), ("fault", path, rule)
    for file, text, warnings in fine():
        yield configurations.as_bytes(file), ("scenario", text.encode(), warnings)


def closed_rows():
    for file, wanted in closed():
        found = rules.read(configurations.as_bytes({"duration": 0, **file}))
        yield configurations.as_bytes({"duration": 0, **file}), found, wanted


BY_HAND = (
    '{"duration":4000000,"participants":[{"name":"N00","script":[{"do":[{"append":"x","publish":"P"},{"add":"x","by":1}],'
    '"every":1000000}],"services":[{"kind":"publisher","name":"P","topic":"T00"},{"kind":"subscriber","name":"S","topic":"T01"}],'
    '"step":1000000,"vars":{"x":0}},{"name":"N01","script":[{"do":[{"append":"x","publish":"P"},{"add":"x","by":1}],'
    '"every":3000000}],"services":[{"kind":"publisher","name":"P","topic":"T01"},{"kind":"subscriber","name":"S","topic":"T00"}],'
    '"step":3000000,"vars":{"x":0}}]}\n'
).encode()


def generated():
    """What is asked of the generator: the one that is written out, those at its limits, and one of each number to 100."""
    yield from [(7, 2, 4), (7 + 2**31, 2, 4), (0, 2, 1), (LAST, 32, 2000)]
    rng = random.Random(2)
    for number in range(1, 101):
        yield number, rng.randint(2, 32), rng.randint(1, 2000)


def requests(rows, changed):
    """Each request with the answer that is wanted."""
    for file, wanted in rows:
        yield read_request(file), answer(wanted)
        yield text_request(file), wanted[1] if wanted[0] == "scenario" else answer(wanted)
        yield from read_back(wanted)
    for file, found, is_closed in closed_rows():
        yield read_request(file), answer(found).rsplit(b"\n", 2)[0] + (b"\nclosed\n" if is_closed else b"\nopen\n")
    for file in changed:
        found = rules.read(file)
        yield read_request(file), answer(found)
        if found[0] == "scenario":
            yield text_request(file), found[1]
        yield from read_back(found)
    for numbers in generated():
        text = rules.generate(*numbers)
        yield b"generate %d %d %d\n" % numbers, text
        yield from read_back(("scenario", text))


def read_back(found):
    """A scenario's own text reads as the same, without a warning, and is written again byte for byte."""
    if found[0] == "scenario":
        yield read_request(found[1]), answer(("scenario", found[1], []))
        yield text_request(found[1]), found[1]


def differences(asked):
    """The program's answers that aren't as wanted, each as a text."""
    sent = b"".join(request for request, _ in asked)
    done = subprocess.run([PROGRAM], input=sent, stdout=subprocess.PIPE, check=False)
    output = done.stdout.replace(b"\nwarning: ", b"\n")
    at = 0
    for request, wanted in asked:
        if output.startswith(wanted, at):
            at += len(wanted)
            continue
        got = next_answer(output, at)
        yield f"asked  {short(request)}\nwanted {short(wanted)}\ngot    {short(got)}"
        at += len(got)
    if output[at:] or done.returncode:
        yield f"at the end status {done.returncode}, and {short(output[at:])}"


def next_answer(output, at):
    """What stands there, by its first line."""
    head = re.match(rb"scenario (\d+)\n", output[at : at + 30])
    lines = output[at:].split(b"\n", int(head[1]) + 2 if head else 1)
    return output[at : len(output) - len(lines[-1])]


def short(text):
    text = repr(text)
    return text if len(text) < 2000 else f"{text[:1500]} .. {text[-400:]}"


def wrong_rules(rows):
    """Rows that the reader of the rules doesn't give as they are written."""
    for file, wanted in rows:
        found = rules.read(file)
        if found != wanted:
            yield f"file   {short(file)}\nwanted {short(wanted)}\nrules  {short(found)}"
        elif found[0] == "scenario" and rules.read(found[1]) != ("scenario", found[1], []):
            yield f"file   {short(file)}\nits text doesn't read back: {short(rules.read(found[1]))}"
    for file, found, is_closed in closed_rows():
        if found[0] == "fault" or rules.is_closed(found[1]) != is_closed:
            yield f"file   {short(file)}\nwanted closed: {is_closed}\nrules  {short(found)}"
    for text in samples():
        if rules.read(text.encode())[0] == "fault":
            yield f"a sample of the document\n{text}\nrules  {rules.read(text.encode())}"
    if rules.generate(7, 2, 4) != BY_HAND:
        yield "the scenario that is generated by 7 2 4 isn't the one that is written out"


def main():
    if "--rules" not in sys.argv[1:] and not os.path.exists(PROGRAM):
        sys.exit(f"scenarios.py: {PROGRAM} isn't there: run `rt ci` first")
    rows = list(table())
    rng, sound = random.Random(1), bases()
    changed = [mutation(rng, sound) for _ in range(1000)]
    bad = list(wrong_rules(rows))
    is_run = "--rules" not in sys.argv[1:]
    if is_run and not bad:
        bad = list(differences(list(requests(rows, changed))))
    for difference in bad[:DIFFERENCES]:
        print(difference)
    if bad:
        print(f"scenarios: {len(bad)} differences")
        return 1
    count = f"{len(rows) + len(list(closed()))} rows"
    more = f", {len(changed)} mutations, {len(list(generated()))} generated" if is_run else " of the reader alone"
    print(f"scenarios: {count}{more}, all as wanted")
    return 0


if __name__ == "__main__":
    sys.exit(main())
