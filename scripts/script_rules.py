"""What a scenario's participants ask for, and what comes of it, worked out from docs/FORMATS.md and docs/DEFINITIONS.md alone.

`read` makes a scenario of a file's bytes. A `Script` says what a participant asks for when it is ready and in each step, a
`Desk` what its services are at and what an action on one comes to. scripts/journal_rules.py reads journals by both, and
scripts/plain_schedule.py makes the report of a closed scenario.
"""
import json
from typing import NamedTuple

import scenario_rules
from action_table import BAD_FRAME, CAN, CAN_LENGTHS, DONE, ETHERNET, FD_LENGTHS, FIRST, KIND_OF_ACTION, LIN
from action_table import NO_SERVER, PAIRS, REFUSED, SLEEP_BYTES, UNKNOWN_CALL

MOST_ACTIONS = 256
LARGEST = 2**64 - 1

# ## Scenarios


class Service(NamedTuple):
    """The topic is a controller's network, a server's or client's function."""

    number: int
    kind: str
    name: str
    topic: str
    media: str
    # Of each its key, its value and whether it is mandatory.
    labels: tuple

    def finds(self, label):
        key, value, mandatory = label
        values = [other for name, other, _ in self.labels if name == key]
        return value in values if mandatory else all(other == value for other in values)

    def matches(self, other):
        """Whether they are for each other, whichever of them reads."""
        if (self.kind, other.kind) not in PAIRS or self.topic != other.topic:
            return False
        reader, writer = (other, self) if self.kind in ("publisher", "server") else (self, other)
        labels_fit = all(map(other.finds, self.labels)) and all(map(self.finds, other.labels))
        return reader.media in ("", writer.media) and labels_fit


class Part(NamedTuple):
    """A participant; without a size it takes no steps. Actions and rules stand as in the canonical text."""

    number: int
    name: str
    coordinated: bool
    size: int
    services: list
    variables: dict
    ready: list
    rules: list


class Scenario(NamedTuple):
    """Participants in the order of their numbers, and the names of those that are required."""

    duration: int
    parts: list
    required: list


def read(data):
    """The scenario of a file's bytes, which have no fault."""
    kind, *found = scenario_rules.read(data)
    if kind == "fault":
        raise ValueError(": ".join(found))
    value = json.loads(found[0])
    parts = [read_part(number, part) for number, part in enumerate(value["participants"])]
    coordinated = [part.name for part in parts if part.coordinated]
    return Scenario(value["duration"], parts, value.get("required", coordinated))


def read_part(number, value):
    services = [read_service(index, service) for index, service in enumerate(value.get("services", []))]
    script = value.get("vars", {}), value.get("ready", []), value.get("script", [])
    return Part(number, value["name"], "mode" not in value, value.get("step"), services, *script)


def read_service(number, value):
    kind, name = value["kind"], value["name"]
    topic = value.get(scenario_rules.target_of(kind), name)
    labels = tuple((label["key"], label["value"], label["kind"] == "mandatory") for label in value.get("labels", []))
    return Service(number, kind, name, topic, value.get("media", ""), labels)


# ## What a script asks for

COMMANDS = {"stop": "Stop", "error": "ReportError", "pause": "Pause"}


class Message(NamedTuple):
    """What a service sends: the number of the service, the stamp and the mark, the fields of its kind behind them, its bytes."""

    kind: str
    service: int
    stamp: int
    mark: int
    fields: tuple
    data: bytes


class Seen(NamedTuple):
    """A message that was handed to a service, in the order in which a step sees it."""

    stamp: int
    peer: int
    place: int
    service: int
    message: Message


class Action(NamedTuple):
    """What is asked for: an action on a service, or a command, which has none. A reply has the call that it answers."""

    verb: str
    service: int
    keys: dict
    data: bytes
    call: tuple


class Script:
    """A participant's script, with the values of its variables so far."""

    def __init__(self, part):
        self.part = part
        self.values = dict(part.variables)
        self.numbers = {service.name: service.number for service in part.services}
        self.timed = [rule for rule in part.rules if "on" not in rule]
        self.hearing = {}
        for rule in part.rules:
            if "on" in rule:
                self.hearing.setdefault(self.numbers[rule["on"]], []).append(rule)

    def ready(self):
        return self.do(self.part.ready, None)

    def step(self, at, seen):
        """What is asked for in a step at this time that sees these."""
        asked = []
        for item in seen:
            for rule in self.hearing.get(item.service, []):
                asked += self.do(rule["do"], item)
        for rule in self.timed:
            if is_due(rule, at):
                asked += self.do(rule["do"], None)
        return asked

    def do(self, actions, cause):
        return [asked for action in actions for asked in self.act(action, cause)]

    def act(self, action, cause):
        """What one action asks for, if anything: some are on variables alone. The cause is the message that is seen, or None."""
        verb = next(key for key in action if key in scenario_rules.ACTIONS)
        name = action[verb]
        if verb == "set":
            self.values[name] = action["to"]
        elif verb == "add":
            self.values[name] = min(self.values[name] + action["by"], LARGEST)
        elif verb == "take":
            self.values[name] = int.from_bytes(cause.message.data[:8], "little")
        elif verb in COMMANDS:
            return [Action(verb, None, action, b"", None)]
        else:
            call = (cause.peer, cause.message.service, *cause.message.fields) if verb == "reply" else None
            return [Action(verb, self.numbers[name], action, self.payload(action), call)]
        return []

    def payload(self, action):
        more = self.values[action["append"]].to_bytes(8, "little") if "append" in action else b""
        return bytes.fromhex(action.get("data", "")) + more


def is_due(rule, at):
    if "at" in rule:
        return rule["at"] == at
    begin = rule.get("from", 0)
    return begin <= at and (at - begin) % rule["every"] == 0


# ## What services are at, and what actions on them come to

# The kind of service that sends a message, and the kind that takes it; a response is noted and not handed.
SENDS = {
    "Can": "can", "Eth": "ethernet", "Lin": "lin", "LinResponse": "lin", "Publish": "publisher", "Call": "client", "Reply": "server",
}
VERBS = {"reply": "submit"}
MODES = {"unused": 0, "rx": 1, "tx": 2}
CHECKSUMS = {"unknown": 0, "classic": 1, "enhanced": 2}
RECEIVED, WRONG, NO_RESPONSE, WAKE_UP = range(4)
SLEEP_ID = 0x3C
OWN = "own"


class Desk:
    """What the services of a participant are at, by their numbers."""

    def __init__(self, services):
        self.services = services
        self.states = [FIRST.get(service.kind) for service in services]
        self.masters = set()
        # Of each LIN controller the mode, checksum and bytes of a response, by identifier and origin.
        self.kept = [{} for _ in services]
        self.made = [0] * len(services)
        self.open = set()

    # Messages of others

    def receivers(self, sender, message):
        """The own services, in rising number, to which a message of another one's service is handed now."""
        if message.kind == "LinResponse":
            return []
        if message.kind == "Reply":
            client = message.fields[0]
            return [client] if client < len(self.services) and self.services[client].kind == "client" else []
        return [own.number for own in self.services if own.matches(sender) and self.admits(own, message)]

    def admits(self, own, message):
        state = self.states[own.number]
        if own.kind == "lin":
            return state == "Operational" or (state == "Sleep" and message.fields[2] == WAKE_UP)
        return own.kind not in ("can", "ethernet") or state in ("Started", "LinkUp")

    def receive(self, number, peer, message):
        """A message of this peer was handed to the service of this number."""
        if message.kind == "Lin" and message.fields[2] == WAKE_UP:
            self.states[number] = "Operational"
        elif message.kind == "Lin" and (message.fields[0], message.fields[2]) == (SLEEP_ID, RECEIVED) and message.data == SLEEP_BYTES:
            self.states[number] = "Sleep"
        elif message.kind == "Call":
            self.open.add((number, (peer, message.service, *message.fields)))

    def note(self, sender, peer, message):
        """Each LIN controller of the network keeps the response, whatever its state is."""
        number, mode, checksum = message.fields
        for own in self.services:
            if own.matches(sender):
                self.kept[own.number].setdefault(number, {})[peer, sender.number] = (mode, checksum, message.data)

    # Own actions

    def act(self, action, stamp, mark, has_server):
        """The code of an action, and the message that it sends, or None. `has_server` tells whether a client reaches a server."""
        own = self.services[action.service]
        if own.kind != KIND_OF_ACTION[VERBS.get(action.verb, action.verb)]:
            return REFUSED, None
        acts = {
            "can": self.act_can, "ethernet": self.act_ethernet, "lin": self.act_lin, "publisher": self.publish, "server": self.reply,
        }
        answer = self.call(own, action, has_server(own)) if own.kind == "client" else acts[own.kind](own, action)
        if type(answer) is int:
            return answer, None
        kind, fields, data = answer
        return DONE, Message(kind, own.number, stamp, mark, fields, data)

    def act_can(self, own, action):
        after = CAN[action.verb].get(self.states[own.number])
        if after is None:
            return REFUSED
        if action.verb == "can_send":
            return send_can(action)
        self.states[own.number] = after
        return DONE

    def act_ethernet(self, own, action):
        after = ETHERNET[action.verb].get(self.states[own.number])
        if after is None:
            return REFUSED
        if action.verb == "eth_send":
            return ("Eth", (), action.data.ljust(60, b"\0")) if 14 <= len(action.data) <= 1518 else BAD_FRAME
        self.states[own.number] = after
        return DONE

    def act_lin(self, own, action):
        state, of_master, after = LIN[action.verb]
        if self.states[own.number] != state or (of_master and own.number not in self.masters):
            return REFUSED
        if action.verb in ("lin_response", "lin_header", "lin_frame"):
            return self.act_lin_frame(own, action)
        self.states[own.number] = after
        if action.verb == "lin_sleep":
            return "Lin", (SLEEP_ID, CHECKSUMS["classic"], RECEIVED), SLEEP_BYTES
        if action.verb == "lin_wakeup":
            return "Lin", (0, CHECKSUMS["unknown"], WAKE_UP), b""
        self.masters.update([own.number] if action.keys["role"] == "master" else [])
        return DONE

    def act_lin_frame(self, own, action):
        number = action.keys["id"]
        if number > 63:
            return BAD_FRAME
        if action.verb == "lin_header":
            return self.header(own, number)
        mode, checksum = MODES[action.keys.get("mode", "tx")], CHECKSUMS[action.keys.get("checksum", "unknown")]
        is_empty = checksum == CHECKSUMS["unknown"] and action.data == b""
        if len(action.data) > 8 or (mode != MODES["tx"] and not is_empty):
            return BAD_FRAME
        self.kept[own.number].setdefault(number, {})[OWN] = (mode, checksum, action.data)
        return self.header(own, number) if action.verb == "lin_frame" else ("LinResponse", (number, mode, checksum), action.data)

    def header(self, own, number):
        """The frame that a header of this identifier brings."""
        responses = self.kept[own.number].get(number, {}).values()
        found = [(checksum, data) for mode, checksum, data in responses if mode == MODES["tx"]]
        if len(found) == 1:
            return "Lin", (number, found[0][0], RECEIVED), found[0][1]
        return "Lin", (number, CHECKSUMS["unknown"], WRONG if found else NO_RESPONSE), b""

    def publish(self, own, action):
        return "Publish", (), action.data

    def call(self, own, action, is_reached):
        if not is_reached:
            return NO_SERVER
        self.made[own.number] += 1
        return "Call", (self.made[own.number],), action.data

    def reply(self, own, action):
        if (own.number, action.call) not in self.open:
            return UNKNOWN_CALL
        self.open.remove((own.number, action.call))
        _, client, call = action.call
        return "Reply", (client, call), action.data


def send_can(action):
    extended, fd = action.keys.get("extended", False), action.keys.get("fd", False)
    if action.keys["id"] >= (2**29 if extended else 2**11) or len(action.data) not in (FD_LENGTHS if fd else CAN_LENGTHS):
        return BAD_FRAME
    return "Can", (action.keys["id"], extended + 2 * fd), action.data
