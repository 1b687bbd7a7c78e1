"""Draws scenarios with services and scripts; scripts/scripted_runs.py runs them.

Services are few and alike, so that many match; values stand at their limits; most of what is sent is allowed, and some isn't.
"""
import json

import plain_schedule
import scenario_rules
import script_rules
from journal_rules import SERVICES
from simulations import NAMES

LAST = 2**64 - 1
# Of a closed scenario all that is sent, in messages and bytes, so that no run is long.
MOST_SENT, MOST_BYTES = 1500, 200000

# ## Services

BUSES = ["can", "ethernet", "lin"]
# The kinds of services in a scenario: of all, or of few, so that more happens between them.
THEMES = [SERVICES] * 3 + [["lin"], ["can", "ethernet"], ["publisher", "subscriber"], ["server", "client"]]


def random_services(rng, kinds):
    most = 8 if kinds is SERVICES else 4
    names = rng.sample(NAMES, rng.randint(0, most))
    return [random_service(rng, rng.choice(kinds), name) for name in names]


def random_service(rng, kind, name):
    """Topics are few, so that many match."""
    if kind in BUSES:
        return {"kind": kind, "name": name, "network": rng.choice("NNNM")}
    target = "topic" if kind in ("publisher", "subscriber") else "function"
    service = {"kind": kind, "name": name, target: rng.choice("ttu")}
    if rng.random() < 0.2:
        service["media"] = rng.choice(["", "text/plain"])
    if rng.random() < 0.3:
        service["labels"] = [
            {"key": key, "value": rng.choice("112"), "kind": rng.choice(["optional", "optional", "mandatory"])}
            for key in rng.sample("kl", rng.randint(1, 2))
        ]
    if kind == "publisher" and rng.random() < 0.3:
        service["history"] = 1
    return service


# ## Actions


class Actor:
    """Draws actions for a participant of these services and variables."""

    def __init__(self, rng, services, variables, is_closed):
        self.rng, self.variables, self.is_closed = rng, variables, is_closed
        self.by_kind = {}
        for service in services:
            self.by_kind.setdefault(service["kind"], []).append(service["name"])

    def pick(self, kind):
        """A service of this kind, or None."""
        return self.rng.choice(self.by_kind[kind]) if kind in self.by_kind else None

    def data(self, *lengths):
        return {"data": self.rng.randbytes(self.rng.choice(lengths)).hex()}

    def payload(self, *lengths):
        append = {"append": self.rng.choice(self.variables)} if self.variables and self.rng.random() < 0.5 else {}
        return {**(self.data(*lengths) if self.rng.random() < 0.7 else {}), **append}

    # Controllers

    def start(self):
        """Controllers as they get ready: most of them are ready to send then."""
        rng, actions = self.rng, []
        for name in self.by_kind.get("can", []):
            actions += [{"can_baud": name, "rate": 500000}] if rng.random() < 0.3 else []
            actions += [{"can_start": name}] if rng.random() < 0.9 else []
        for name in self.by_kind.get("ethernet", []):
            actions += [{"eth_activate": name}] if rng.random() < 0.9 else []
        for name in self.by_kind.get("lin", []):
            if rng.random() < 0.9:
                actions.append({"lin_init": name, "role": rng.choice(["master", "master", "slave"])})
            actions += [self.response(name) for _ in range(rng.choice([0, 1, 1, 2]))]
        return actions

    def change(self):
        """A call on a controller that sends no frame, or wakes others up or puts them to sleep."""
        rng = self.rng
        verbs = {
            "can": ["can_baud", "can_start", "can_start", "can_stop", "can_reset", "can_sleep"],
            "ethernet": ["eth_activate", "eth_deactivate"],
            "lin": ["lin_init", "lin_response"] + ([] if self.is_closed else ["lin_sleep", "lin_wakeup", "lin_wakeup"]),
        }
        kinds = [kind for kind in verbs if kind in self.by_kind]
        if not kinds:
            return self.on_variables()
        kind = rng.choice(kinds)
        verb, name = rng.choice(verbs[kind]), self.pick(kind)
        more = {"can_baud": {"rate": rng.choice([0, 500000, 2**32 - 1])}, "lin_init": {"role": rng.choice(["master", "slave"])}}
        return self.response(name) if verb == "lin_response" else {verb: name, **more.get(verb, {})}

    def lin_id(self):
        """Of few identifiers, so that responses meet; the one of the sleep frame changes the controllers that take it."""
        return self.rng.choice([0, 5, 5, 5, 5, 6, 6, 63, 64, 255] + ([] if self.is_closed else [60, 60, 60]))

    def response(self, name):
        mode = self.rng.choice(["tx", "tx", "tx", "rx", "unused"])
        action = {"lin_response": name, "id": self.lin_id(), "mode": mode}
        if mode == "tx" or self.rng.random() < 0.1:
            action["checksum"] = self.rng.choice(["unknown", "classic", "enhanced"])
        return {**action, **(self.lin_data(action["id"]) if mode == "tx" else {})}

    def lin_data(self, number):
        sleep = {"data": "00ffffffffffffff"}
        return sleep if number == 60 and self.rng.random() < 0.7 else self.data(0, 1, 2, 8, 8, 9)

    # Sends

    def can_send(self):
        rng = self.rng
        action = {"can_send": self.pick("can"), "id": rng.choice([0, 1, 2047, 2047, 2048, 2**29 - 1, 2**29])}
        action.update({key: rng.random() < 0.7 for key in ("extended", "fd") if rng.random() < 0.5})
        return {**action, **self.payload(0, 1, 4, 8, 8, 12, 13, 56, 64)}

    def eth_send(self):
        return {"eth_send": self.pick("ethernet"), **self.payload(13, 14, 14, 20, 52, 60, 61, 1510, 1511, 1518)}

    def lin_header(self):
        return {"lin_header": self.pick("lin"), "id": self.lin_id()}

    def lin_frame(self):
        action = {"lin_frame": self.pick("lin"), "id": self.lin_id(), "checksum": self.rng.choice(["unknown", "classic", "enhanced"])}
        return {**action, **self.lin_data(action["id"])}

    def publish(self):
        return {"publish": self.pick("publisher"), **self.payload(0, 1, 2, 8, 9, 30, 4088 if self.rng.random() < 0.1 else 7)}

    def call(self):
        return {"call": self.pick("client"), **self.payload(0, 1, 8, 20)}

    def send(self):
        """A message of some service, or None."""
        sends = {
            "can": [self.can_send], "ethernet": [self.eth_send], "lin": [self.lin_header, self.lin_frame],
            "publisher": [self.publish], "client": [self.call],
        }
        kinds = [kind for kind in sends if kind in self.by_kind]
        return self.rng.choice(sends[self.rng.choice(kinds)])() if kinds else None

    # Others

    def on_variables(self):
        rng, name = self.rng, self.rng.choice(self.variables or ["x"])
        number = rng.choice([0, 1, 2, 255, 256, 2**32, LAST - 1, LAST])
        return rng.choice([{"set": name, "to": number}, {"add": name, "by": number}, {"add": name, "by": 1}])

    def command(self):
        rng = self.rng
        words = [{"pause": rng.choice([1, 1, 2, 5])}] * 5 + [{"stop": True}] * 2
        return rng.choice(words + ([] if self.is_closed else [{"error": True}]))

    def action(self, on):
        """An action of a rule; `on` is the service that it hears, or None."""
        rng = self.rng
        if on is not None and rng.random() < 0.4:
            return {"take": rng.choice(self.variables)} if self.variables else None
        if on is not None and on["kind"] == "server" and rng.random() < 0.7:
            return {"reply": on["name"], **self.payload(0, 1, 8, 9)}
        draw = rng.random()
        if draw < 0.05:
            return self.command()
        if draw < 0.25:
            return self.on_variables() if self.variables else None
        if draw < 0.32 and not self.is_closed:
            return self.change() if self.variables or self.by_kind.keys() & {*BUSES} else None
        # What is heard seldom leads to something that is sent, else there would be more with each step.
        return self.send() if on is None or rng.random() < 0.4 else None

    def actions(self, on=None):
        found = [self.action(on) for _ in range(self.rng.choice([1, 1, 2, 3, 5]))]
        return [action for action in found if action is not None]


# ## Scenarios


def random_rule(rng, actor, services, sizes):
    """A rule, or None where nothing was drawn that it could do."""
    heard = [service for service in services if service["kind"] != "publisher"]
    if heard and rng.random() < 0.45:
        on = rng.choice(heard)
        rule = {"on": on["name"], "do": actor.actions(on)}
    elif rng.random() < 0.4:
        rule = {"at": rng.choice(sizes) * rng.randint(0, 6), "do": actor.actions()}
    else:
        rule = {"every": rng.choice(sizes) * rng.choice([1, 1, 1, 2]), "do": actor.actions()}
        rule.update({"from": rng.choice(sizes) * rng.randint(0, 4)} if rng.random() < 0.3 else {})
    if rng.random() < 0.01:
        # Together with others these may be more than a participant may do at once.
        rule["do"] = (rule["do"] * 256)[: rng.choice([250, 255, 256])]
    return rule if rule["do"] else None


def random_part(rng, name, sizes, kinds, is_closed):
    part = {"name": name}
    if is_closed or rng.random() < 0.85:
        part["step"] = rng.choice(sizes)
    if not is_closed and rng.random() < 0.2:
        part["mode"] = "autonomous"
    services, variables = random_services(rng, kinds), rng.sample(["x", "y", "z"], rng.choice([0, 1, 2, 3]))
    actor = Actor(rng, services, variables, is_closed)
    ready = actor.start() + [actor.change() for _ in range(rng.choice([0, 0, 0, 1, 3])) if variables or services]
    ready = [action for action in ready if not {"set", "add"} & action.keys() or variables]
    if rng.random() < 0.01:
        ready = (ready * 257)[: rng.choice([256, 257])]
    rules = [random_rule(rng, actor, services, [*sizes, part.get("step", 1)]) for _ in range(rng.choice([0, 2, 3, 5, 7]))]
    part.update(
        services=services, vars={name: rng.choice([0, 1, 255, 2**40, LAST - 1]) for name in variables}, ready=ready,
        script=[rule for rule in rules if rule],
    )
    return part


def random_scenario(rng, is_closed):
    """A scenario as JSON."""
    names = rng.sample(NAMES, rng.choice([1, 2, 3, 3, 4, 5, 6]))
    sizes = rng.choice([[1, 2, 3], [1000, 1500, 4000], [7, 7, 9, 40], [10**6], [10**6, 2 * 10**6], [2**59, 2**58, 2**58 - 1]])
    kinds = rng.choice(THEMES)
    parts = [random_part(rng, name, sizes, kinds, is_closed) for name in names]
    duration = min(min(sizes) * rng.randint(1, 16) + rng.choice([0, 0, -1, 1]), 2**61)
    required = [part["name"] for part in parts if "mode" not in part]
    scenario = {"duration": duration, "participants": parts}
    if required and rng.random() < 0.3:
        count = len(required) if is_closed else rng.randint(1, len(required))
        scenario["required"] = rng.sample(required, count)
    if rng.random() < 0.1:
        configure(rng, rng.choice(parts))
    return json.dumps(scenario, ensure_ascii=rng.random() < 0.5)


def configure(rng, part):
    """A configuration for a participant: with keys that aren't used, and another network of a controller."""
    lists = {"can": "CanControllers", "ethernet": "EthernetControllers", "lin": "LinControllers"}
    part["config"] = {"Logging": {}, "Middleware": {"RegistryUri": "silkit://localhost:8500"}, "CanControllers": [{"Name": "none"}]}
    for service in part["services"]:
        if service["kind"] in lists and rng.random() < 0.5:
            part["config"].setdefault(lists[service["kind"]], []).append({"Name": service["name"], "Network": "N"})


def closed_scenario(rng):
    """One whose plain schedule is short: the scenario as JSON and the report."""
    while True:
        text = random_scenario(rng, True)
        if not scenario_rules.is_closed(scenario_rules.read(text.encode())[1]):
            raise ValueError(text)
        scenario = script_rules.read(text.encode())
        try:
            steps = plain_schedule.play(scenario)
        except plain_schedule.TooMany:
            continue
        sent = [message for part in steps for step in part for message in step.sent]
        if len(sent) <= MOST_SENT and sum(len(message.data) for message in sent) <= MOST_BYTES:
            return text, plain_schedule.report(scenario, steps)
