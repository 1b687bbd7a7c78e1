#!/usr/bin/env python3
"""What a scenario file says, or its first fault, worked out from the rules in docs/FORMATS.md alone.

    scripts/scenario_rules.py FILE   prints the fault, or the warnings and the canonical text

`read` answers ("fault", path, rule) or ("scenario", canonical text, warnings), `is_closed` judges a canonical text, and
`generate` gives that of a generated scenario. Nothing of the program is used: scripts/scenarios.py compares it with this.
"""
import json
import math
import re
import sys

LONGEST_RUN, LONGEST_STEP, LATEST = 2**61, 2**60, 2**62
U32, U64 = 2**32 - 1, 2**64 - 1
MOST_DEEP = 127
MOST_TEXT = 64


class Fault(Exception):
    """The first one: where it is, and the rule."""

    def __init__(self, path, rule):
        super().__init__(f"{path}: {rule}")
        self.path, self.rule = path, rule


# ## JSON

STRING = re.compile(r'"(?:[^"\\]|\\.)*"', re.DOTALL)


def read_number(literal):
    """An int where it is whole, else a float: that is no number as scenarios have them."""
    size = float(literal)
    if math.isinf(size):
        raise ValueError
    is_whole = literal.isdigit() and len(literal) <= 20 and int(literal) <= U64
    return int(literal) if is_whole else size


def no_number(word):
    raise ValueError(word)


def is_deep(text):
    deep = 0
    for sign in re.findall(r"[][{}]", STRING.sub("", text)):
        deep += 1 if sign in "[{" else -1
        if deep > MOST_DEEP:
            return True
    return False


def has_lone_surrogate(text):
    return any(re.search("[\ud800-\udfff]", json.loads(string)) for string in STRING.findall(text))


def read_json(data):
    """Its value; of equal keys the last one counts."""
    try:
        text = data.decode("utf-8")
        value = json.loads(text, parse_int=read_number, parse_float=read_number, parse_constant=no_number)
    except (ValueError, RecursionError):
        raise Fault("", "not JSON") from None
    if is_deep(text) or has_lone_surrogate(text):
        raise Fault("", "not JSON")
    return value


def write_json(value):
    """Compact, with keys in byte order, which is that of Python's texts."""
    text = json.dumps(value, ensure_ascii=False, separators=(",", ":"), sort_keys=True)
    return text.encode() + b"\n"


# ## Values

NEEDED = object()


def below(path, *steps):
    for step in steps:
        path += "/" + str(step).replace("~", "~0").replace("/", "~1")
    return path


def is_text(text):
    return len(text.encode()) <= MOST_TEXT and not re.search("[\0-\x1f\x7f]", text)


def is_name(text):
    return text != "" and is_text(text)


def need_object(path, value):
    if type(value) is not dict:
        raise Fault(path, "wrong type")


def unknown(value, known):
    return [key for key in sorted(value) if key not in known]


def refuse_unknown(path, value, known):
    for key in unknown(value, known):
        raise Fault(below(path, key), "unknown key")


def value_at(path, value, key, kind, default):
    """What stands at a key, which has to be of this type."""
    if key not in value:
        if default is NEEDED:
            raise Fault(below(path, key), "missing")
        return default
    if type(value[key]) is not kind:
        raise Fault(below(path, key), "wrong type")
    return value[key]


def number_at(path, value, key, low, high, default=NEEDED):
    number = value_at(path, value, key, int, default)
    if key in value and not low <= number <= high:
        raise Fault(below(path, key), "out of range")
    return number


def text_at(path, value, key, is_fine, default=NEEDED):
    text = value_at(path, value, key, str, default)
    if key in value and not is_fine(text):
        raise Fault(below(path, key), "bad text")
    return text


def name_at(path, value, key, default=NEEDED):
    return text_at(path, value, key, is_name, default)


def word_at(path, value, key, words, default=NEEDED):
    word = value_at(path, value, key, str, default)
    if word not in words:
        raise Fault(below(path, key), "out of range")
    return word


def list_at(path, value, key, least, most, default=NEEDED):
    items = value_at(path, value, key, list, default)
    if key in value and not least <= len(items) <= most:
        raise Fault(below(path, key), "out of range")
    return items


# ## Services

BUS = ("kind", "name", "network")
TOPIC = ("kind", "name", "topic", "media", "labels")
FUNCTION = ("kind", "name", "function", "media", "labels")
SERVICE_KEYS = {
    "can": BUS, "ethernet": BUS, "lin": BUS, "publisher": (*TOPIC, "history"), "subscriber": TOPIC,
    "server": FUNCTION, "client": FUNCTION,
}
TARGETS = ("network", "topic", "function")
LABEL_KEYS = ("key", "value", "kind")


def read_service(path, value, earlier):
    """Its keys as the canonical text has them, but with all defaults."""
    need_object(path, value)
    kind = value.get("kind")
    is_kind = type(kind) is str and kind in SERVICE_KEYS
    refuse_unknown(path, value, SERVICE_KEYS[kind] if is_kind else sum(SERVICE_KEYS.values(), ()))
    kind = word_at(path, value, "kind", SERVICE_KEYS)
    keys = SERVICE_KEYS[kind]
    name = new_name_at(path, value, "name", earlier)
    service = {"kind": kind, "name": name}
    target = target_of(kind)
    service[target] = name_at(path, value, target, name if target == "network" else NEEDED)
    if "media" in keys:
        service["media"] = text_at(path, value, "media", is_text, "")
        service["labels"] = read_labels(below(path, "labels"), list_at(path, value, "labels", 0, 16, []))
    if "history" in keys:
        service["history"] = number_at(path, value, "history", 0, 1, 0)
    return service


def target_of(kind):
    return next(key for key in SERVICE_KEYS[kind] if key in TARGETS)


def new_name_at(path, value, key, earlier):
    name = name_at(path, value, key)
    if name in earlier:
        raise Fault(below(path, key), "name taken")
    return name


def read_labels(path, items):
    labels = []
    for index, item in enumerate(items):
        at = below(path, index)
        need_object(at, item)
        refuse_unknown(at, item, LABEL_KEYS)
        key = new_name_at(at, item, "key", [label["key"] for label in labels])
        value = text_at(at, item, "value", is_text)
        labels.append({"key": key, "value": value, "kind": word_at(at, item, "kind", ("optional", "mandatory"))})
    return labels


def read_services(path, items):
    services = []
    for index, item in enumerate(items):
        services.append(read_service(below(path, index), item, [service["name"] for service in services]))
    return services


def written_service(service):
    """Without what it would have anyway."""
    defaults = {"network": service["name"], "media": "", "labels": [], "history": 0}
    return {key: value for key, value in service.items() if key not in defaults or value != defaults[key]}


# ## Configurations

CONFIG_LISTS = {
    "CanControllers": "can", "EthernetControllers": "ethernet", "LinControllers": "lin", "DataPublishers": "publisher",
    "DataSubscribers": "subscriber", "RpcServers": "server", "RpcClients": "client",
}
CONFIG_KEYS = ("ParticipantName", *CONFIG_LISTS, "Middleware")
CONFIG_TARGETS = {"network": "Network", "topic": "Topic", "function": "FunctionName"}


def is_address(text):
    found = re.fullmatch(r"silkit://[A-Za-z0-9.-]+:([0-9]+)", text)
    return len(text) <= MOST_TEXT and found is not None and 1 <= int(found[1]) <= 65535


def enter_config(path, value, known, warnings):
    need_object(path, value)
    warnings += [f"{below(path, key)}: not used" for key in unknown(value, known)]


def config_text_at(path, value, key, is_fine, default=None):
    """As in a file of its own, where such a text is a bad value: out of range in a scenario."""
    text = value_at(path, value, key, str, default)
    if key in value and not is_fine(text):
        raise Fault(below(path, key), "out of range")
    return text


def read_config(path, value, warnings):
    """What it says: the participant's name or None, and the entries of each list."""
    enter_config(path, value, CONFIG_KEYS, warnings)
    name = config_text_at(path, value, "ParticipantName", is_name)
    lists = {key: read_entries(path, value, key, warnings) for key in CONFIG_LISTS}
    if "Middleware" in value:
        at = below(path, "Middleware")
        enter_config(at, value["Middleware"], ("RegistryUri",), warnings)
        config_text_at(at, value["Middleware"], "RegistryUri", is_address)
    return name, lists


def read_entries(path, value, key, warnings):
    kind, entries = CONFIG_LISTS[key], []
    target = CONFIG_TARGETS[target_of(kind)]
    known = ("Name", target, "History") if kind == "publisher" else ("Name", target)
    for index, item in enumerate(list_at(path, value, key, 0, 64, [])):
        at = below(path, key, index)
        enter_config(at, item, known, warnings)
        name = config_text_at(at, item, "Name", is_name, NEEDED)
        if name in [entry[0] for entry in entries]:
            raise Fault(below(at, "Name"), "name taken")
        says = config_text_at(at, item, target, is_name)
        history = number_at(at, item, "History", 0, 1, None) if "History" in known else None
        entries.append((name, says, history))
    return entries


def apply_config(path, lists, services, warnings):
    """Lays the entries over the services of their kind and name."""
    for key, kind in CONFIG_LISTS.items():
        for index, (name, target, history) in enumerate(lists[key]):
            found = [service for service in services if (service["kind"], service["name"]) == (kind, name)]
            if not found:
                warnings.append(f"{below(path, key, index)}: no such service")
            for service in found:
                service.update({} if target is None else {target_of(kind): target})
                service.update({} if history is None else {"history": history})


# ## Actions


class Scope:
    """What names may stand for in a participant's actions."""

    def __init__(self, services, variables):
        self.kinds = {service["name"]: service["kind"] for service in services}
        self.variables = variables

    def service_at(self, path, value, key, kinds):
        name = name_at(path, value, key)
        if self.kinds.get(name) not in kinds:
            raise Fault(below(path, key), "no such service")
        return name

    def variable_at(self, path, value, key, default=NEEDED):
        name = name_at(path, value, key, default)
        if key in value and name not in self.variables:
            raise Fault(below(path, key), "no such variable")
        return name


# A field answers what stands in the canonical text, or None where that is its default.


def service(kind):
    return lambda scope, path, value, key: scope.service_at(path, value, key, (kind,))


def variable(scope, path, value, key):
    return scope.variable_at(path, value, key)


def append(scope, path, value, key):
    return scope.variable_at(path, value, key, None)


def number(low, high):
    return lambda scope, path, value, key: number_at(path, value, key, low, high)


def word(*words):
    return lambda scope, path, value, key: word_at(path, value, key, words)


def checksum(scope, path, value, key):
    found = word_at(path, value, key, ("unknown", "classic", "enhanced"), "unknown")
    return None if found == "unknown" else found


def flag(scope, path, value, key):
    return value_at(path, value, key, bool, False) or None


def true(scope, path, value, key):
    if not value_at(path, value, key, bool, NEEDED):
        raise Fault(below(path, key), "out of range")
    return True


def data(scope, path, value, key):
    digits = value_at(path, value, key, str, "")
    if len(digits) % 2 or not re.fullmatch("[0-9a-fA-F]*", digits):
        raise Fault(below(path, key), "bad hex")
    most = 4088 if "append" in value else 4096
    if value.get("mode") in ("unused", "rx"):
        most = 0
    if len(digits) > 2 * most:
        raise Fault(below(path, key), "out of range")
    return digits.lower() or None


ANY_NUMBER, LIN_ID = number(0, U64), number(0, 255)
PAYLOAD = {"data": data, "append": append}
# Of each first key: where the action may stand, how the key is read, and its further keys.
ACTIONS = {
    "can_baud": ("both", service("can"), {"rate": number(0, U32)}),
    "can_start": ("both", service("can"), {}),
    "can_stop": ("both", service("can"), {}),
    "can_reset": ("both", service("can"), {}),
    "can_sleep": ("both", service("can"), {}),
    "can_send": ("rule", service("can"), {"id": number(0, U32), "extended": flag, "fd": flag, **PAYLOAD}),
    "eth_activate": ("both", service("ethernet"), {}),
    "eth_deactivate": ("both", service("ethernet"), {}),
    "eth_send": ("rule", service("ethernet"), PAYLOAD),
    "lin_init": ("both", service("lin"), {"role": word("master", "slave")}),
    "lin_response": (
        "both", service("lin"), {"id": LIN_ID, "mode": word("unused", "rx", "tx"), "checksum": checksum, "data": data},
    ),
    "lin_header": ("rule", service("lin"), {"id": LIN_ID}),
    "lin_frame": ("rule", service("lin"), {"id": LIN_ID, "checksum": checksum, "data": data}),
    "lin_sleep": ("both", service("lin"), {}),
    "lin_wakeup": ("both", service("lin"), {}),
    "publish": ("rule", service("publisher"), PAYLOAD),
    "call": ("rule", service("client"), PAYLOAD),
    "reply": ("call", service("server"), PAYLOAD),
    "set": ("both", variable, {"to": ANY_NUMBER}),
    "add": ("both", variable, {"by": ANY_NUMBER}),
    "take": ("message", variable, {}),
    "pause": ("rule", number(1, 1000), {}),
    "stop": ("rule", true, {}),
    "error": ("rule", true, {}),
}
ACTION_KEYS = set(ACTIONS).union(*(fields for _, _, fields in ACTIONS.values()))


def is_in_place(scope, first, value, rule):
    """Whether this action may stand in this rule, or in `ready` where that is None."""
    place = ACTIONS[first][0]
    if place == "both" or rule is None:
        return place == "both"
    on = rule.get("on")
    if place == "call":
        return type(on) is str and scope.kinds.get(on) == "server" and value[first] == on
    return place == "rule" or "on" in rule


def read_action(scope, path, value, rule):
    need_object(path, value)
    refuse_unknown(path, value, ACTION_KEYS)
    firsts = [key for key in value if key in ACTIONS]
    if len(firsts) != 1 or not is_in_place(scope, firsts[0], value, rule):
        raise Fault(path, "not allowed here")
    _, read_first, fields = ACTIONS[firsts[0]]
    fields = {firsts[0]: read_first, **fields}
    refuse_unknown(path, value, fields)
    found = {key: read_field(scope, path, value, key) for key, read_field in fields.items()}
    return {key: one for key, one in found.items() if one is not None}


def read_actions(scope, path, items, rule=None):
    return [read_action(scope, below(path, index), item, rule) for index, item in enumerate(items)]


# ## Rules

CONDITIONS = ("at", "every", "on")
HEARS = [kind for kind in SERVICE_KEYS if kind != "publisher"]


def read_rule(scope, path, value):
    need_object(path, value)
    refuse_unknown(path, value, ("do", "from", *CONDITIONS))
    if sum(key in value for key in CONDITIONS) != 1:
        raise Fault(path, "not allowed here")
    if "every" not in value:
        refuse_unknown(path, value, ("do", *CONDITIONS))
    rule = {"do": read_actions(scope, below(path, "do"), list_at(path, value, "do", 1, 256), value)}
    if "at" in value:
        rule["at"] = number_at(path, value, "at", 0, LATEST)
    elif "on" in value:
        rule["on"] = scope.service_at(path, value, "on", HEARS)
    else:
        rule["every"] = number_at(path, value, "every", 1, LONGEST_STEP)
        rule.update({"from": begin} if (begin := number_at(path, value, "from", 0, U64, 0)) else {})
    return rule


# ## Participants


def read_variables(path, value):
    variables = value_at(path, value, "vars", dict, {})
    at = below(path, "vars")
    if len(variables) > 64:
        raise Fault(at, "out of range")
    for name in sorted(variables):
        if not is_name(name):
            raise Fault(below(at, name), "bad text")
        number_at(at, variables, name, 0, U64)
    return variables


def read_participant(path, value, warnings):
    """Its keys as the canonical text has them."""
    need_object(path, value)
    refuse_unknown(path, value, ("name", "mode", "step", "services", "config", "vars", "ready", "script"))
    part = {"name": name_at(path, value, "name")}
    part["mode"] = word_at(path, value, "mode", ("coordinated", "autonomous"), "coordinated")
    part["step"] = number_at(path, value, "step", 1, LONGEST_STEP, None)
    services = read_services(below(path, "services"), list_at(path, value, "services", 0, 64, []))
    config, at = None, below(path, "config")
    if "config" in value:
        config = read_config(at, value["config"], warnings)
    part["vars"] = read_variables(path, value)
    scope = Scope(services, part["vars"])
    part["ready"] = read_actions(scope, below(path, "ready"), value_at(path, value, "ready", list, []))
    rules = list_at(path, value, "script", 0, 256, [])
    part["script"] = [read_rule(scope, below(path, "script", index), rule) for index, rule in enumerate(rules)]
    if config is not None:
        part["name"] = config[0] or part["name"]
        apply_config(at, config[1], services, warnings)
    part["services"] = [written_service(service) for service in services]
    return {key: one for key, one in part.items() if one not in (None, [], {}, "coordinated") or key == "name"}


# ## Scenarios


def read_required(value):
    names = []
    for index, name in enumerate(list_at("", value, "required", 1, 32, [])):
        at = below("", "required", index)
        if type(name) is not str:
            raise Fault(at, "wrong type")
        if not is_name(name):
            raise Fault(at, "bad text")
        if name in names:
            raise Fault(at, "name taken")
        names.append(name)
    return names


def read_scenario(value, warnings):
    need_object("", value)
    refuse_unknown("", value, ("duration", "required", "participants"))
    duration = number_at("", value, "duration", 0, LONGEST_RUN)
    required = read_required(value)
    items = list_at("", value, "participants", 1, 32)
    parts = [read_participant(below("", "participants", index), item, warnings) for index, item in enumerate(items)]
    names = [part["name"] for part in parts]
    for index, name in enumerate(names):
        if name in names[:index]:
            raise Fault(below("", "participants", index, "name"), "name taken")
    coordinated = sorted(part["name"] for part in parts if "mode" not in part)
    for index, name in enumerate(required):
        if name not in coordinated:
            raise Fault(below("", "required", index), "no such participant")
    scenario = {"duration": duration, "participants": sorted(parts, key=lambda part: part["name"])}
    return {**scenario, "required": required} if required not in ([], coordinated) else scenario


def read(data):
    """("fault", path, rule), or ("scenario", canonical text, warnings)."""
    warnings = []
    try:
        scenario = read_scenario(read_json(data), warnings)
    except Fault as fault:
        return "fault", fault.path, fault.rule
    return "scenario", write_json(scenario), warnings


FREE_BUS_ACTIONS = {"can_send", "eth_send", "lin_header", "lin_frame"}


def is_closed(text):
    """Of a canonical text."""
    scenario = json.loads(text)
    parts = scenario["participants"]
    required = scenario.get("required", [part["name"] for part in parts])
    actions = [action for part in parts for rule in part.get("script", []) for action in rule["do"]]
    firsts = {key for action in actions for key in action if key in ACTIONS}
    bus = {key for key in firsts if key.startswith(("can_", "eth_", "lin_"))}
    return (
        all("mode" not in part and "step" in part and part["name"] in required for part in parts)
        and "error" not in firsts
        and bus <= FREE_BUS_ACTIONS
    )


def generate(seed, participants, steps):
    """The canonical text of a generated scenario."""
    parts, state = [], seed % 2**31
    for index in range(participants):
        state = (1103515245 * state + 12345) % 2**31
        step = 1000000 * (1 + state // 65536 % 4)
        next_one = (index + 1) % participants
        services = [
            {"kind": "publisher", "name": "P", "topic": f"T{index:02}"},
            {"kind": "subscriber", "name": "S", "topic": f"T{next_one:02}"},
        ]
        rule = {"every": step, "do": [{"publish": "P", "append": "x"}, {"add": "x", "by": 1}]}
        parts.append({"name": f"N{index:02}", "step": step, "vars": {"x": 0}, "services": services, "script": [rule]})
    return write_json({"duration": 1000000 * steps, "participants": parts})


def main():
    if len(sys.argv) != 2:
        sys.exit(__doc__)
    with open(sys.argv[1], "rb") as file:
        kind, *found = read(file.read())
    if kind == "fault":
        print(": ".join(found))
        return 1
    for warning in found[1]:
        print(f"warning: {warning}")
    print(found[0].decode(), end="")
    return 0


if __name__ == "__main__":
    sys.exit(main())
