#!/usr/bin/env python3
"""What a participant makes of its services, worked out from the rules in docs/FORMATS.md and docs/DEFINITIONS.md alone.

    scripts/action_table.py           writes the table into crates/sk_node_tables, as `stdin` and `stdout`
    scripts/action_table.py --check   compares it with those

The proved program of crates/sk_node_tables is run on the first and has to answer the second; the head of its main.rt says
what the rows are. The rules stand here as tables, and `Participant` goes by them. Rows that were worked out by hand have
their lines beside them, and these are compared too.
"""
import sys
from pathlib import Path

CRATE = Path(__file__).resolve().parent.parent / "crates/sk_node_tables"

# ## Rules

DONE, REFUSED, BAD_FRAME, NO_SERVER, UNKNOWN_CALL = range(5)

# The state after a call; without one it is refused.
CAN = {
    "can_baud": {"Uninit": "Uninit", "Stopped": "Stopped"},
    "can_start": {"Uninit": "Started", "Stopped": "Started", "Sleep": "Started"},
    "can_stop": {"Started": "Stopped", "Sleep": "Stopped"},
    "can_reset": {"Uninit": "Uninit", "Stopped": "Uninit", "Started": "Uninit", "Sleep": "Uninit"},
    "can_sleep": {"Stopped": "Sleep", "Started": "Sleep"},
    "can_send": {"Started": "Started"},
}
CAN_LENGTHS, FD_LENGTHS = range(9), (*range(9), 12, 16, 20, 24, 32, 48, 64)
ETHERNET = {
    "eth_activate": {"Inactive": "LinkUp", "LinkUp": "LinkUp"},
    "eth_deactivate": {"Inactive": "Inactive", "LinkUp": "Inactive"},
    "eth_send": {"LinkUp": "LinkUp"},
}
# The state in which a call may be, whether of a master alone, and the state after it.
LIN = {
    "lin_init": ("Uninit", False, "Operational"),
    "lin_response": ("Operational", False, "Operational"),
    "lin_header": ("Operational", True, "Operational"),
    "lin_frame": ("Operational", True, "Operational"),
    "lin_sleep": ("Operational", True, "Sleep"),
    "lin_wakeup": ("Sleep", False, "Operational"),
}
SLEEP_BYTES = bytes([0] + [0xFF] * 7)
# What stands behind the service in an action, where the fields don't matter.
FIELDS = {
    "can_baud": "500000", "can_start": "", "can_stop": "", "can_reset": "", "can_sleep": "", "can_send": "1 0 0102",
    "eth_activate": "", "eth_deactivate": "", "eth_send": "55*60",
    "lin_init": "master", "lin_response": "5 TxUnconditional Classic 0102", "lin_header": "5",
    "lin_frame": "5 TxUnconditional Enhanced 0304", "lin_sleep": "", "lin_wakeup": "",
    "publish": "07", "call": "07", "submit": "1 0 1 07",
}
# The kind of service that an action needs.
KIND_OF_ACTION = {
    **dict.fromkeys(CAN, "can"), **dict.fromkeys(ETHERNET, "ethernet"), **dict.fromkeys(LIN, "lin"),
    "publish": "publisher", "call": "client", "submit": "server",
}
# The kind of service that sends a message.
KIND_OF_MESSAGE = {
    "can": "can", "eth": "ethernet", "lin": "lin", "response": "lin", "publish": "publisher", "call": "client",
    "reply": "server",
}
# Who is for whom: the own kind, and that of the other side.
PAIRS = {
    ("can", "can"), ("ethernet", "ethernet"), ("lin", "lin"), ("subscriber", "publisher"), ("publisher", "subscriber"),
    ("server", "client"), ("client", "server"),
}
FIRST = {"can": "Uninit", "ethernet": "Inactive", "lin": "Uninit"}
CHAIN = [
    "ServicesCreated", "CommunicationInitializing", "CommunicationInitialized", "ReadyToRun", "Running", "Stopping",
    "Stopped", "ShuttingDown", "Shutdown",
]
TO_STOPPED = {*CHAIN[:7], "Paused"}
# The states in which a command is accepted, and the state that it leads to.
COMMANDS = {
    "Pause": ({"Running"}, "Paused"),
    "Continue": ({"Paused"}, "Running"),
    "Stop": ({"Running", "Paused"}, "Stopping"),
    "ReportError": (TO_STOPPED, "Error"),
    "Abort": (TO_STOPPED | {"Error"}, "Aborting"),
}
NAMES = "ABCD"


def read_bytes(text):
    if text == "-":
        return b""
    pieces = (piece.partition("*") for piece in text.split("+"))
    return b"".join(bytes.fromhex(digits) * int(times or 1) for digits, _, times in pieces)


def show_bytes(data):
    """Bytes as the program writes them."""
    if not data:
        return "-"
    equal = len(data) - len(data.lstrip(data[:1]))
    if equal < 16:
        return data.hex()
    rest = data[equal:].hex()
    return f"{data[0]:02x}*{equal}" + (f"+{rest}" if rest else "")


class Service:
    def __init__(self, number, text):
        self.kind, self.topic, *rest = text.split()
        self.number = number
        self.told = " ".join([str(number), self.kind, self.topic, *(word for word in rest if word != "history")])
        self.labels = [(word[0] == "!", *word[1:].split("=")) for word in rest if word != "history"]
        self.state = FIRST.get(self.kind)
        self.role = None
        # Responses that a LIN controller keeps, by origin and identifier; calls that a server has to answer; those a client made.
        self.kept, self.open, self.made = {}, set(), 0

    def finds(self, label):
        mandatory, key, value = label
        values = [other for _, name, other in self.labels if name == key]
        return value in values if mandatory else all(other == value for other in values)

    def matches(self, other):
        if (self.kind, other.kind) not in PAIRS or self.topic != other.topic:
            return False
        return all(other.finds(label) for label in self.labels) and all(self.finds(label) for label in other.labels)

    def admits(self, kind, fields):
        if self.kind == "lin":
            return self.state == "Operational" or (self.state == "Sleep" and fields[2] == "Wakeup")
        return self.kind not in ("can", "ethernet") or self.state in ("Started", "LinkUp")


class Peer:
    """What a peer said in order."""

    def __init__(self):
        self.count, self.gone, self.hello, self.synchronised, self.ended = 0, False, False, False, False
        self.services, self.announced = [], None

    def is_in_order(self, words):
        kind = words[0]
        if kind == "hello" or not self.hello:
            return kind == "hello" and not self.hello
        if kind == "service":
            return not self.ended and int(words[1]) == len(self.services)
        if kind == "end":
            return not self.ended
        if kind == "next":
            return self.ended and self.synchronised and (self.announced is None or int(words[1]) > self.announced)
        number, stamp, mark = map(int, words[1:4])
        return (
            self.ended and number < len(self.services) and self.services[number].kind == KIND_OF_MESSAGE[kind]
            and (mark == 0 or stamp == self.announced)
        )

    def hear(self, words):
        if words[0] == "hello":
            self.hello, self.synchronised = True, words[1] == "synchronised"
        elif words[0] == "service":
            self.services.append(Service(int(words[1]), " ".join(words[2:])))
        elif words[0] == "end":
            self.ended = True
        elif words[0] == "next":
            self.announced = int(words[1])


class Participant:
    """Goes by the rules; `lines` is what its journal gained since they were taken last."""

    def __init__(self, peers):
        self.own, self.theirs = [], {number: [] for number in range(1, peers + 1)}
        self.peers = {number: Peer() for number in self.theirs}
        self.state, self.called, self.pause, self.lines = None, False, None, []
        self.begun, self.is_open = 0, False
        self.in_step, self.planned, self.on_service = [], 0, []

    # Rows

    def row(self, row):
        word, _, rest = row.partition(" ")
        if word in ("own", "peer"):
            services = self.own if word == "own" else self.theirs[int(rest[0])]
            for text in (rest if word == "own" else rest[2:]).split(";"):
                services.append(Service(len(services), text))
        elif word == "make":
            self.make()
        elif word == "run":
            self.make()
            for number, services in self.theirs.items():
                said = ["hello plain", *(f"service {service.told}" for service in services), "end"]
                for words in said:
                    self.get(number, words.split())
            while self.state != "Running":
                self.turn()
            self.lines = []
        elif word == "do":
            self.in_step = [part.split() for part in rest.split(";")]
            while self.in_step and self.turn() not in ("quiet", "finished"):
                pass
        elif word == "on":
            number, _, actions = rest.partition(" ")
            self.planned, self.on_service = int(number), [part.split() for part in actions.split(";")]
        elif word in ("got", "gone"):
            number = int(rest[0])
            if self.peers[number].gone:
                self.lines.append("closed")
            elif word == "got":
                self.get(number, rest[2:].split())
            else:
                self.lose(number, 5)
        elif word == "turn":
            self.lines += [answer for answer in [self.turn()] if answer]
        lines, self.lines = self.lines, []
        return lines

    # The journal

    def reached(self):
        return [number for number, peer in self.peers.items() if not peer.gone]

    def put(self, numbers, message):
        self.lines += [f"put {number} {message}" for number in numbers]

    def enter(self, state):
        self.state = state
        self.lines.append(f"state {state}")

    def make(self):
        for number in self.peers:
            for message in ["hello", *(f"service {service.told}" for service in self.own), "end"]:
                self.put([number], message)
        self.enter("ServicesCreated")

    def lose(self, number, reason):
        self.peers[number].gone = True
        self.lines.append(f"gone {number} {reason}")
        if self.state in TO_STOPPED:
            self.enter("Error")

    def ask(self, command):
        states, to = COMMANDS[command]
        if self.state not in states:
            self.lines.append(f"ask {command} refused {self.state}")
            return False
        self.lines.append(f"ask {command} accepted")
        self.pause = None
        self.enter(to)
        return True

    def turn(self):
        """One turn: what it answers where it adds nothing."""
        peers = self.peers.values()
        if self.state == "Running":
            return self.step()
        if self.state == "Paused":
            return self.count_down()
        if self.state == "Error":
            self.ask("Abort")
        elif self.state == "Aborting":
            self.enter("Shutdown")
        elif self.state == "CommunicationInitialized" and not self.called:
            self.called = True
        elif (
            self.state == "Shutdown"
            or (self.state == "ServicesCreated" and not all(peer.hello for peer in peers))
            or (self.state == "CommunicationInitializing" and not all(peer.ended for peer in peers))
        ):
            # What it put waits here: it isn't finished.
            return "quiet"
        else:
            self.enter(CHAIN[CHAIN.index(self.state) + 1])
        return None

    def count_down(self):
        if self.pause is None:
            return "quiet"
        self.pause -= 1
        if self.pause:
            return "counted"
        self.ask("Continue")
        return None

    def step(self):
        # Its peers are hardly ever synchronised: then they don't hold it up.
        if not all(
            peer.gone or not peer.synchronised or (peer.announced is not None and peer.announced >= self.begun)
            for peer in self.peers.values()
        ):
            return "quiet"
        self.begun += 1
        self.is_open = True
        actions, self.in_step = self.in_step, []
        self.answer(actions)
        self.is_open = self.state not in ("Running", "Paused", "Stopping")
        return None

    # Messages

    def get(self, number, words):
        peer = self.peers[number]
        receivers = self.receivers(peer, words)
        peer.count += 1
        self.lines.append(f"got {number} {peer.count}")
        if not peer.is_in_order(words):
            self.lose(number, 8)
            return
        peer.hear(words)
        if words[0] == "response":
            self.note(number, words)
        for service in receivers:
            self.hand(number, peer.count, service, words)

    def receivers(self, peer, words):
        """Judged before the message is got."""
        kind, fields = words[0], words[4:]
        if self.state in ("Error", "Aborting", "Shutdown") or not peer.is_in_order(words):
            return []
        if kind == "reply":
            client = int(fields[0])
            return [own for own in self.own if own.number == client and own.kind == "client"]
        if kind == "response" or kind not in KIND_OF_MESSAGE:
            return []
        sender = peer.services[int(words[1])]
        return [own for own in self.own if own.matches(sender) and own.admits(kind, fields)]

    def note(self, number, words):
        """Each LIN controller of the network keeps the response, whatever its state is."""
        sender = self.peers[number].services[int(words[1])]
        for own in self.own:
            if own.matches(sender):
                own.kept[(number, sender.number), int(words[4])] = words[5:]

    def hand(self, number, place, own, words):
        self.lines.append(f"hand {number} {place} {own.number}")
        fields = words[4:]
        if own.kind == "lin" and fields[2] == "Wakeup":
            own.state = "Operational"
        elif own.kind == "lin" and (fields[0], fields[2]) == ("60", "RxOk") and read_bytes(fields[3]) == SLEEP_BYTES:
            own.state = "Sleep"
        elif own.kind == "server":
            own.open.add((number, int(words[1]), int(fields[0])))
        if own.number == self.planned:
            actions, self.on_service = self.on_service, []
            self.answer(actions)

    # Actions

    def answer(self, actions):
        for name, first, *fields in actions:
            if name == "ask":
                self.ask(first)
            elif name == "pause_for":
                if self.ask("Pause"):
                    self.pause = max(int(first), 1)
            else:
                for service in first.split(","):
                    self.act(name, int(service), fields)

    def act(self, name, number, fields):
        own = self.own[number] if number < len(self.own) else None
        if own is None or own.kind != KIND_OF_ACTION[name]:
            self.lines.append(f"did {number} {REFUSED} -")
            return
        acts = {
            "can": self.act_can, "ethernet": self.act_ethernet, "lin": self.act_lin, "publisher": self.publish,
            "client": self.call, "server": self.submit,
        }
        code, kind, sent, numbers = acts[own.kind](own, name, fields)
        if kind is None:
            self.lines.append(f"did {number} {code} -")
            return
        stamp, mark = max(self.begun - 1, 0), self.begun if self.is_open else 0
        message = f"{kind} {number} {stamp} {mark} {sent}"
        self.lines.append(f"did {number} {code} {message}")
        self.put(numbers, message)

    def sends(self, kind, *fields):
        return DONE, kind, " ".join(map(str, fields)), self.reached()

    def act_can(self, own, name, fields):
        if own.state not in CAN[name]:
            return REFUSED, None, None, []
        if name == "can_send":
            number, flags, data = int(fields[0]), int(fields[1]), read_bytes(fields[2])
            if number >= (2**29 if flags & 1 else 2**11) or len(data) not in (FD_LENGTHS if flags & 2 else CAN_LENGTHS):
                return BAD_FRAME, None, None, []
            return self.sends("can", number, flags, show_bytes(data))
        own.state = CAN[name][own.state]
        return DONE, None, None, []

    def act_ethernet(self, own, name, fields):
        if own.state not in ETHERNET[name]:
            return REFUSED, None, None, []
        if name == "eth_send":
            data = read_bytes(fields[0])
            if not 14 <= len(data) <= 1518:
                return BAD_FRAME, None, None, []
            return self.sends("eth", show_bytes(data.ljust(60, b"\0")))
        own.state = ETHERNET[name][own.state]
        return DONE, None, None, []

    def act_lin(self, own, name, fields):
        state, of_master, after = LIN[name]
        if own.state != state or (of_master and own.role != "master"):
            return REFUSED, None, None, []
        if name in ("lin_response", "lin_frame", "lin_header") and int(fields[0]) > 63:
            return BAD_FRAME, None, None, []
        if name in ("lin_response", "lin_frame"):
            number, mode, checksum, data = fields
            empty = checksum == "Unknown" and data == "-"
            if len(read_bytes(data)) > 8 or (mode != "TxUnconditional" and (name == "lin_frame" or not empty)):
                return BAD_FRAME, None, None, []
            own.kept["own", int(number)] = [mode, checksum, data]
        own.state = after
        if name == "lin_init":
            own.role = fields[0]
            return DONE, None, None, []
        if name == "lin_response":
            return self.sends("response", *fields)
        if name == "lin_sleep":
            return self.sends("lin", 0x3C, "Classic", "RxOk", show_bytes(SLEEP_BYTES))
        if name == "lin_wakeup":
            return self.sends("lin", 0, "Unknown", "Wakeup", "-")
        return self.sends("lin", fields[0], *self.outcome(own, int(fields[0])))

    @staticmethod
    def outcome(own, number):
        """What a header of this identifier brings."""
        found = [kept for (_, at), kept in own.kept.items() if at == number and kept[0] == "TxUnconditional"]
        if len(found) == 1:
            return found[0][1], "RxOk", found[0][2]
        return "Unknown", "RxError" if found else "RxNoResponse", "-"

    def publish(self, own, name, fields):
        return self.sends("publish", fields[0])

    def call(self, own, name, fields):
        if not any(own.matches(other) for number in self.reached() for other in self.peers[number].services):
            return NO_SERVER, None, None, []
        own.made += 1
        return self.sends("call", own.made, fields[0])

    def submit(self, own, name, fields):
        peer, client, call = map(int, fields[:3])
        if (peer, client, call) not in own.open:
            return UNKNOWN_CALL, None, None, []
        own.open.remove((peer, client, call))
        return DONE, "reply", f"{client} {call} {fields[3]}", [number for number in self.reached() if number == peer]


# ## Cases: rows, of which some have their lines beside them, worked out by hand; with or without those of puts


def at(name, services):
    """An action on these services."""
    return f"{name} {services} {FIELDS[name]}".rstrip()


def can_states():
    yield "case 1 CAN: 0 is Uninit, 1 Stopped, 2 Started, 3 Sleep; then the call; then what tells the states apart"
    yield "own can N; can N; can N; can N"
    yield "run"
    for name in CAN:
        yield "do can_reset 0,1,2,3; can_start 1,2,3; can_stop 1; can_sleep 3"
        yield f"do {at(name, '0,1,2,3')}"
        yield "do can_send 0,1,2,3 1 0 -; can_baud 0,1,2,3 1; can_sleep 0,1,2,3"


def ethernet_states():
    yield "case 1 Ethernet: 0 is inactive, 1 active"
    yield "own ethernet N; ethernet N"
    yield "run"
    for name in ETHERNET:
        yield "do eth_deactivate 0,1; eth_activate 1"
        yield f"do {at(name, '0,1')}"
        yield "do eth_send 0,1 55*14"


def lin_states():
    yield "case 1 LIN: of each four the first is Uninit, then a master and a slave in Operational, then one in Sleep"
    yield "own " + "; ".join(["lin N"] * 24)
    yield "run"
    for index, name in enumerate(LIN):
        none, master, slave, asleep = range(4 * index, 4 * index + 4)
        four = f"{none},{master},{slave},{asleep}"
        yield f"do lin_init {master},{asleep} master; lin_init {slave} slave; lin_sleep {asleep}"
        yield f"do {at(name, four)}"
        yield f"do lin_wakeup {four}; lin_response {four} 9 Rx Unknown -; lin_header {four} 9"


def other_kinds():
    yield "case 1 Each action on a service of each kind, and on none"
    yield "own can N; ethernet N; lin N; publisher T; subscriber T; server F; client F"
    yield "peer 1 server F"
    yield "run"
    yield "do can_start 0; eth_activate 1; lin_init 2 master"
    for name in FIELDS:
        yield f"do {at(name, '0,1,2,3,4,5,6,7')}"
    yield "do can_start 63,64,4294967295"


STATES = [*can_states(), *ethernet_states(), *lin_states(), *other_kinds()]

WORKED = [
    ("case 1 Commands, and a pause of two turns", None),
    ("run", None),
    ("do ask Continue; ask Pause; ask Pause; ask Continue", [
        "ask Continue refused Running", "ask Pause accepted", "state Paused", "ask Pause refused Paused",
        "ask Continue accepted", "state Running",
    ]),
    ("do pause_for 2", ["ask Pause accepted", "state Paused"]),
    ("turn", ["counted"]),
    ("turn", ["ask Continue accepted", "state Running"]),
    ("do pause_for 0", ["ask Pause accepted", "state Paused"]),
    ("turn", ["ask Continue accepted", "state Running"]),
    ("do pause_for 3; pause_for 1; ask Continue", [
        "ask Pause accepted", "state Paused", "ask Pause refused Paused", "ask Continue accepted", "state Running",
    ]),
    ("do ask Stop", ["ask Stop accepted", "state Stopping"]),

    ("case 2 CAN", None),
    ("own can N", None),
    ("run", None),
    ("do can_send 0 2047 0 11*8", ["did 0 1 -"]),
    ("do can_start 0", ["did 0 0 -"]),
    ("do can_send 0 2047 0 0102030405060708", [
        "did 0 0 can 0 2 3 2047 0 0102030405060708", "put 1 can 0 2 3 2047 0 0102030405060708",
        "put 2 can 0 2 3 2047 0 0102030405060708",
    ]),
    ("do can_send 0 2048 0 -", ["did 0 2 -"]),
    ("do can_send 0 2048 1 -; can_send 0 536870911 1 -; can_send 0 536870912 1 -", [
        "did 0 0 can 0 4 5 2048 1 -", "did 0 0 can 0 4 5 536870911 1 -", "did 0 2 -",
    ]),
    ("do can_send 0 0 0 11*9; can_send 0 0 2 11*13", ["did 0 2 -", "did 0 2 -"]),
    ("do can_send 0 0 2 11*64", ["did 0 0 can 0 6 7 0 2 11*64"]),
    ("do can_start 0", ["did 0 1 -"]),

    ("case 1 Ethernet", None),
    ("own ethernet N", None),
    ("run", None),
    ("do eth_send 0 55*13", ["did 0 1 -"]),
    ("do eth_activate 0; eth_send 0 55*13", ["did 0 0 -", "did 0 2 -"]),
    ("do eth_send 0 55*14", ["did 0 0 eth 0 2 3 " + "55" * 14 + "00" * 46]),
    ("do eth_send 0 55*59", ["did 0 0 eth 0 3 4 55*59+00", "put 1 eth 0 3 4 55*59+00"]),
    ("do eth_send 0 55*1518", ["did 0 0 eth 0 4 5 55*1518"]),
    ("do eth_send 0 55*1519", ["did 0 2 -"]),

    ("case 1 LIN: 0 is a master, 1 a slave; a peer has a controller on their network, and one on another", None),
    ("own lin N; lin N", None),
    ("peer 1 lin N; lin M", None),
    ("run", None),
    ("do lin_init 0 master; lin_init 1 slave", ["did 0 0 -", "did 1 0 -"]),
    ("do lin_header 0 5", ["did 0 0 lin 0 1 2 5 Unknown RxNoResponse -"]),
    ("do lin_response 0 5 TxUnconditional Classic 0102", ["did 0 0 response 0 2 3 5 TxUnconditional Classic 0102"]),
    ("do lin_header 0 5", ["did 0 0 lin 0 3 4 5 Classic RxOk 0102", "put 1 lin 0 3 4 5 Classic RxOk 0102"]),
    ("got 1 response 1 0 0 5 TxUnconditional Enhanced 04", ["got 1 5"]),
    ("do lin_header 0 5", ["did 0 0 lin 0 4 5 5 Classic RxOk 0102"]),
    ("got 1 response 0 0 0 5 TxUnconditional Enhanced 03", ["got 1 6"]),
    ("do lin_header 0 5", ["did 0 0 lin 0 5 6 5 Unknown RxError -"]),
    ("do lin_response 0 5 Unused Unknown -; lin_header 0 5", [
        "did 0 0 response 0 6 7 5 Unused Unknown -", "did 0 0 lin 0 6 7 5 Enhanced RxOk 03",
    ]),
    ("do lin_frame 0 5 TxUnconditional Classic 06", ["did 0 0 lin 0 7 8 5 Unknown RxError -"]),
    ("do lin_header 0 64; lin_response 0 64 Rx Unknown -; lin_response 0 5 Rx Classic -; lin_response 0 5 Rx Unknown 01",
        ["did 0 2 -"] * 4),
    ("do lin_response 0 5 TxUnconditional Classic 01*9; lin_frame 0 5 Rx Unknown -", ["did 0 2 -"] * 2),
    ("do lin_header 1 5; lin_header 1 64", ["did 1 1 -", "did 1 1 -"]),
    ("do lin_sleep 0", ["did 0 0 lin 0 11 12 60 Classic RxOk 00ffffffffffffff"]),
    ("do lin_header 0 5", ["did 0 1 -"]),

    ("case 2 Own subscribers 1 and 3 are equal, and publisher 0 of each peer matches both", None),
    ("own publisher T; subscriber T; subscriber U; subscriber T; subscriber T !k=v", None),
    ("peer 1 publisher T", None),
    ("peer 2 publisher T", None),
    ("run", None),
    ("got 1 publish 0 0 0 01", ["got 1 4", "hand 1 4 1", "hand 1 4 3"]),
    ("got 1 publish 0 0 0 02", ["got 1 5", "hand 1 5 1", "hand 1 5 3"]),
    ("got 2 publish 0 0 0 03", ["got 2 4", "hand 2 4 1", "hand 2 4 3"]),

    ("case 1 Labels", None),
    ("own subscriber T !k=v; subscriber U", None),
    ("peer 1 publisher T; publisher U !k=v; publisher T ?k=w; publisher T ?k=v; publisher U ?k=v", None),
    ("run", None),
    ("got 1 publish 0 0 0 01", ["got 1 8"]),
    ("got 1 publish 1 0 0 01", ["got 1 9"]),
    ("got 1 publish 2 0 0 01", ["got 1 10"]),
    ("got 1 publish 3 0 0 01", ["got 1 11", "hand 1 11 0"]),
    ("got 1 publish 4 0 0 01", ["got 1 12", "hand 1 12 1"]),

    ("case 2 A second service of number 0; the other peer is handed on to nobody then", None),
    ("own subscriber T", None),
    ("make", None),
    ("got 2 hello plain", ["got 2 1"]),
    ("got 2 service 0 publisher T", ["got 2 2"]),
    ("got 2 end", ["got 2 3"]),
    ("got 2 publish 0 0 0 01", ["got 2 4", "hand 2 4 0"]),
    ("got 1 hello plain", ["got 1 1"]),
    ("got 1 service 0 publisher T", ["got 1 2"]),
    ("got 1 service 0 publisher T", ["got 1 3", "gone 1 8", "state Error"]),
    ("got 1 end", ["closed"]),
    ("got 2 publish 0 0 0 01", ["got 2 5"]),

    ("case 2 Data of a service that isn't announced, and behind it of a wrong kind", None),
    ("own subscriber T; can N", None),
    ("peer 1 publisher T", None),
    ("peer 2 publisher T", None),
    ("run", None),
    ("got 1 publish 1 0 0 01", ["got 1 4", "gone 1 8", "state Error"]),
    ("got 2 can 0 0 0 1 0 01", ["got 2 4", "gone 2 8"]),

    ("case 1 Data before ServicesEnd", None),
    ("own subscriber T", None),
    ("make", None),
    ("got 1 hello plain", ["got 1 1"]),
    ("got 1 service 0 publisher T", ["got 1 2"]),
    ("got 1 publish 0 0 0 01", ["got 1 3", "gone 1 8", "state Error"]),

    ("case 2 A marked message has the stamp of the last announcement; without one it has none to have", None),
    ("own subscriber T", None),
    ("make", None),
    *((f"got {peer} {words}", None) for peer, words in [
        (1, "hello synchronised"), (1, "service 0 publisher T"), (1, "end"), (2, "hello plain"),
        (2, "service 0 publisher T"), (2, "end"),
    ]),
    ("got 1 next 5", ["got 1 4"]),
    ("got 1 publish 0 5 1 01", ["got 1 5", "hand 1 5 0"]),
    ("got 1 next 7", ["got 1 6"]),
    ("got 1 publish 0 7 2 01", ["got 1 7", "hand 1 7 0"]),
    ("got 1 publish 0 5 0 01", ["got 1 8", "hand 1 8 0"]),
    ("got 1 publish 0 5 3 01", ["got 1 9", "gone 1 8", "state Error"]),
    ("got 2 publish 0 0 1 01", ["got 2 4", "gone 2 8"]),

    ("case 1 A LIN controller is put to sleep and woken by frames that it is handed; another one isn't yet there", None),
    ("own lin N; lin N; lin M", None),
    ("peer 1 lin N", None),
    ("run", None),
    ("do lin_init 0,2 slave", ["did 0 0 -", "did 2 0 -"]),
    ("got 1 lin 0 0 0 5 Classic RxOk 01", ["got 1 4", "hand 1 4 0"]),
    ("got 1 lin 0 0 0 60 Classic RxOk 00ffffffffffffff", ["got 1 5", "hand 1 5 0"]),
    ("got 1 lin 0 0 0 5 Classic RxOk 01", ["got 1 6"]),
    ("do lin_response 0 1 Rx Unknown -", ["did 0 1 -"]),
    ("got 1 lin 0 0 0 0 Unknown Wakeup -", ["got 1 7", "hand 1 7 0"]),
    ("got 1 lin 0 0 0 5 Classic RxOk 01", ["got 1 8", "hand 1 8 0"]),
    ("got 1 lin 0 0 0 60 Enhanced RxOk 00ffffffffffffff", ["got 1 9", "hand 1 9 0"]),
    ("do lin_wakeup 0,1,2", ["did 0 0 lin 0 2 3 0 Unknown Wakeup -", "did 1 1 -", "did 2 1 -"]),

    ("case 1 The callback of the first receiver stops the second", None),
    ("own can N; can N; ethernet N", None),
    ("peer 1 can N; ethernet N", None),
    ("run", None),
    ("got 1 can 0 0 0 1 0 01", ["got 1 5"]),
    ("do can_start 0,1", ["did 0 0 -", "did 1 0 -"]),
    ("on 0 can_stop 1", []),
    ("got 1 can 0 0 0 1 0 01", ["got 1 6", "hand 1 6 0", "did 1 0 -", "hand 1 6 1"]),
    ("got 1 can 0 0 0 1 0 01", ["got 1 7", "hand 1 7 0"]),
    ("got 1 eth 1 0 0 00*60", ["got 1 8"]),
    ("on 0 eth_activate 2; can_sleep 0; can_send 0 1 0 01", []),
    ("got 1 can 0 0 0 1 0 01", ["got 1 9", "hand 1 9 0", "did 2 0 -", "did 0 0 -", "did 0 1 -"]),
    ("got 1 can 0 0 0 1 0 01", ["got 1 10"]),
    ("got 1 eth 1 0 0 00*60", ["got 1 11", "hand 1 11 2"]),

    ("case 1 Two servers answer one call, each once; a call that comes twice is one", None),
    ("own server F; server F; server G", None),
    ("peer 1 client F", None),
    ("run", None),
    ("do submit 0 1 0 1 01", ["did 0 4 -"]),
    ("got 1 call 0 0 0 1 aa", ["got 1 4", "hand 1 4 0", "hand 1 4 1"]),
    ("do submit 0 1 0 1 01", ["did 0 0 reply 0 1 2 0 1 01", "put 1 reply 0 1 2 0 1 01"]),
    ("do submit 1 1 0 1 02", ["did 1 0 reply 1 2 3 0 1 02", "put 1 reply 1 2 3 0 1 02"]),
    ("do submit 0 1 0 1 03; submit 2 1 0 1 03", ["did 0 4 -", "did 2 4 -"]),
    ("got 1 call 0 0 0 2 bb", ["got 1 5", "hand 1 5 0", "hand 1 5 1"]),
    ("on 1 submit 1 1 0 2 04; submit 0 1 0 2 05", []),
    ("got 1 call 0 0 0 2 bb", [
        "got 1 6", "hand 1 6 0", "hand 1 6 1", "did 1 0 reply 1 3 0 0 2 04", "put 1 reply 1 3 0 0 2 04",
        "did 0 0 reply 0 3 0 0 2 05", "put 1 reply 0 3 0 0 2 05",
    ]),
    ("do submit 0 1 0 2 06; submit 1 1 0 2 06; submit 0 1 1 2 06; submit 0 2 0 2 06", [
        "did 0 4 -", "did 1 4 -", "did 0 4 -", "did 0 4 -",
    ]),

    ("case 2 A call without a server uses no number; a Reply is for the client that it names", None),
    ("own client F; subscriber T; client G", None),
    ("make", None),
    ("got 1 hello plain", ["got 1 1"]),
    ("got 1 service 0 publisher T", ["got 1 2"]),
    ("got 1 end", ["got 1 3"]),
    ("on 1 call 0 aa", []),
    ("got 1 publish 0 0 0 01", ["got 1 4", "hand 1 4 1", "did 0 3 -"]),
    ("got 2 hello plain", ["got 2 1"]),
    ("got 2 service 0 server F", ["got 2 2"]),
    ("got 2 end", ["got 2 3"]),
    ("on 1 call 0 aa; call 2 aa; call 0 bb", []),
    ("got 1 publish 0 0 0 01", [
        "got 1 5", "hand 1 5 1", "did 0 0 call 0 0 0 1 aa", "put 1 call 0 0 0 1 aa", "put 2 call 0 0 0 1 aa", "did 2 3 -",
        "did 0 0 call 0 0 0 2 bb", "put 1 call 0 0 0 2 bb", "put 2 call 0 0 0 2 bb",
    ]),
    ("got 2 reply 0 0 0 0 1 cc", ["got 2 4", "hand 2 4 0"]),
    ("got 2 reply 0 0 0 2 9 cc", ["got 2 5", "hand 2 5 2"]),
    ("got 2 reply 0 0 0 1 1 cc", ["got 2 6"]),
    ("got 2 reply 0 0 0 3 1 cc", ["got 2 7"]),
    ("got 1 reply 0 0 0 0 1 cc", ["got 1 6", "gone 1 8", "state Error"]),

    ("case 2 Of one that shuts down a peer is gone: its call is answered to nobody, and its server isn't reached", None),
    ("own server F; client G", None),
    ("peer 1 client F; server G", None),
    ("peer 2 client F", None),
    ("run", None),
    ("do call 1 aa", ["did 1 0 call 1 0 1 1 aa", "put 1 call 1 0 1 1 aa", "put 2 call 1 0 1 1 aa"]),
    ("got 1 call 0 0 0 1 aa", ["got 1 5", "hand 1 5 0"]),
    ("do ask Stop", ["ask Stop accepted", "state Stopping"]),
    ("turn", ["state Stopped"]),
    ("turn", ["state ShuttingDown"]),
    ("gone 1", ["gone 1 5"]),
    ("on 0 submit 0 1 0 1 bb; call 1 bb; submit 0 2 0 1 cc", []),
    ("got 2 call 0 0 0 1 aa", [
        "got 2 4", "hand 2 4 0", "did 0 0 reply 0 1 0 0 1 bb", "did 1 3 -", "did 0 0 reply 0 1 0 0 1 cc",
        "put 2 reply 0 1 0 0 1 cc",
    ]),
    ("turn", ["state Shutdown"]),
    ("got 2 call 0 0 0 2 aa", ["got 2 5"]),
    ("turn", ["quiet"]),

    ("case 1 A publisher's history isn't announced, and what it publishes is sent as any other", None),
    ("own publisher T history; publisher U !k=v", None),
    ("make", [
        "put 1 hello", "put 1 service 0 publisher T", "put 1 service 1 publisher U !k=v", "put 1 end",
        "state ServicesCreated",
    ]),
    ("run", None),
    ("do publish 0 0708; publish 1 -", [
        "did 0 0 publish 0 0 1 0708", "put 1 publish 0 0 1 0708", "did 1 0 publish 1 0 1 -", "put 1 publish 1 0 1 -",
    ]),
    ("do publish 0 09*4096", ["did 0 0 publish 0 1 2 09*4096", "put 1 publish 0 1 2 09*4096"]),

    ("case 1 After an own Abort a message is got and handed to nobody", None),
    ("own subscriber T; can N", None),
    ("peer 1 publisher T", None),
    ("run", None),
    ("got 1 publish 0 0 0 01", ["got 1 4", "hand 1 4 0"]),
    ("do ask Abort; can_start 1", ["ask Abort accepted", "state Aborting", "did 1 0 -"]),
    ("got 1 publish 0 0 0 01", ["got 1 5"]),
    ("turn", ["state Shutdown"]),
    ("got 1 publish 0 0 0 01", ["got 1 6"]),

    ("case 1 In Error likewise", None),
    ("own subscriber T", None),
    ("peer 1 publisher T", None),
    ("run", None),
    ("do ask ReportError", ["ask ReportError accepted", "state Error"]),
    ("got 1 publish 0 0 0 01", ["got 1 4"]),
    ("turn", ["ask Abort accepted", "state Aborting"]),
]


def table():
    """Each row with the lines below it."""
    participant = None
    for row, by_hand in [*((row, None) for row in STATES), *WORKED]:
        answer = []
        if row.startswith("case "):
            participant = Participant(int(row.split()[1]))
        else:
            answer = participant.row(row)
        if by_hand not in (None, answer, [line for line in answer if not line.startswith("put ")]):
            raise SystemExit(f"{row}: {answer}, and by hand {by_hand}")
        yield row, answer


def main():
    rows = list(table())
    answers = [line for row, answer in rows for line in [row, *(f"  {line}" for line in answer)]]
    files = {CRATE / "stdin": [row for row, _ in rows], CRATE / "stdout": answers}
    texts = {path: "".join(f"{line}\n" for line in lines) for path, lines in files.items()}
    if sys.argv[1:] != ["--check"]:
        for path, text in texts.items():
            path.write_text(text, encoding="utf-8")
        return 0
    for path, text in texts.items():
        if path.read_text(encoding="utf-8") != text:
            print(f"{path.name}: the table isn't that of the rules", file=sys.stderr)
            return 1
    cases = sum(row.startswith("case ") for row, _ in rows)
    print(f"actions: {cases} cases, {len(rows)} rows, {len(answers) - len(rows)} lines")
    return 0


if __name__ == "__main__":
    sys.exit(main())
