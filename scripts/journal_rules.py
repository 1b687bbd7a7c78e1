"""Reads the text of journals, entry by entry, from docs/FORMATS.md and docs/DEFINITIONS.md alone.

A `Journal` says of each entry whether it may stand where it does, and what has to stand behind it: so also what a step's
script asks for, with the answer to each action. In which order entries of several causes come, the documents leave open.
`check_run` does so for all journals of a run, and looks whether together they are a safe world.
"""
from bisect import bisect_right
from collections import deque
from functools import lru_cache

from action_table import COMMANDS, TO_STOPPED
from script_rules import COMMANDS as ASKS
from script_rules import MOST_ACTIONS, SENDS, Desk, Message, Script, Seen

CHAIN = ["ServicesCreated", "CommunicationInitializing", "CommunicationInitialized", "ReadyToRun", "Running"]
CHAIN += ["Stopping", "Stopped", "ShuttingDown", "Shutdown"]
NUMBERS = dict(zip(CHAIN, [10, 20, 30, 40, 50, 70, 80, 100, 110]), Paused=60, Error=90, Aborting=120)
STATES = {number: state for state, number in NUMBERS.items()}
KINDS = {
    "Hello": 1, "Leave": 2, "NextStep": 3, "ServiceAdd": 4, "ServicesEnd": 5, "Status": 6, "Abort": 8, "Can": 9, "Eth": 10, "Lin": 11,
    "LinResponse": 12, "Publish": 13, "Call": 14, "Reply": 15,
}
# The widths of the fields between the head and the bytes.
WIDTHS = {"Can": (4, 1), "Eth": (), "Lin": (1, 1, 1), "LinResponse": (1, 1, 1), "Publish": (), "Call": (8,), "Reply": (4, 8)}
SERVICES = ["can", "ethernet", "lin", "publisher", "subscriber", "server", "client"]
MOST_ENTRIES, MOST_PAYLOAD = 500000, 33554432
OVER_ACTIONS, OVER_ENTRIES, OVER_PAYLOAD = 2, 3, 4


class Wrong(Exception):
    pass


def need(holds, why):
    if not holds:
        raise Wrong(why)


# ## Messages


def number(value, width):
    return value.to_bytes(width, "little")


def message(kind, fields=b""):
    """Its kind and its spelling, as they stand in a line."""
    body = bytes([1, KINDS[kind]]) + fields
    return f"{kind} {(number(len(body), 4) + body).hex()}"


def hello(name, role):
    return message("Hello", bytes([len(name)]) + name + bytes([role, 0]))


def next_step(at, size):
    return message("NextStep", number(at, 8) + number(size, 8))


def status(state, until=0):
    return message("Status", bytes([NUMBERS[state]]) + number(until, 8))


def short(text):
    """A name or a text: its length and its bytes."""
    return bytes([len(text.encode())]) + text.encode()


def service_add(service):
    """What tells of a service."""
    fields = number(service.number, 4) + bytes([SERVICES.index(service.kind) + 1])
    fields += short(service.name) + short(service.topic) + short(service.media) + bytes([len(service.labels)])
    for key, value, mandatory in service.labels:
        fields += short(key) + short(value) + bytes([mandatory])
    return message("ServiceAdd", fields)


@lru_cache(maxsize=64)
def data_message(sent):
    """What a service sends."""
    fields = number(sent.service, 4) + number(sent.stamp, 8) + number(sent.mark, 8)
    for value, width in zip(sent.fields, WIDTHS[sent.kind]):
        fields += number(value, width)
    return message(sent.kind, fields + number(len(sent.data), 2) + sent.data)


@lru_cache(maxsize=4096)
def read_data(kind, text):
    """A message that a service sends. Written again it has to be the same text."""
    data, values = bytes.fromhex(text)[6:], []
    for width in (4, 8, 8, *WIDTHS[kind], 2):
        values.append(int.from_bytes(data[:width], "little"))
        data = data[width:]
    service, stamp, mark, *fields, _ = values
    found = Message(kind, service, stamp, mark, tuple(fields), data)
    need(data_message(found) == f"{kind} {text}", "not the spelling of such a message")
    return found


def read_message(kind, text):
    """The values of the fields of any other message. Written again they have to be the same text."""
    need(kind in KINDS, "a kind that no scenario has")
    data = bytes.fromhex(text)[6:]
    if kind == "Hello":
        values = (data[1 : 1 + data[0]], data[1 + data[0]])
        again = hello(*values)
    elif kind == "NextStep":
        values = (int.from_bytes(data[:8], "little"), int.from_bytes(data[8:], "little"))
        need(values[0] <= 2**62 and 1 <= values[1] <= 2**60, "a time or a duration out of range")
        again = next_step(*values)
    elif kind == "Status":
        need(data[0] in STATES, "a number that no state has")
        values = (STATES[data[0]], int.from_bytes(data[1:], "little"))
        again = status(*values)
    elif kind == "ServiceAdd":
        values, again = (), f"{kind} {text}"  # The one that takes it compares it with the service in the scenario.
    else:
        values = ()
        again = message(kind)
    need(f"{kind} {text}" == again, "not the spelling of such a message")
    return values


# ## States


def has_reached(state, other):
    state = "Running" if state == "Paused" else state
    return state in CHAIN and CHAIN.index(state) >= CHAIN.index(other)


def system_state(states):
    """The first rule that fits, of the last known states of the required."""
    if not states or "Invalid" in states:
        return "Invalid"
    for one in ("Aborting", "Error"):
        if one in states:
            return one
    if any(has_reached(state, "Stopping") for state in states):
        for one in ("Shutdown", "ShuttingDown", "Stopped"):
            if all(has_reached(state, one) for state in states):
                return one
        return "Stopping"
    if all(state in ("Running", "Paused") for state in states) and "Paused" in states:
        return "Paused"
    return min(("Running" if state == "Paused" else state for state in states), key=CHAIN.index)


# ## Journals


class Peer:
    """What is known of a peer, by what was got of it."""

    def __init__(self, part):
        self.name, self.role, self.told_all, self.announced, self.state, self.left = part.name, None, False, None, "Invalid", False
        self.services = part.services
        # What tells of the services that it has still to tell.
        self.untold = deque(map(service_add, part.services))

    def told(self):
        return self.services[: len(self.services) - len(self.untold)]

    def is_synchronised(self):
        return self.role is not None and self.role & 2

    def is_coordinated(self):
        return self.role is not None and self.role & 1


class Step:
    """A step, as a report shows it: its time, what it saw and what was sent in it."""

    def __init__(self, at, seen):
        self.at, self.seen, self.sent = at, seen, []


class Journal:
    """One participant's journal, entry by entry: what it says so far, and what has to stand next."""

    def __init__(self, scenario, own):
        part = scenario.parts[own]
        self.name, self.coordinated, self.size = part.name, part.coordinated, part.size
        self.required, self.limit = scenario.required, scenario.duration
        self.peers = {other.number: Peer(other) for other in scenario.parts if other.number != own}
        self.script, self.desk = Script(part), Desk(part.services)
        self.state = self.system = "Invalid"
        self.count = self.payload = self.until = 0
        self.has_run = self.is_ready = self.is_open = self.has_stopped = self.was_aborted = False
        self.pause = None
        # Steps, and marked messages that were handed and that no step has looked at yet.
        self.steps, self.waiting = [], []
        self.got = {k: [] for k in self.peers}
        self.put = {k: [] for k in self.peers}
        # Of the world's rules: where each step began, where each message was got, and to whom it is for and was handed.
        self.begun_at, self.got_at, self.receivers, self.hands = [], {k: [] for k in self.peers}, {}, {}
        # What has to stand next, in this order.
        self.owed = deque()
        told = [hello(self.name.encode(), self.coordinated + 2 * (self.size is not None)), *map(service_add, part.services)]
        for k in self.peers:
            self.owed += [f"put {k} {text}" for text in [*told, message("ServicesEnd")]]
        self.enter("ServicesCreated")

    def tell(self, text):
        self.owed += [f"put {k} {text}" for k in self.peers]

    def known_states(self):
        """Those of the required, as far as they are known here."""
        known = {peer.name: peer.state for peer in self.peers.values()}
        known[self.name] = self.state
        return [known[name] for name in self.required]

    def judge_system(self):
        now = system_state(self.known_states())
        if now != self.system:
            self.system = now
            self.owed.append(f"system {now}")

    def enter(self, state, until=0):
        """State, its Status to each peer, System, and what stands behind these."""
        self.state = state
        self.owed.append(f"state {state}")
        self.tell(status(state, until))
        self.judge_system()
        if state == "Running" and not self.has_run:
            self.has_run = True
            if self.size is not None:
                self.tell(next_step(0, self.size))
        if state == "Shutdown":
            self.tell(message("Leave"))

    def fault(self, limit):
        self.owed.append(f"fault {limit}")
        if self.state in TO_STOPPED:
            self.enter("Error")

    def all_reached(self, state):
        """All required have; an autonomous one doesn't wait for it."""
        return not self.coordinated or all(has_reached(known, state) for known in self.known_states())

    def next_time(self):
        return len(self.steps) * (self.size or 0)

    def may_leave(self):
        """Whether the present state is left for the next one in the chain."""
        peers = self.peers.values()
        if self.state == "ServicesCreated":
            return all(peer.role is not None for peer in peers) and self.all_reached("ServicesCreated")
        if self.state == "CommunicationInitializing":
            return all(peer.told_all for peer in peers)
        if self.state == "Running" and self.size is not None:
            return self.next_time() >= self.limit
        if self.state == "Running":
            return all(peer.left or has_reached(peer.state, "Stopping") for peer in peers if peer.is_synchronised())
        if self.state in ("CommunicationInitialized", "ReadyToRun", "Stopped"):
            return self.all_reached(self.state)
        return self.state in ("Stopping", "ShuttingDown")

    # Entries

    def entry(self, line):
        self.count += 1
        words = line.split(" ")
        self.note_entry(line, words)
        if self.owed:
            wanted = self.owed.popleft()
            need(line == wanted, f"wanted {wanted}")
            return
        if words[0] == "got":
            self.take(int(words[1]), words[2], words[3])
        elif words[0] == "begin":
            self.begin(line)
        else:
            self.go_on(line, words)
            need(self.owed and line == self.owed.popleft(), "nothing leads to this")
        self.judge_limits()

    def note_entry(self, line, words):
        """Keeps what the rules on several journals look at."""
        if words[0] in ("got", "put"):
            need(len(words) == 4 and words[1].isdigit() and int(words[1]) in self.peers, "no message of or to a peer")
            getattr(self, words[0])[int(words[1])].append(line.split(" ", 2)[2])
        if words[0] == "got":
            self.got_at[int(words[1])].append(self.count)
        elif words[0] == "begin":
            self.begun_at.append(self.count)
        elif words[0] == "hand":
            peer, place, service = map(int, words[1:])
            self.hands.setdefault((peer, place), []).append((self.count, service))
        self.was_aborted = self.was_aborted or line == "state Aborting"

    def judge_limits(self):
        """Behind whatever has happened."""
        if self.state not in TO_STOPPED:
            return
        if self.count + len(self.owed) >= MOST_ENTRIES:
            self.fault(OVER_ENTRIES)
        elif self.payload >= MOST_PAYLOAD:
            self.fault(OVER_PAYLOAD)

    def go_on(self, line, words):
        """What a participant does by itself, but for steps."""
        if words[0] == "ask" and self.state == "Error":
            self.ask("Abort")
        elif words[0] == "ask" and self.state == "Paused" and self.pause is not None:
            self.ask("Continue")
        elif words[0] == "did" and self.state == "CommunicationInitialized" and not self.is_ready:
            self.get_ready()
        elif words[0] == "state":
            self.move(line)

    def move(self, line):
        """On in the chain, or from Aborting to Shutdown."""
        if self.state == "Aborting":
            following = "Shutdown"
        else:
            need(self.state in CHAIN[:-1], f"nothing of this kind follows in {self.state}")
            following = CHAIN[CHAIN.index(self.state) + 1]
            need(line != f"state {following}" or self.may_leave(), f"{self.state} isn't left yet")
        if following == "ReadyToRun" and not self.is_ready:
            self.get_ready()
            need(not self.owed, f"wanted {self.owed and self.owed[0]}")
        self.enter(following)

    def begin(self, line):
        count, at = len(self.steps) + 1, self.next_time()
        need(self.size is not None and self.state == "Running", "no step begins here")
        need(line == f"begin {count} {at}", f"the next step is {count}, at {at}")
        need(at < self.limit, "a step that isn't below the limit")
        for k in self.peers:
            need(not self.is_held_up(k), f"it has to wait for {k}, which has announced {self.peers[k].announced}")
        self.steps.append(Step(at, self.look(at)))
        self.is_open = True
        self.carry_out(self.script.step(at, self.steps[-1].seen))
        if self.state in ("Running", "Paused", "Stopping"):
            self.is_open = False
            self.owed.append(f"end {count}")
            self.tell(next_step(self.next_time(), self.size))

    def is_held_up(self, k):
        """Whether this peer holds the next step up."""
        peer = self.peers[k]
        is_behind = peer.announced is None or peer.announced < self.next_time()
        return peer.role is None or (peer.is_synchronised() and not peer.left and is_behind)

    def look(self, at):
        """What a step at this time sees."""
        before = self.steps[-1].at if self.steps else 0
        seen = sorted(item for item in self.waiting if before <= item.stamp < at)
        self.waiting = [item for item in self.waiting if item.stamp >= at]
        return seen

    # Messages

    def take(self, k, kind, text):
        """A message of a peer, which has to come in the order of a link."""
        peer = self.peers[k]
        need(not peer.left, "behind Leave")
        need(kind == "Hello" or peer.role is not None, "before Hello")
        if kind in WIDTHS:
            self.take_data(k, read_data(kind, text))
            return
        values = read_message(kind, text)
        if kind == "Hello":
            need(peer.role is None and values[0] == peer.name.encode() and values[1] <= 3, "not the one Hello of this peer")
            peer.role = values[1]
            return
        need(peer.told_all == (kind not in ("ServiceAdd", "ServicesEnd")), "before ServicesEnd, or behind it")
        if kind == "ServiceAdd":
            need(peer.untold and peer.untold.popleft() == f"{kind} {text}", "not the next service of this peer")
        elif kind == "ServicesEnd":
            need(not peer.untold, "not all services were told")
            peer.told_all = True
        elif kind == "NextStep":
            need(peer.is_synchronised() and (peer.announced is None or peer.announced < values[0]), "an announcement out of order")
            early = self.state in CHAIN[:3] and self.coordinated and self.name in self.required
            need(not (early and peer.is_coordinated()), "announced before the own one was ready")
            peer.announced = values[0]
        elif kind == "Status":
            peer.state = values[0]
            if values[1] and self.coordinated and peer.is_coordinated():
                self.limit = min(self.limit, values[1])
            self.judge_system()
        elif kind == "Leave":
            need(peer.state == "Shutdown", "Leave before Shutdown")
            peer.left = True
        elif kind == "Abort" and self.state in COMMANDS["Abort"][0]:
            self.enter("Aborting")

    def take_data(self, k, sent):
        """What a service of a peer sent: it is handed to the receivers."""
        peer, place = self.peers[k], len(self.got[k])
        need(peer.told_all, "before ServicesEnd")
        need(sent.service < len(peer.services), "of a service that the peer doesn't have")
        sender = peer.services[sent.service]
        need(sender.kind == SENDS[sent.kind], "of a service of another kind")
        need(sent.mark == 0 or sent.stamp == peer.announced, f"marked, and {k} has announced {peer.announced}")
        self.payload += len(sent.data)
        if sent.kind == "LinResponse":
            self.desk.note(sender, k, sent)
        is_over = self.state in ("Error", "Aborting", "Shutdown")
        self.receivers[k, place] = [] if is_over else self.desk.receivers(sender, sent)
        for service in self.receivers[k, place]:
            self.owed.append(f"hand {k} {place} {service}")
            self.desk.receive(service, k, sent)
            if sent.mark:
                self.waiting.append(Seen(sent.stamp, k, place, service, sent))

    # Actions

    def get_ready(self):
        self.is_ready = True
        self.carry_out(self.script.ready())

    def carry_out(self, actions):
        for action in actions[:MOST_ACTIONS]:
            self.answer(action)
        if len(actions) > MOST_ACTIONS:
            self.fault(OVER_ACTIONS)

    def answer(self, action):
        if action.verb in ASKS:
            if self.ask(ASKS[action.verb]) and action.verb == "pause":
                self.pause = action.keys["pause"]
            return
        stamp = self.steps[-1].at if self.steps else 0
        code, sent = self.desk.act(action, stamp, len(self.steps) if self.is_open else 0, self.has_server)
        if sent is None:
            self.owed.append(f"did {action.service} {code} -")
            return
        text = data_message(sent)
        self.owed.append(f"did {action.service} {code} {text.split(' ')[1]}")
        to = [action.call[0]] if sent.kind == "Reply" else list(self.peers)
        self.owed += [f"put {k} {text}" for k in to]
        self.payload += len(sent.data) * len(to)
        if self.is_open:
            self.steps[-1].sent.append(sent)

    def has_server(self, client):
        return any(client.matches(service) for peer in self.peers.values() for service in peer.told())

    def ask(self, command):
        """Whether the command is accepted: its Ask, and what stands behind it."""
        states, to = COMMANDS[command]
        if self.state not in states:
            self.owed.append(f"ask {command} refused {self.state}")
            return False
        self.owed.append(f"ask {command} accepted")
        self.pause = None
        self.has_stopped = self.has_stopped or command == "Stop"
        bounds = command == "Stop" and self.coordinated and self.size is not None
        self.until = self.next_time() + 1 if bounds else self.until
        self.enter(to, self.until if bounds else 0)
        if command == "Abort":
            self.tell(message("Abort"))
        return True

    def close(self):
        need(not self.owed, f"the journal ends before {self.owed and self.owed[0]}")
        need(self.state == "Shutdown", f"the journal ends in {self.state}")
        for k, peer in self.peers.items():
            need(peer.left, f"{k} hasn't left")


# ## Worlds


def read_journals(scenario, text):
    """The journals in the text of a run, each line judged where it stands."""
    need(text.endswith("\n"), "no line feed at the end")
    lines = text[:-1].split("\n")
    head = [f"world {len(scenario.parts)}"] + [f"participant {part.number} {part.name}" for part in scenario.parts]
    need(lines[: len(head)] == head, f"wanted {head}")
    at, journals = len(head), []
    for own in range(len(scenario.parts)):
        title = lines[at].split(" ") if at < len(lines) else []
        need(title[:2] == ["journal", str(own)] and len(title) == 3 and title[2].isdigit(), f"line {at + 1}: wanted journal {own}")
        end = at + 1 + int(title[2])
        need(end <= len(lines), f"line {at + 1}: fewer entries")
        journals.append(read_journal(scenario, own, lines, range(at + 1, end)))
        at = end
    need(at == len(lines), f"line {at + 1}: behind the last journal")
    return journals


def read_journal(scenario, own, lines, places):
    journal = Journal(scenario, own)
    for place in places:
        try:
            journal.entry(lines[place])
        except (Wrong, ValueError, IndexError, KeyError, OverflowError) as why:
            raise Wrong(f"line {place + 1}: {lines[place]}: {why}") from None
    try:
        journal.close()
    except Wrong as why:
        raise Wrong(f"journal {own}: {why}") from None
    return journal


def check_safe(p, sender, q, receiver):
    """What was sent in steps before t was handed, once to each receiver, before a step at t; and in the sender's order.

    That each synchronised one has announced t or later by then, or has left, is judged where the step begins.
    """
    need(sender.put[q] == receiver.got[p], f"{q} didn't get what {p} put to it")
    times, last = [step.at for step in receiver.steps], 0
    for place, line in enumerate(sender.put[q], 1):
        if line.split(" ")[0] not in WIDTHS:
            continue
        sent, hands = read_data(*line.split(" ")), receiver.hands.get((p, place), [])
        services = [service for _, service in hands]
        need(services == receiver.receivers[p, place], f"{q} was handed {p}'s message {place} at {services}")
        moments = [last, receiver.got_at[p][place - 1], *(moment for moment, _ in hands)]
        need(moments == sorted(moments), f"{q} was handed {p}'s message {place} out of order")
        last = max(last, moments[-1])
        behind = bisect_right(times, sent.stamp)
        if sent.mark and behind < len(times):
            need(last < receiver.begun_at[behind], f"{q}'s step {behind + 1} began before {p}'s message {place} was handed")


def check_world(scenario, journals):
    for p, sender in enumerate(journals):
        for q, receiver in enumerate(journals):
            if p != q:
                check_safe(p, sender, q, receiver)


def check_steps(scenario, journals, is_aborted):
    """Each took the steps below its limit and no others; fewer where it stopped by itself or was aborted."""
    for journal in journals:
        bounds = [other.until for other in journals if other is not journal and journal.coordinated and other.until]
        limit = min([scenario.duration, *bounds])
        wanted, count = -(-limit // journal.size) if journal.size else 0, len(journal.steps)
        is_fine = count <= wanted if is_aborted or journal.has_stopped else count == wanted
        need(is_fine, f"{count} steps of {journal.name}, wanted {wanted}")


def may_stall(scenario):
    """Only where one stops whom others don't follow at once: a coordinated one that stopped waits for one that takes no steps, which
    waits for an autonomous one that does, which waits for the first."""
    verbs = [(part, key) for part in scenario.parts for rule in part.rules for action in rule["do"] for key in action]
    is_stopped = any(verb == "stop" and part.coordinated and part.size is not None for part, verb in verbs)
    waits = any(part.size is None and part.name in scenario.required for part in scenario.parts)
    return is_stopped and waits and any(part.size is not None and not part.coordinated for part in scenario.parts)


def check_run(scenario, text, said, ended):
    """The journals of a run, where all is as it has to be; none where it stalled."""
    if ended == 12:
        need((text, said) == ("", "silkit: stalled\n"), "stalled, and more is written")
        need(may_stall(scenario), "stalled, which no scenario of this kind is known to do")
        return []
    need(ended in (0, 6), f"status {ended}")
    journals = read_journals(scenario, text)
    check_world(scenario, journals)
    aborted = [journal.name for journal in journals if journal.was_aborted]
    line = f"silkit: ended by abort: {aborted[0]}\n" if aborted else ""
    need((ended, said) == (6 if aborted else 0, line), f"status {ended}, {said!r}, where {aborted} were aborted")
    check_steps(scenario, journals, bool(aborted))
    return journals
