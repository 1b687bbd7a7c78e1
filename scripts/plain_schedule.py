#!/usr/bin/env python3
"""The report of a closed scenario, worked out by a plain schedule: one list of what was sent, and no announcements, links or states.

    scripts/plain_schedule.py FILE   prints it

First the ready lists are done, in the order of the participants' numbers; then, over times in rising order and of one time
over participants in number order, whoever has a step at this time takes it. `report` writes what the steps of any run come
to. The schedule knows no limits: `TooMany` is raised where a participant asks for more actions at once than it may do.
"""
import sys
from bisect import bisect_left

# What is imported here leaves no files beside the scripts.
sys.dont_write_bytecode = True

import scenario_rules
import script_rules
from journal_rules import Step
from script_rules import COMMANDS, MOST_ACTIONS, Desk, Script, Seen


class TooMany(Exception):
    pass


def few(actions):
    """No more than a participant may do at once."""
    if len(actions) > MOST_ACTIONS:
        raise TooMany
    return actions


class Player:
    """A participant: its script, what its services are at, and its steps so far."""

    def __init__(self, part, parts):
        self.part, self.script, self.desk = part, Script(part), Desk(part.services)
        self.others = [other for other in parts if other is not part]
        self.steps = []
        # The own services that take what another one's service sends, as it was found first: no controller changes after the ready lists.
        self.takers = {}

    def next_time(self):
        return len(self.steps) * self.part.size

    def has_server(self, client):
        return any(client.matches(service) for other in self.others for service in other.services)

    def act(self, action, at, mark):
        return self.desk.act(action, at, mark, self.has_server)[1]

    def receivers(self, peer, sender, message):
        key = (peer, *message.fields[:1]) if message.kind == "Reply" else (peer, sender.number, message.kind)
        if key not in self.takers:
            self.takers[key] = self.desk.receivers(sender, message)
        return self.takers[key]


class Schedule:
    """A closed scenario as far as it was played."""

    def __init__(self, scenario):
        self.players = [Player(part, scenario.parts) for part in scenario.parts]
        # Who sent which message to whom alone, or to all; and the time of each.
        self.sent, self.times = [], []
        # Of each that has stopped the bound that this sets to the others.
        self.bounds, self.duration = {}, scenario.duration

    def play(self):
        """The steps of each participant."""
        for player in self.players:
            self.get_ready(player)
        while due := [player for player in self.players if self.has_step(player)]:
            now = min(player.next_time() for player in due)
            for player in due:
                if player.next_time() == now:
                    self.take_step(player, now)
        return [player.steps for player in self.players]

    def get_ready(self, player):
        """Responses are noted by all others; nothing else goes out that matters."""
        for action in few(player.script.ready()):
            message = player.act(action, 0, 0)
            if message and message.kind == "LinResponse":
                for other in self.players:
                    if other is not player:
                        other.desk.note(player.part.services[message.service], player.part.number, message)

    def has_step(self, player):
        """Whether its next time comes: it hasn't stopped, and the time is below the duration and each bound of another."""
        number, at = player.part.number, player.next_time()
        bounds = [self.duration, *(bound for other, bound in self.bounds.items() if other != number)]
        return number not in self.bounds and at < min(bounds)

    def take_step(self, player, at):
        step = Step(at, self.look(player, at))
        # Frames change no controller here.
        for item in step.seen:
            if item.message.kind == "Call":
                player.desk.receive(item.service, item.peer, item.message)
        player.steps.append(step)
        for action in few(player.script.step(at, step.seen)):
            self.do(player, action, step)

    def do(self, player, action, step):
        number = player.part.number
        if action.verb == "stop":
            self.bounds.setdefault(number, step.at + player.part.size + 1)
        message = None if action.verb in COMMANDS else player.act(action, step.at, len(player.steps))
        if message is not None:
            step.sent.append(message)
            self.sent.append((number, message, action.call and action.call[0]))
            self.times.append(step.at)

    def look(self, player, at):
        """What a step at this time sees: what others sent to it below this time, and not below its step before."""
        before = player.steps[-1].at if player.steps else 0
        seen, number = [], player.part.number
        for place in range(bisect_left(self.times, before), bisect_left(self.times, at)):
            peer, message, to = self.sent[place]
            if peer != number and to in (None, number):
                sender = self.players[peer].part.services[message.service]
                found = player.receivers(peer, sender, message)
                seen += [Seen(message.stamp, peer, place, service, message) for service in found]
        return sorted(seen)


def play(scenario):
    return Schedule(scenario).play()


# ## The report


def content(message):
    """What is shown of a message; of a response nothing."""
    data, fields = message.data.hex() or "-", message.fields
    shown = {
        "Can": lambda: f"can {fields[0]} {fields[1]} {data}", "Eth": lambda: f"eth {data}",
        "Lin": lambda: f"lin {fields[0]} {fields[2]} {data}", "Publish": lambda: f"pub {data}",
        "Call": lambda: f"call {fields[0]} {data}", "Reply": lambda: f"reply {fields[1]} {data}",
    }
    return shown[message.kind]() if message.kind in shown else None


def report_lines(scenario, plays):
    counts = {"step": 0, "saw": 0, "sent": 0}
    for part, steps in zip(scenario.parts, plays):
        yield f"participant {part.number} {part.name}"
        for line in part_lines(part, steps):
            counts[line.split(" ")[0]] += 1
            yield line
    yield f"steps {counts['step']} saw {counts['saw']} sent {counts['sent']}"


def part_lines(part, steps):
    for number, step in enumerate(steps, 1):
        yield f"step {number} {step.at}"
        for item in step.seen:
            if shown := content(item.message):
                yield f"saw {item.stamp} {item.peer} {shown} {part.services[item.service].name}"
        for message in step.sent:
            if shown := content(message):
                yield f"sent {shown} {part.services[message.service].name}"


def report(scenario, plays):
    """The report of the steps that each participant took."""
    return "".join(f"{line}\n" for line in report_lines(scenario, plays))


def main():
    if len(sys.argv) != 2:
        sys.exit(__doc__)
    with open(sys.argv[1], "rb") as file:
        data = file.read()
    scenario = script_rules.read(data)
    if not scenario_rules.is_closed(scenario_rules.read(data)[1]):
        sys.exit(f"{sys.argv[1]} isn't closed")
    print(report(scenario, play(scenario)), end="")


if __name__ == "__main__":
    main()
