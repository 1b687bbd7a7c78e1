"""Makes runs of scenarios by the rules of journals alone, in a random order of turns: scripts/scripted_runs.py tries its own
readers on them, without the program."""
from journal_rules import CHAIN, Journal


class Run:
    """The journals of a run, and the lines of each."""

    def __init__(self, scenario, rng):
        self.scenario, self.rng = scenario, rng
        self.journals = [Journal(scenario, part.number) for part in scenario.parts]
        self.lines = [[] for _ in scenario.parts]
        for own in range(len(self.journals)):
            self.drain(own)

    def drain(self, own):
        journal = self.journals[own]
        while journal.owed:
            self.enter(own, journal.owed[0])

    def enter(self, own, line):
        self.journals[own].entry(line)
        self.lines[own].append(line)

    def play(self):
        """The text of the journals, and whether all have ended."""
        numbers = list(range(len(self.journals)))
        moved = True
        while moved:
            self.rng.shuffle(numbers)
            moved = False
            for own in numbers:
                moved = self.turn(own) or moved
        return self.text(), all(map(self.has_ended, self.journals))

    @staticmethod
    def has_ended(journal):
        return journal.state == "Shutdown" and all(peer.left for peer in journal.peers.values())

    def turn(self, own):
        """One thing that may happen, if there is any."""
        ways = [lambda k=k: self.get(own, k) for k in self.journals[own].peers] + [lambda: self.act(own)] * 2
        self.rng.shuffle(ways)
        return any(way() for way in ways)

    def get(self, own, k):
        journal = self.journals[own]
        sent, count = self.journals[k].put[own], len(journal.got[k])
        if count < len(sent):
            self.enter(own, f"got {k} {sent[count]}")
            self.drain(own)
        return count < len(sent)

    def act(self, own):
        """What a participant does by itself."""
        journal = self.journals[own]
        if journal.state == "CommunicationInitialized" and not journal.is_ready:
            journal.get_ready()
        elif line := self.next_line(journal):
            self.enter(own, line)
        else:
            return False
        self.drain(own)
        return True

    @staticmethod
    def next_line(journal):
        if journal.state in ("Error", "Paused"):
            return f"ask {'Abort' if journal.state == 'Error' else 'Continue'} accepted"
        if journal.state == "Aborting":
            return "state Shutdown"
        if journal.state in CHAIN[:-1] and journal.may_leave():
            return f"state {CHAIN[CHAIN.index(journal.state) + 1]}"
        may_step = journal.state == "Running" and journal.size is not None
        if may_step and journal.next_time() < journal.limit and not any(map(journal.is_held_up, journal.peers)):
            return f"begin {len(journal.steps) + 1} {journal.next_time()}"
        return None

    def text(self):
        head = [f"world {len(self.journals)}"] + [f"participant {part.number} {part.name}" for part in self.scenario.parts]
        for own, lines in enumerate(self.lines):
            head += [f"journal {own} {len(lines)}", *lines]
        return "".join(f"{line}\n" for line in head)
