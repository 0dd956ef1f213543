"""Schedules to measure by: lines of all kinds, of which most take a letter that was sent a short while ago.

A letter is named by the number of its entry, so whoever makes a schedule has to know which lines give an entry. `Store` says so:
it follows lines as the rules of docs/STORE.md have it, but for values, which no guard asks for, and for `after` and `stop`, which
these scripts and schedules do not have.
"""
import random

from works import PARTITIONS

LAST_CLOCK = 1 << 46
GATEWAYS = 1 << 16


class Store:
    """Who knows what, and the letters of each entry: by their numbers what they say and to whom."""

    def __init__(self, topology, script):
        self.topology = topology
        self.commands = {}
        self.gateway_of = {}
        for line in script.splitlines():
            self.read(line.split(" "))
        self.begun = dict.fromkeys(self.commands, 0)
        self.replied = dict.fromkeys(self.commands, 0)
        self.floor = dict.fromkeys(self.commands, 0)
        self.entries = []
        gateways = range(topology.gateways)
        self.last = [0 for _ in gateways]
        self.drawn = [{} for _ in gateways]
        hearers = [f"g{gateway}" for gateway in gateways] + [f"e{centre}" for centre in range(topology.centres)]
        self.marks = {actor: [(0, 0) for _ in gateways] for actor in hearers}
        self.settled = [0] * topology.centres
        self.rounds = [0] * topology.centres
        self.open = [None] * topology.centres

    def read(self, words):
        """Takes a line of the script: a command is None where it is a snapshot, else the partitions that it touches."""
        if words[0] == "session":
            self.commands[words[1]] = []
            self.gateway_of[words[1]] = int(words[2][1:])
        elif words[1] == "snap":
            self.commands[words[0]].append(None)
        else:
            parts = [part.split(" ") for part in " ".join(words[2:]).split(" ; ")]
            written = [key for part in parts if part[0] != "get" for key in part[1 : 3 if part[0] == "move" else 2]]
            self.commands[words[0]].append(sorted({sum(key.encode()) % PARTITIONS for key in written}))

    def follow(self, line):
        """The letters of the entry that the line gives, or None where it gives none."""
        words = line.split(" ")
        if words[0] == "take":
            letters = self.take(words[1], int(words[2]), int(words[3]))
        elif words[0] == "begin":
            letters = self.begin(words[1], int(words[2]))
        elif words[0] == "publish":
            letters = self.publish(int(words[1][1:]), int(words[2]))
        elif words[0] == "ask":
            letters = self.ask(int(words[1][1:]), words[2])
        else:
            letters = self.settle(int(words[1][1:]))
        if letters is not None:
            self.entries.append(letters)
        return letters

    def nodes(self, partitions=range(PARTITIONS), centres=None):
        """The nodes of these partitions, in all centres where none are named."""
        centres = range(self.topology.centres) if centres is None else centres
        return [f"n{centre}.{partition}" for centre in centres for partition in partitions]

    def others(self, gateway):
        """All gateways but this one."""
        return [f"g{other}" for other in range(self.topology.gateways) if other != gateway]

    def begin(self, session, clock):
        """The writes of the session's next command, and its want."""
        number = self.begun[session]
        if number != self.replied[session] or number == len(self.commands[session]):
            return None
        self.begun[session] = number + 1
        gateway, touched = self.gateway_of[session], self.commands[session][number]
        settler = [f"e{self.topology.centre_of(gateway)}"]
        if touched is None:
            return {1: ("want", settler, session, number + 1, None)}
        self.last[gateway] = max(min(clock, LAST_CLOCK), self.last[gateway] + 1)
        version = self.last[gateway] * GATEWAYS + gateway
        self.drawn[gateway][version] = {partition: set() for partition in touched}
        letters = {place: ("write", self.nodes([partition]), version) for place, partition in enumerate(touched, 1)}
        letters[len(touched) + 1] = ("want", settler, session, number + 1, version)
        return letters

    def publish(self, gateway, clock):
        """The marks that the gateway knows, with its own for that time."""
        known = self.marks[f"g{gateway}"]
        time = max(min(clock, LAST_CLOCK), self.last[gateway] + 1, max(low for low, _ in known) // GATEWAYS)
        self.last[gateway] = time - 1
        known[gateway] = tuple(self.own_mark(gateway, time, copies) for copies in (self.topology.write, self.topology.centres))
        hearers = self.others(gateway) + [f"e{centre}" for centre in range(self.topology.centres)]
        return {1: ("gossip", hearers, list(known))}

    def own_mark(self, gateway, time, copies):
        """The least of the version of that time and of the gateway's versions that fewer copies have."""
        drawn = self.drawn[gateway].items()
        lacking = [version for version, acks in drawn if any(len(centres) < copies for centres in acks.values())]
        return min([time * GATEWAYS + gateway] + lacking)

    def ask(self, centre, mode):
        """A question for what is between where the settler has settled and its watermark."""
        below = min(mark[0 if mode == "quorum" else 1] for mark in self.marks[f"e{centre}"])
        if below <= self.settled[centre]:
            return None
        self.rounds[centre] += 1
        self.open[centre] = (self.rounds[centre], mode, below, {})
        return {1: ("ask", self.nodes(centres=None if mode == "quorum" else [centre]), centre, self.rounds[centre])}

    def settle(self, centre):
        """No letters, where the open round has answers enough."""
        if self.open[centre] is None:
            return None
        _, mode, below, answers = self.open[centre]
        enough = self.topology.read if mode == "quorum" else 1
        if any(len(answers.get(partition, ())) < enough for partition in range(PARTITIONS)):
            return None
        self.settled[centre], self.open[centre] = below, None
        return {}

    def take(self, actor, entry, place):
        """What the actor answers to a letter, where there is that letter, to that actor, and it may be taken now."""
        letter = self.entries[entry - 1].get(place) if entry <= len(self.entries) else None
        if letter is None or actor not in letter[1]:
            return None
        return getattr(self, "take_" + letter[0])(actor, *letter[2:])

    def take_write(self, node, version):
        """The acknowledgement of a write."""
        return {1: ("ack", [f"g{version % GATEWAYS}"], version, node)}

    def take_ack(self, gateway, version, node):
        """Counts the acknowledgement."""
        centre, partition = node[1:].split(".")
        self.drawn[int(gateway[1:])][version][int(partition)].add(centre)
        return {}

    def take_gossip(self, actor, heard):
        """Hears marks."""
        self.marks[actor] = [(max(one[0], two[0]), max(one[1], two[1])) for one, two in zip(self.marks[actor], heard)]
        return {}

    def take_ask(self, node, centre, number):
        """The answer of a node."""
        return {1: ("answer", [f"e{centre}"], node, number)}

    def take_answer(self, settler, node, number):
        """Keeps an answer to the open round."""
        current = self.open[int(settler[1:])]
        if current is None or current[0] != number:
            return None
        centre, partition = node[1:].split(".")
        current[3].setdefault(int(partition), set()).add(centre)
        return {}

    def take_want(self, settler, session, number, version):
        """The reply to a command, where it is settled, with the floor of the session's later snapshots."""
        settled = self.settled[int(settler[1:])]
        may = self.floor[session] <= settled if version is None else version < settled
        if not may:
            return None
        floor = settled if version is None else version + 1
        return {1: ("result", [f"g{self.gateway_of[session]}"], session, number, floor)}

    def take_result(self, gateway, session, number, floor):
        """Replies to a command once."""
        if number != self.begun[session] or number == self.replied[session]:
            return None
        self.replied[session] = number
        self.floor[session] = max(self.floor[session], floor)
        return {1: ("told", self.others(int(gateway[1:])))}

    def take_told(self, _):
        """Is told, which no later guard of these scripts asks for."""
        return {}


def other_line(draw, topology, entries):
    """A line that takes no letter, or one that there may not be."""
    gateway, centre = draw.randrange(topology.gateways), draw.randrange(topology.centres)
    kind, clock = draw.random(), draw.randrange(20)
    if kind < 0.60:
        return f"begin s{draw.randrange(64)} {clock}"
    if kind < 0.82:
        return f"publish g{gateway} {clock if draw.random() < 0.9 else (1 << 64) - 1}"
    if kind < 0.86:
        return f"ask e{centre} {draw.choice(('quorum', 'one', 'one'))}"
    if kind < 0.90:
        return f"settle e{centre}"
    actor = draw.choice((f"g{gateway}", f"e{centre}", f"n{centre}.{draw.randrange(PARTITIONS)}"))
    entry = draw.choice((draw.randrange(1, entries + 2), entries + 5, (1 << 64) - 2))
    return f"take {actor} {entry} {draw.randrange(1, 10)}"


def schedule(topology, script, lines):
    """So many lines. While letters wait, nine lines of ten take one of the latest, and one in twenty of these waits on for another take."""
    draw = random.Random(11)
    store, waiting, made = Store(topology, script), [], []
    while len(made) < lines:
        if waiting and draw.random() < 0.9:
            place = -1 - min(int(draw.expovariate(0.2)), len(waiting) - 1)
            line = waiting[place] if draw.random() < 0.05 else waiting.pop(place)
        else:
            line = other_line(draw, topology, len(store.entries))
        made.append(line + "\n")
        letters = store.follow(line) or {}
        for number, letter in letters.items():
            waiting.extend(f"take {actor} {len(store.entries)} {number}" for actor in letter[1])
    return "".join(made)
