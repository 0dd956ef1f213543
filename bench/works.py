"""Topologies and scripts to measure by, which several of these programs make: eight partitions, sessions whose commands come in turn,
and five kinds of commands on 97 keys. They are the same at each run.
"""
import collections
import random

PARTITIONS = 8


class Topology(collections.namedtuple("Topology", "centres gateways write read")):
    """So many centres and gateways, gateway i in centre i modulo the centres, and the quorums."""

    def centre_of(self, gateway):
        """The centre of a gateway."""
        return gateway % self.centres

    def text(self):
        """The topology as the command reads it."""
        places = ", ".join(str(self.centre_of(gateway)) for gateway in range(self.gateways))
        return (
            f"centres = {self.centres}\npartitions = {PARTITIONS}\ngateways = [{places}]\n"
            f"write = {self.write}\nread = {self.read}\n"
        )


def command(draw, kind):
    """The parts of a command of one of five kinds, on keys that are all different."""
    one, two, three = (f"key{number:02}" for number in draw.sample(range(97), 3))
    if kind == 0:
        return f"do put {one} {draw.randrange(1000)} ; put {two} 7 ; get {three}"
    if kind == 1:
        return f"do move {one} {two} {draw.randrange(1, 60)} ; get {one} ; add {three} 1"
    if kind == 2:
        return f"do add {one} {draw.randrange(1, 100)} ; greatest {two} 50 ; del {three}"
    if kind == 3:
        return f"do get {one} ; get {two} ; put {three} {draw.randrange(500)}"
    return f"snap {one} {two}"


def script(gateways, sessions, commands):
    """The script of so many sessions, session i at gateway i modulo the gateways, and of so many commands, in turn over the sessions."""
    draw = random.Random(7)
    lines = [f"session s{session} g{session % gateways}\n" for session in range(sessions)]
    for place in range(commands):
        kind = 4 if place % 17 == 3 else place % 4
        lines.append(f"s{place % sessions} {command(draw, kind)}\n")
    return "".join(lines)
