#!/usr/bin/env python3
"""What `oceanvista step` costs over three and five data centres, without a schedule and with one of 100,000 lines:
step.py [--program PROGRAM] [--runs N]

Two works are made here (works.py, schedules.py), of the same kind as those that the goals were set with: `three`, three centres with six
gateways, and `five`, five centres with eight; both with eight partitions, 64 sessions and 4,000 commands. Of the schedule's lines three
of four give an entry. `units` measures each, N times (7), over the proved program crates/oceanvista/out/oceanvista, which bin/oceanvista
builds, or over another one.

The goals are the costs of an unproved program of the same design in plain Rust, on works of this kind: the proved program may take 1.5
times as much, and twice the commands of `five` 2.2 times as much. They are aims and no promises, and the files are not the same to the
byte; so a few hundredths say nothing. A unit is that of `units`; a peak below 14 MiB is only known to be that small.
"""
import argparse
import os
import re
import subprocess
import sys
import tempfile

import schedules
import works

HERE = os.path.dirname(os.path.abspath(__file__))
PROGRAM = os.path.join(os.path.dirname(HERE), "crates", "oceanvista", "out", "oceanvista")
TOPOLOGIES = {"three": works.Topology(3, 6, 2, 2), "five": works.Topology(5, 8, 3, 3)}
SESSIONS, COMMANDS, LINES = 64, 4000, 100_000
# Units and MiB of the program in plain Rust, by work and by whether there is a schedule.
GOALS = {
    ("three", "empty"): (0.063, 15),
    ("five", "empty"): (0.095, 22),
    ("three", "schedule"): (0.109, 20),
    ("five", "schedule"): (0.136, 27),
}
MOST = 1.5
MOST_GROWTH = 2.2


def write(folder, name, text):
    """Writes a file into the folder; its name."""
    path = os.path.join(folder, name)
    with open(path, "w", encoding="ascii") as file:
        file.write(text)
    return path


def work(folder, name, commands, lines):
    """Writes the three files of a work; their names."""
    topology = TOPOLOGIES[name]
    script = works.script(topology.gateways, SESSIONS, commands)
    texts = (topology.text(), script, schedules.schedule(topology, script, lines))
    return [write(folder, f"{name}.{commands}.{lines}.{kind}", text) for kind, text in zip(("topology", "script", "schedule"), texts)]


def measured(options, command, files):
    """The units and the MiB that a command takes over these files."""
    words = [os.path.join(HERE, "units"), "--runs", str(options.runs), options.program, command, *files]
    ran = subprocess.run(words, stdout=subprocess.PIPE, text=True, check=False)
    found = re.search(r"([\d.]+) units, ([\d.]+) MiB", ran.stdout)
    if ran.returncode != 0 or found is None:
        sys.exit(f"{' '.join(words)} failed")
    return float(found[1]), float(found[2])


def verdict(ratio, most):
    """How a ratio stands to the most that is allowed."""
    return f"{ratio:.2f}{'' if ratio <= most else ' MISSED'}"


def options_of(text):
    """The options of a program whose head is this text."""
    parser = argparse.ArgumentParser(description=text, formatter_class=argparse.RawDescriptionHelpFormatter)
    parser.add_argument("--program", default=PROGRAM)
    parser.add_argument("--runs", type=int, default=7)
    options = parser.parse_args()
    if not os.access(options.program, os.X_OK):
        sys.exit("build the program first: bin/oceanvista")
    return options


def main():
    options = options_of(__doc__)
    spent = {}
    with tempfile.TemporaryDirectory() as folder:
        print(f"{'work':6} {'schedule':9} units   MiB  beside plain Rust, at most {MOST}: time, memory")
        for (name, kind), (goal_units, goal_memory) in GOALS.items():
            units, memory = measured(options, "step", work(folder, name, COMMANDS, LINES if kind == "schedule" else 0))
            spent[name, kind] = units
            ratios = f"{verdict(units / goal_units, MOST)}, {verdict(memory / goal_memory, MOST)}"
            print(f"{name:6} {kind:9} {units:5.3f} {memory:5.1f}  {ratios}", flush=True)
        half, _ = measured(options, "step", work(folder, "five", COMMANDS // 2, 0))
    growth = verdict(spent["five", "empty"] / half, MOST_GROWTH)
    print(f"growth of five with the empty schedule from {COMMANDS // 2} to {COMMANDS} commands, at most {MOST_GROWTH}: {growth}")


if __name__ == "__main__":
    main()
