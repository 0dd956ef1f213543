#!/usr/bin/env python3
"""What calm rounds cost over the commands of a script, how that grows, and what they cost beside following their lines.

Runs the proved program crates/ov_bench/out/ov_bench (`rt run` in its folder builds it). Two works are made here, over three
centres and eight partitions: `three`, 64 sessions over six gateways with 4,000 commands of all kinds, and `one`, one
session over three gateways with 2,000 commands, which takes as many rounds as it has commands. The cost of a work is that
of runs which do it several times over, less that of a run which only reads the files, divided by the times; of several
runs the least counts, all words in turn so that they see the machine as busy. The word `drive` follows, from the same
start, the lines that the calm rounds followed and that gave an entry.

For twice the commands the cost may be 2.2 times as much, and that of the rounds 1.15 times that of their lines. A unit is
the time of one million scattered inserts into a BTreeMap of plain Rust (unit.rs), taken in the same run.
"""
import os
import subprocess
import sys
import tempfile

import works

HERE = os.path.dirname(os.path.abspath(__file__))
CRATE = os.path.join(os.path.dirname(HERE), "crates", "ov_bench")
PROGRAM = os.path.join(CRATE, "out", "ov_bench")
RUNS = 9
TIMES = 3
MOST_GROWTH = 2.2
MOST_BESIDE = 1.15


def work(folder, name, gateways, sessions, commands):
    """Writes a topology and a script into the folder; their names."""
    topology = os.path.join(folder, name + ".toml")
    script = os.path.join(folder, f"{name}.{commands}")
    with open(topology, "w") as file:
        file.write(works.Topology(3, gateways, 2, 2).text())
    with open(script, "w") as file:
        file.write(works.script(gateways, sessions, commands))
    return [topology, script]


def cost(words):
    """The processor seconds of a run."""
    with open(os.devnull, "w") as nothing:
        child = subprocess.Popen(words, stdin=subprocess.DEVNULL, stdout=nothing)
        _, status, used = os.wait4(child.pid, 0)
    if os.waitstatus_to_exitcode(status) != 0:
        sys.exit(f"{' '.join(words)} failed")
    return used.ru_utime + used.ru_stime


def least_costs(works):
    """For each work, by its name, the least cost of doing it once."""
    spent = {name: [] for name in works}
    for _ in range(RUNS):
        for name, (word, files) in works.items():
            some, none = ([PROGRAM, word, "0", times] + files for times in (str(TIMES), "0"))
            spent[name].append((cost(some), cost(none)))
    return {name: (min(full for full, _ in pairs) - min(empty for _, empty in pairs)) / TIMES for name, pairs in spent.items()}


def unit_cost(folder):
    """The cost of a unit."""
    program = os.path.join(folder, "unit")
    subprocess.run(["rustc", "-O", "-o", program, os.path.join(HERE, "unit.rs")], check=True)
    return min(cost([program]) for _ in range(RUNS))


def verdict(ratio, most):
    """How a ratio stands to the most that is allowed."""
    return f"{ratio:.2f} (at most {most}){'' if ratio <= most else ' MISSED'}"


def main():
    if not os.path.exists(PROGRAM):
        sys.exit("build crates/ov_bench first: rt run in its folder")
    with tempfile.TemporaryDirectory() as folder:
        unit = unit_cost(folder)
        print(f"unit {unit:.4f} s")
        for name, gateways, sessions, commands in (("three", 6, 64, 4000), ("one", 3, 1, 2000)):
            half = work(folder, name, gateways, sessions, commands // 2)
            whole = work(folder, name, gateways, sessions, commands)
            spent = least_costs({"half": ("calm", half), "whole": ("calm", whole), "lines": ("drive", whole)})
            print(f"{name}: {commands} commands {spent['whole'] / unit:.4f} units")
            print(f"  growth from {commands // 2} commands {verdict(spent['whole'] / spent['half'], MOST_GROWTH)}")
            print(f"  rounds beside their lines {verdict(spent['whole'] / spent['lines'], MOST_BESIDE)}")


main()
