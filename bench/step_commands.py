#!/usr/bin/env python3
"""Time and peak memory of `oceanvista step` against the number of commands.

Runs the proved program (build it first, by bin/oceanvista) on scripts of 1,000, 2,000 and 4,000
commands: puts and gets by turns over one key and over 1,000 keys, and adds to one key. Each script is run
several times and the least processor time counts; the ratio is that to the 1,000 commands of the same
kind. Near-linear time shows as ratios near 2 and 4.
"""

import os
import subprocess
import sys
import tempfile

TOP = os.path.dirname(os.path.dirname(os.path.abspath(__file__)))
PROGRAM = os.path.join(TOP, "crates", "oceanvista", "out", "oceanvista")
TOPOLOGY = "centres = 1\npartitions = 1\ngateways = [0]\nwrite = 1\nread = 1\n"
RUNS = 15


def puts_and_gets(keys):
    """Commands that put and get the keys in turn: each key is put once before it is got again."""

    def command(number):
        key = f"k{(number // 2) % keys}"
        return f"put {key} {number}" if number % 2 == 0 else f"get {key}"

    return command


def adds(number):
    """A chain of adds to one key."""
    return f"add k {number}"


KINDS = (("put get 1 key", puts_and_gets(1)), ("put get 1000 keys", puts_and_gets(1000)), ("add 1 key", adds))


def script(commands, command):
    """The script of so many commands of a kind."""
    return "".join(["session a g0\n"] + [f"a do {command(number)}\n" for number in range(commands)])


def measure(folder):
    """The least user and system time of several runs, in milliseconds, and the peak memory in KiB."""
    words = [PROGRAM, "step", "topology", "script", "schedule"]
    best = None
    for _ in range(RUNS):
        child = subprocess.Popen(words, cwd=folder, stdout=subprocess.DEVNULL)
        _, status, usage = os.wait4(child.pid, 0)
        if os.waitstatus_to_exitcode(status) != 0:
            sys.exit(f"the program ended with {os.waitstatus_to_exitcode(status)}")
        spent = (usage.ru_utime + usage.ru_stime) * 1000
        best = spent if best is None else min(best, spent)
    # A child of this interpreter counts its memory too, so the peak is asked of time(1).
    timed = subprocess.run(["time", "-f", "%M", *words], cwd=folder, stdout=subprocess.DEVNULL, stderr=subprocess.PIPE, check=True)
    return best, int(timed.stderr.split()[-1])


def main():
    if not os.access(PROGRAM, os.X_OK):
        sys.exit("build the program first: bin/oceanvista")
    print(f"{'kind':18} commands    ms ratio  peak KiB")
    for kind, command in KINDS:
        base = None
        for commands in (1000, 2000, 4000):
            with tempfile.TemporaryDirectory() as folder:
                for name, text in (("topology", TOPOLOGY), ("script", script(commands, command)), ("schedule", "")):
                    with open(os.path.join(folder, name), "w", encoding="ascii") as file:
                        file.write(text)
                spent, peak = measure(folder)
            base = base or spent
            print(f"{kind:18} {commands:8} {spent:5.1f} {spent / base:5.2f} {peak:9}")


if __name__ == "__main__":
    main()
