#!/usr/bin/env python3
"""Time and peak memory of `oceanvista step` against the bytes of the files that it reads.

Runs the proved program (build it first, by bin/oceanvista) on scripts of 1, 2 and 4 MiB: one session with
a command, and `after` lines that fill the text; and on schedules of 25,000, 50,000 and 100,000 lines, of
which one in five gives an entry. Each is run several times and the least processor time counts; the ratio
is that to the smallest of the same kind. Linear time shows as ratios near 2 and 4.
"""

import os
import subprocess
import sys
import tempfile

TOP = os.path.dirname(os.path.dirname(os.path.abspath(__file__)))
PROGRAM = os.path.join(TOP, "crates", "oceanvista", "out", "oceanvista")
TOPOLOGY = "centres = 1\npartitions = 1\ngateways = [0]\nwrite = 1\nread = 1\n"
MIB = 1 << 20
RUNS = 9


def script(size):
    """A script of at most so many bytes, filled with `after` lines."""
    front = "session a g0\na do put x 5\n"
    line = "a after a 1\n"
    return front + line * ((size - len(front)) // len(line))


def schedule(lines):
    """A schedule of so many lines, of each kind in turn."""
    kinds = ["begin a 18446744073709551615\n", "take n0.0 1 1\n", "publish g0 0\n", "ask e0 quorum\n", "settle e0\n"]
    return "".join(kinds[number % len(kinds)] for number in range(lines))


def measure(folder, status):
    """The least user and system time of several runs, in milliseconds, and the peak memory in KiB."""
    words = [PROGRAM, "step", "topology", "script", "schedule"]
    best = None
    for _ in range(RUNS):
        child = subprocess.Popen(words, cwd=folder, stdout=subprocess.DEVNULL)
        _, ended, usage = os.wait4(child.pid, 0)
        if os.waitstatus_to_exitcode(ended) != status:
            sys.exit(f"the program ended with {os.waitstatus_to_exitcode(ended)}")
        spent = (usage.ru_utime + usage.ru_stime) * 1000
        best = spent if best is None else min(best, spent)
    # A child of this interpreter counts its memory too, so the peak is asked of time(1).
    timed = subprocess.run(["time", "-f", "%M", *words], cwd=folder, stdout=subprocess.DEVNULL, stderr=subprocess.PIPE)
    return best, int(timed.stderr.split()[-1])


def table(name, sizes, texts, status):
    """A row for each size: time, ratio to the first, peak memory."""
    first = None
    for size, (made_script, made_schedule) in zip(sizes, texts):
        with tempfile.TemporaryDirectory() as folder:
            for file, text in (("topology", TOPOLOGY), ("script", made_script), ("schedule", made_schedule)):
                with open(os.path.join(folder, file), "w", encoding="ascii") as out:
                    out.write(text)
            spent, peak = measure(folder, status)
        first = spent if first is None else first
        print(f"{name:<16} {size:>9}  {spent:8.1f} ms  {spent / first:5.2f}  {peak:7} KiB")


def main():
    if not os.path.exists(PROGRAM):
        sys.exit("build the program first: bin/oceanvista")
    sizes = (MIB, 2 * MIB, 4 * MIB)
    table("script bytes", sizes, [(script(size), "") for size in sizes], 0)
    counts = (25_000, 50_000, 100_000)
    table("schedule lines", counts, [("", schedule(count)) for count in counts], 0)


if __name__ == "__main__":
    main()
