#!/usr/bin/env python3
"""What gathering, planning and evaluating a window costs, for windows of 1,000, 10,000 and 100,000 items.

Runs the proved program crates/ov_bench/out/ov_bench (`rt run` in its folder builds it) with the word `plan_window`, which
has all items on 8 keys, and with `plan_keys`, which has half as many keys as items. The cost of a size is that of runs
which do the work several times over, less that of a run which only makes the items, divided by the times. Ten times the
items may cost at most 20 times as much.
"""
import os
import subprocess
import sys

HERE = os.path.dirname(os.path.abspath(__file__))
CRATE = os.path.join(os.path.dirname(HERE), "crates", "ov_bench")
PROGRAM = os.path.join(CRATE, "out", "ov_bench")
RUNS = 5
MOST = 20


def cost(words):
    """The processor seconds of a run."""
    with open(os.devnull, "w") as nothing:
        child = subprocess.Popen(words, cwd=os.path.join(CRATE, "data"), stdin=subprocess.DEVNULL, stdout=nothing)
        _, status, used = os.wait4(child.pid, 0)
    if os.waitstatus_to_exitcode(status) != 0:
        sys.exit(f"{' '.join(words)} failed")
    return used.ru_utime + used.ru_stime


def least(words):
    """The least cost of several runs."""
    return min(cost(words) for _ in range(RUNS))


def main():
    if not os.path.exists(PROGRAM):
        sys.exit("build crates/ov_bench first: rt run in its folder")
    slow = False
    for word in ("plan_window", "plan_keys"):
        before = None
        for size, times in ((1_000, 100), (10_000, 10), (100_000, 1)):
            words = [PROGRAM, word, str(size)]
            spent = max(least(words + [str(times)]) - least(words + ["0"]), 1e-6) / times
            ratio = spent / before if before else None
            print(f"{word} {size:6} items: {spent:.4f} s" + (f", {ratio:.1f} times the tenth" if ratio else ""))
            slow = slow or (ratio is not None and ratio > MOST)
            before = spent
    if slow:
        sys.exit(f"ten times the items cost more than {MOST} times as much")


main()
