#!/usr/bin/env python3
"""What filling version lists costs, in units, and how much memory they take against a plain vector.

Runs the proved program crates/ov_bench/out/ov_bench (`rt run` in its folder builds it). The word `fill_lists` inserts
1,000, 10,000 and 100,000 functors, asks after each insertion for the newest of its key, and at the end for ten windows;
the versions come in rising, falling and scattered order, on 8 keys, on 1,000 keys, and on as many keys as functors. The
cost is that of runs which do the work several times over, less that of a run which only makes the keys and versions,
divided by the times; of 15 runs the least counts. A unit is the time of one million scattered inserts into a BTreeMap of
plain Rust (unit.rs), taken in the same run. Ten times the insertions may cost at most 20 times as much, and 100,000 at
most half a unit. It takes one to two minutes.

The memory is the peak of 100,000 functors kept by `keep_lists` and by `keep_vector`, each less that of none; the lists
may take 2.5 times as much as the vector.
"""
import os
import subprocess
import sys
import tempfile

HERE = os.path.dirname(os.path.abspath(__file__))
CRATE = os.path.join(os.path.dirname(HERE), "crates", "ov_bench")
PROGRAM = os.path.join(CRATE, "out", "ov_bench")
RUNS = 15
SIZES = ((1_000, 100), (10_000, 20), (100_000, 6))
MOST_TIMES = 20
MOST_UNITS = 0.5
MOST_MEMORY = 2.5


def cost(words):
    """The processor seconds of a run."""
    with open(os.devnull, "w") as nothing:
        child = subprocess.Popen(words, cwd=os.path.join(CRATE, "data"), stdin=subprocess.DEVNULL, stdout=nothing)
        _, status, used = os.wait4(child.pid, 0)
    if os.waitstatus_to_exitcode(status) != 0:
        sys.exit(f"{' '.join(words)} failed")
    return used.ru_utime + used.ru_stime


def least(words):
    """The least cost of several runs."""
    return min(cost(words) for _ in range(RUNS))


def peak(word, size):
    """The peak memory of a run in KiB. A child of this interpreter counts its memory too, so time(1) is asked."""
    words = ["time", "-f", "%M", PROGRAM, word, str(size), "1"]
    timed = subprocess.run(words, stdout=subprocess.DEVNULL, stderr=subprocess.PIPE, check=True)
    return int(timed.stderr.split()[-1])


def unit_cost():
    """The cost of a unit."""
    with tempfile.TemporaryDirectory() as folder:
        program = os.path.join(folder, "unit")
        subprocess.run(["rustc", "-O", "-o", program, os.path.join(HERE, "unit.rs")], check=True)
        return least([program])


def least_of_all(order, keys):
    """The least cost of filling each size once. Each run fills all sizes, so that all see the machine as busy."""
    spent = {size: [] for size, _ in SIZES}
    for _ in range(RUNS):
        for size, times in SIZES:
            words = [PROGRAM, "fill_lists", str(size)]
            kind = [order, str(keys or size)]
            spent[size].append((cost(words + [str(times)] + kind), cost(words + ["0"] + kind)))
    return {
        size: max(min(full for full, _ in spent[size]) - min(empty for _, empty in spent[size]), 1e-6) / times
        for size, times in SIZES
    }


def fill(order, keys, unit):
    """Measures the sizes for one order and number of keys; whether one was too dear."""
    slow, before = False, None
    for size, spent in least_of_all(order, keys).items():
        ratio = spent / before if before else 1
        text = f"{order:9} {keys or 'all':>4} keys {size:6}: {spent:.5f} s, {spent / unit:.3f} units"
        print(text + (f", {ratio:.1f} times the tenth" if before else ""))
        slow = slow or ratio > MOST_TIMES or (size == 100_000 and spent / unit > MOST_UNITS)
        before = spent
    return slow


def main():
    if not os.path.exists(PROGRAM):
        sys.exit("build crates/ov_bench first: rt run in its folder")
    unit = unit_cost()
    print(f"unit {unit:.4f} s")
    slow = [(order, keys) for order in ("rising", "falling", "scattered") for keys in (8, 1_000, None) if fill(order, keys, unit)]
    lists, vector = (peak(word, 100_000) - peak(word, 0) for word in ("keep_lists", "keep_vector"))
    print(f"memory: lists {lists} KiB, vector {vector} KiB, {lists / vector:.2f} times")
    if slow or lists / vector > MOST_MEMORY:
        sys.exit("a figure is missed")


main()
