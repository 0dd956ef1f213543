#!/usr/bin/env python3
"""What reading and writing journals costs, in units, for journals of 1, 4 and 16 MiB of lines of all kinds.

Runs the proved program crates/ov_bench/out/ov_bench (`rt run` in its folder builds it). The cost of a size is that of
runs which do the work several times over, less that of a run which only makes the input, divided by the times. A unit
is the time of one million scattered inserts into a BTreeMap of plain Rust (unit.rs), taken in the same run.
"""
import os
import subprocess
import sys
import tempfile

HERE = os.path.dirname(os.path.abspath(__file__))
CRATE = os.path.join(os.path.dirname(HERE), "crates", "ov_bench")
PROGRAM = os.path.join(CRATE, "out", "ov_bench")
MIB = 1 << 20
RUNS = 7
TIMES = 4


def cost(words):
    """The processor seconds of a run."""
    with open(os.devnull, "w") as nothing:
        child = subprocess.Popen(words, cwd=os.path.join(CRATE, "data"), stdin=subprocess.DEVNULL, stdout=nothing)
        _, status, used = os.wait4(child.pid, 0)
    if os.waitstatus_to_exitcode(status) != 0:
        sys.exit(f"{' '.join(words)} failed")
    return used.ru_utime + used.ru_stime


def least(words):
    """The least cost of several runs."""
    return min(cost(words) for _ in range(RUNS))


def main():
    if not os.path.exists(PROGRAM):
        sys.exit("build crates/ov_bench first: rt run in its folder")
    with tempfile.TemporaryDirectory() as folder:
        unit_program = os.path.join(folder, "unit")
        subprocess.run(["rustc", "-O", "-o", unit_program, os.path.join(HERE, "unit.rs")], check=True)
        unit = least([unit_program])
        print(f"unit {unit:.4f} s")
        for word in ("read_journal", "write_journal"):
            first = None
            for size in (MIB, 4 * MIB, 16 * MIB):
                words = [PROGRAM, word, str(size)]
                spent = (least(words + [str(TIMES), "journal"]) - least(words + ["0", "journal"])) / TIMES
                first = first or spent
                print(f"{word} {size // MIB:2} MiB: {spent:.4f} s, {spent / unit:.3f} units, {spent / first:.2f} times the first")


main()
