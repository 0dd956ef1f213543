#!/usr/bin/env python3
"""What forcing the places of a plan in cells costs, by one evaluator and by several.

Runs the proved program crates/ov_bench/out/ov_bench (`rt run` in its folder builds it). The cost of a word is the least of several
runs that do the work several times over, less that of runs which only make the plan, divided by the times. Forcing all places by
one evaluator (`force_all`) may cost at most 3 times what evaluating the plan costs (`eval_plan`), and forcing the last place of
twice as long a chain (`force_last` on one key) at most 2.2 times as much. By the clock, 100,000 places over 1,000 keys
(`force_threads`) have to take less time with as many threads as there are processors, at most 4, than with one.
"""
import os
import subprocess
import sys
import time

HERE = os.path.dirname(os.path.abspath(__file__))
CRATE = os.path.join(os.path.dirname(HERE), "crates", "ov_bench")
PROGRAM = os.path.join(CRATE, "out", "ov_bench")
RUNS = 7
MOST_OF_EVALUATION = 3
MOST_OF_HALF = 2.2
MOST_THREADS = 4


def run(words):
    """The processor seconds and the clock seconds of a run."""
    with open(os.devnull, "w") as nothing:
        start = time.perf_counter()
        child = subprocess.Popen(words, cwd=os.path.join(CRATE, "data"), stdin=subprocess.DEVNULL, stdout=nothing)
        _, status, used = os.wait4(child.pid, 0)
        clock = time.perf_counter() - start
    if os.waitstatus_to_exitcode(status) != 0:
        sys.exit(f"{' '.join(words)} failed")
    return used.ru_utime + used.ru_stime, clock


def cost(word, size, times, further, is_wall=False):
    """The seconds of doing the work of a word once."""
    costs = []
    for count in (times, 0):
        words = [PROGRAM, word, str(size), str(count)] + [str(one) for one in further]
        costs.append(min(run(words)[1 if is_wall else 0] for _ in range(RUNS)))
    return max(costs[0] - costs[1], 1e-6) / times


def judged(figure, is_met):
    """Prints a figure, and says where it is missed."""
    print(figure + ("" if is_met else " MISSED"))
    return is_met


def evaluation(keys):
    """Whether forcing all places costs at most three times the evaluation of the plan."""
    evaluated = cost("eval_plan", 10_000, 40, [keys])
    forced = cost("force_all", 10_000, 40, [keys])
    figure = f"10000 places, {keys} keys: eval_plan {evaluated:.6f} s, force_all {forced:.6f} s, {forced / evaluated:.2f} times"
    return judged(figure, forced <= MOST_OF_EVALUATION * evaluated)


def chain():
    """Whether forcing the last place of a chain is linear in its length."""
    half = cost("force_last", 20_000, 20, [1])
    whole = cost("force_last", 40_000, 20, [1])
    figure = f"force_last of a chain: 20000 places {half:.6f} s, 40000 places {whole:.6f} s, {whole / half:.2f} times"
    return judged(figure, whole <= MOST_OF_HALF * half)


def threads():
    """Whether several threads take less time by the clock than one."""
    most = min(len(os.sched_getaffinity(0)), MOST_THREADS)
    if most < 2:
        print("force_threads: one processor, nothing to compare")
        return True
    one = cost("force_threads", 100_000, 1, [1_000, 1], is_wall=True)
    several = cost("force_threads", 100_000, 1, [1_000, most], is_wall=True)
    figure = f"force_threads, 100000 places, 1000 keys: 1 thread {one:.4f} s, {most} threads {several:.4f} s, {several / one:.2f} times"
    return judged(figure, several < one)


def main():
    if not os.path.exists(PROGRAM):
        sys.exit("build crates/ov_bench first: rt run in its folder")
    met = [evaluation(1_000), evaluation(8), chain(), threads()]
    if not all(met):
        sys.exit("a figure is missed")


main()
