#!/usr/bin/env python3
"""What `oceanvista make` costs, and how that grows with the commands: makes.py [--program PROGRAM] [--runs N]

`make 7 4000` and `make 7 2000` are measured by `units`, N times each (7), over the proved program crates/oceanvista/out/oceanvista, which
bin/oceanvista builds, or over another one. The goal is the cost of an unproved program of the same design in plain Rust: the proved program
may take 1.5 times as much, and twice the commands 2.2 times as much. It is an aim and no promise. A peak below 14 MiB is only known to be
that small.
"""
import step

NUMBER = "7"
# Units and MiB of the program in plain Rust.
GOAL_UNITS, GOAL_MEMORY = 0.057, 14


def main():
    options = step.options_of(__doc__)
    units, memory = step.measured(options, "make", [NUMBER, str(step.COMMANDS)])
    half, _ = step.measured(options, "make", [NUMBER, str(step.COMMANDS // 2)])
    print(f"make {NUMBER} {step.COMMANDS}: {units:.3f} units, {memory:.1f} MiB")
    print(f"beside plain Rust, at most {step.MOST}: time {step.verdict(units / GOAL_UNITS, step.MOST)}, memory {step.verdict(memory / GOAL_MEMORY, step.MOST)}")
    print(f"growth from {step.COMMANDS // 2} to {step.COMMANDS} commands, at most {step.MOST_GROWTH}: {step.verdict(units / half, step.MOST_GROWTH)}")


if __name__ == "__main__":
    main()
