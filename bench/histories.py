#!/usr/bin/env python3
"""What `oceanvista step --journal` and `oceanvista audit` cost over five data centres with a schedule of 100,000 lines:
histories.py [--program PROGRAM] [--runs N]

The work is `five` of step.py. Its history is written to nowhere, a put for each line, and so are the system's writes; then it is written to
a file, and audited. `units` measures each, N times (7). The goals are the costs of an unproved program of the same design in plain Rust, on
a work of this kind; they are aims and no promises. Twice the commands may take 2.2 times as much.
"""
import os
import subprocess
import tempfile

import step

# Units and MiB of the program in plain Rust, and how many times as much the proved one may take.
GOALS = {"step --journal": (0.32, None, 0.6 / 0.32), "audit": (0.74, 79, 1.2)}


def history(options, folder, files):
    """Writes the history of the work of these files; the files of its audit."""
    name = os.path.join(folder, "journal")
    with open(name, "wb") as out:
        subprocess.run([options.program, "step", "--journal", *files], stdout=out, check=True)
    return [*files[:2], name]


def costs(options, folder, commands):
    """The units and the MiB of each of the two, with so many commands."""
    files = step.work(folder, "five", commands, step.LINES * commands // step.COMMANDS)
    written = step.measured(options, "step", ["--journal", *files])
    return {"step --journal": written, "audit": step.measured(options, "audit", history(options, folder, files))}


def main():
    options = step.options_of(__doc__)
    with tempfile.TemporaryDirectory() as folder:
        whole = costs(options, folder, step.COMMANDS)
        half = costs(options, folder, step.COMMANDS // 2)
    for name, (goal, memory, most) in GOALS.items():
        units, mebibytes = whole[name]
        line = f"{name:15} {units:5.3f} units {mebibytes:5.1f} MiB, beside plain Rust, at most {most:.2f}: time {step.verdict(units / goal, most)}"
        if memory is not None:
            line += f", memory {step.verdict(mebibytes / memory, most)}"
        print(f"{line}; growth, at most {step.MOST_GROWTH}: {step.verdict(units / half[name][0], step.MOST_GROWTH)}")


if __name__ == "__main__":
    main()
