#!/usr/bin/env python3
"""Times evaluation: runs `measures evaluation` several times over the programs of bench/programs.

Printed are the least time of each, and the nanoseconds a step of the language. Words behind the script are the command
of another interpreter. It is run with the path of each program, and has to print `min=TIMEms` on standard error. Times
are noisy, so what counts is the ratio of two in one run.
"""
import os
import re
import subprocess
import sys

HERE = os.path.dirname(os.path.abspath(__file__))
MEASURES = os.path.join(HERE, "out/measures")

# The steps of each program, counted by hand-made rules. Where containers are compared they are fewer than the real ones.
STEPS = {"loops": 463141, "lists": 350324, "dicts": 585826, "strings": 315839, "calls": 584998}


def own(path):
    out = subprocess.run([MEASURES, "evaluation", "10", path], capture_output=True, text=True, check=True).stdout
    return int(out.rsplit(": ", 1)[1]) / 1e6


def other(command, path):
    told = subprocess.run(command + [path], capture_output=True, text=True, check=True).stderr
    return float(re.search(r"min=([0-9.]+)ms", told).group(1))


def main(runs=3):
    command = sys.argv[1:]
    for name, steps in STEPS.items():
        path = os.path.join(HERE, "programs", name + ".star")
        time = min(own(path) for _ in range(runs))
        line = f"{name:8s} {time:8.1f} ms {time * 1e6 / steps:7.0f} ns a step"
        if command:
            peer = min(other(command, path) for _ in range(runs))
            line += f"   other {peer:8.1f} ms {peer * 1e6 / steps:7.0f} ns a step, ratio {time / peer:5.1f}"
        print(line)


if __name__ == "__main__":
    main()
