#!/usr/bin/env python3
"""Times values: runs `measures values` several times and prints the least of each line. Times are noisy, so what counts
is the ratio of two lines of one minute."""
import os
import subprocess

HERE = os.path.dirname(os.path.abspath(__file__))
VALUE_TIMES = [os.path.join(HERE, "out/measures"), "values", "2000"]


def main(runs=5):
    least = {}
    for _ in range(runs):
        out = subprocess.run(VALUE_TIMES, capture_output=True, text=True, check=True).stdout
        for line in out.splitlines():
            name, time = line[: -len(" ns")].rsplit(": ", 1)
            least[name] = min(least.get(name, float("inf")), float(time))
    for name, time in least.items():
        print(f"{name:32s} {time:8.1f} ns")


if __name__ == "__main__":
    main()
