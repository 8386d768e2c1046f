#!/usr/bin/env python3
"""Times the programs of bench/programs as modules, beside another loader that reads the same lines.

    modules.py [--runs R] [--program P] [-- COMMAND..]

Each program is a module that is put and asked for 40 times in one file of lines, each time with another last statement,
so every request parses and evaluates it anew. The two loaders take turns, and the least of R runs of each counts. Printed
are the milliseconds of a request, and the ratio to the other loader. Times are noisy, so what counts is the ratio.
"""
import argparse
import glob
import json
import os
import subprocess
import tempfile
import time

HERE = os.path.dirname(os.path.abspath(__file__))
PROGRAM = os.path.join(HERE, "../crates/sefgulaw_loader/out/sefgulaw_loader")
REQUESTS = 40


def lines(path):
    """The lines that put a program and ask for it, each time with another last statement."""
    with open(path, encoding="utf-8") as file:
        text = file.read()
    yield json.dumps({"op": "put", "path": "s/BUILD", "text": ""})
    for number in range(REQUESTS):
        yield json.dumps({"op": "put", "path": "s/m.bzl", "text": f"{text}\nlast_statement = {number}\n"})
        yield json.dumps({"op": "module", "label": "//s:m.bzl"})


def cost(command, path):
    """What a request takes in milliseconds, and whether the last one was answered without a fault."""
    with open(path, "rb") as file:
        begun = time.perf_counter()
        out = subprocess.run(command, stdin=file, capture_output=True, check=True).stdout
        took = time.perf_counter() - begun
    last = out.splitlines()[-1]
    if b'"exports"' not in last:
        raise SystemExit(f"{command[0]} answered {last[:200]!r}")
    return took * 1000 / REQUESTS


def main():
    words = argparse.ArgumentParser(description=__doc__, formatter_class=argparse.RawDescriptionHelpFormatter)
    words.add_argument("--runs", type=int, default=7)
    words.add_argument("--program", default=PROGRAM)
    words.add_argument("other", nargs="*", metavar="COMMAND", help="a loader that reads the same lines")
    given = words.parse_args()
    commands = [[given.program, "run"]] + ([given.other] if given.other else [])
    for star in sorted(glob.glob(os.path.join(HERE, "programs", "*.star"))):
        with tempfile.NamedTemporaryFile("w", suffix=".jsonl") as file:
            file.writelines(line + "\n" for line in lines(star))
            file.flush()
            times = [[cost(command, file.name) for command in commands] for _ in range(given.runs)]
        least = [min(column) for column in zip(*times, strict=True)]
        name = os.path.basename(star).removesuffix(".star")
        print(f"{name:8s}" + "".join(f"{took:9.2f} ms" for took in least) + (f"{least[0] / least[1]:7.2f}" if len(least) > 1 else ""))


if __name__ == "__main__":
    main()
