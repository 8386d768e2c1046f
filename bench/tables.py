#!/usr/bin/env python3
"""Times loads of a large table: a module with a dictionary of strings, and packages that each read one entry of it.

    tables.py [--runs R] ENTRIES PACKAGES [COMMAND ..]      words behind the numbers are the command of another program

All lines are given at once, 200 packages to a load. Printed are the least wall time of R runs, in milliseconds, and the
most memory, in megabytes, of the built program and of the other one. Both have to give the same answers. Times are
noisy, so what counts is the ratio of the two in one run. A program counts for at least the memory of this script, some
15 megabytes: less is seen by `/usr/bin/time -v` alone.
"""
import argparse
import json
import os
import subprocess
import tempfile
import time

HERE = os.path.dirname(os.path.abspath(__file__))
LOADER = [os.path.join(HERE, "../crates/sefgulaw_loader/out/sefgulaw_loader"), "run"]
AT_ONCE = 200


def lines(entries, packages):
    """The lines of the module and of the packages, and the loads of all packages."""
    table = "".join(f'"key{i}": "value{i}",\n' for i in range(entries))
    yield {"op": "put", "path": "lib/BUILD", "text": ""}
    yield {"op": "put", "path": "lib/table.bzl", "text": f"TABLE = {{\n{table}}}\n"}
    names = [f"p{i}" for i in range(packages)]
    for i, name in enumerate(names):
        rule = f'filegroup(name = "a", tags = [TABLE["key{i * 7 % entries}"]])'
        yield {"op": "put", "path": f"{name}/BUILD", "text": f'load("//lib:table.bzl", "TABLE")\n{rule}\n'}
    for i in range(0, packages, AT_ONCE):
        yield {"op": "load", "names": names[i : i + AT_ONCE]}


def run(command, given):
    """The answers of a program to all lines, the wall time in seconds, and the most memory in megabytes."""
    with tempfile.TemporaryFile() as answers:
        given.seek(0)
        begun = time.perf_counter()
        process = subprocess.Popen(command, stdin=given, stdout=answers)
        _, status, used = os.wait4(process.pid, 0)
        took = time.perf_counter() - begun
        process.returncode = os.waitstatus_to_exitcode(status)
        answers.seek(0)
        return answers.read(), took, used.ru_maxrss / 1024


def main():
    words = argparse.ArgumentParser(description=__doc__, formatter_class=argparse.RawDescriptionHelpFormatter)
    words.add_argument("--runs", type=int, default=3)
    words.add_argument("entries", type=int)
    words.add_argument("packages", type=int)
    words.add_argument("command", nargs=argparse.REMAINDER)
    told = words.parse_args()
    with tempfile.TemporaryFile() as given:
        given.write("".join(json.dumps(it) + "\n" for it in lines(told.entries, told.packages)).encode())
        programs = [LOADER, *([told.command] if told.command else [])]
        seen = [[run(command, given) for command in programs] for _ in range(told.runs)]
    if len({answers for one in seen for answers, _, _ in one}) != 1:
        raise SystemExit("the answers differ")
    for at, name in enumerate(["here", "other"][: len(programs)]):
        time_of, memory = min(one[at][1] for one in seen), max(one[at][2] for one in seen)
        print(f"{name:6s} {time_of * 1000:8.0f} ms {memory:7.0f} MB")


if __name__ == "__main__":
    main()
