#!/usr/bin/env python3
"""Times `bazel query --output=xml` on the workload of workload.py, beside the built program in the same run.

    bazel.py [--runs R] [--bazel COMMAND] N

Bazel is asked through its client, with its server running, as a tool would: `//...:*` for all packages, `//d0/p0:all`
for one. Milliseconds, the least and the median of R; memory is the server's most. On Debian `apt-get install
bazel-bootstrap` has it.
"""
import argparse
import os
import statistics
import subprocess
import tempfile
import time

import lines
import workload


class Bazel:
    def __init__(self, command, folder):
        self.folder = folder
        self.start = [command, f"--output_user_root={folder}-root", "--nohome_rc"]

    def run(self, *words):
        return subprocess.run(self.start + list(words), cwd=self.folder, capture_output=True, check=True).stdout

    def query(self, package):
        begun = time.perf_counter()
        asked = "//...:all" if package is None else f"//{package}:all"
        answer = self.run("query", "--output=xml", "--noimplicit_deps", asked)
        took = (time.perf_counter() - begun) * 1000
        if b"<rule" not in answer:
            raise SystemExit("no rules in the answer")
        return took

    def megabytes(self):
        pid = self.run("info", "server_pid").decode().strip()
        with open(f"/proc/{pid}/status") as status:
            return next(int(line.split()[1]) for line in status if line.startswith("VmHWM")) / 1024

    def edit(self, edits):
        for path, text in edits:
            with open(os.path.join(self.folder, path), "w") as file:
                file.write(text)


def measure(n, command, runs):
    with tempfile.TemporaryDirectory() as place:
        folder = os.path.join(place, "tree")
        workload.write_tree(n, folder)
        bazel, times = Bazel(command, folder), {}
        times["cold, all packages"] = [bazel.query(None)]
        for turn in range(1, runs + 1):
            for name, edits, package in workload.scenarios(n, turn):
                bazel.edit(edits)
                times.setdefault(name, []).append(bazel.query(package))
        most, version = bazel.megabytes(), bazel.run("info", "release").decode().strip()
        bazel.run("shutdown")
    return times, most, version


def main():
    words = argparse.ArgumentParser()
    words.add_argument("--runs", type=int, default=7)
    words.add_argument("--bazel", default="bazel")
    words.add_argument("n", type=int)
    given = words.parse_args()
    theirs, their_most, version = measure(given.n, given.bazel, given.runs)
    ours, our_most = lines.measure(given.n, lines.LOADER, given.runs)
    print(f"{given.n} packages; {version}; milliseconds, least and median of each")
    print(f"  {'':46s} {'bazel':>19s} {'here':>19s}")
    for name, took in ours.items():
        other = theirs.get(name)
        shown = f"{min(other):9.1f} {statistics.median(other):9.1f}" if other else " " * 19
        print(f"  {name:46s} {shown} {min(took):9.2f} {statistics.median(took):9.2f}")
    print(f"  {'most memory, MB':46s} {their_most:9.0f} {'':9s} {our_most:9.1f}")


if __name__ == "__main__":
    main()
