#!/usr/bin/env python3
"""Times a program that speaks the loader's lines on the workload of workload.py, a line at a time.

    lines.py [--runs R] N [COMMAND ..]      N packages; without a command, the built program

A line is written and its answer read before the next one is written: these are wall times as a client sees them, in
milliseconds, the least and the median of R. The last column is the least of what the program's threads took of a
processor, without the client and the pipe; it counts in steps of ten. Times are noisy, so what counts is the ratio of
two programs in one run.
"""
import argparse
import os
import statistics
import subprocess
import time

import workload

HERE = os.path.dirname(os.path.abspath(__file__))
LOADER = [os.path.join(HERE, "../crates/sefgulaw_loader/out/sefgulaw_loader"), "run"]


class Client:
    """A run of a program, a line at a time."""

    def __init__(self, command):
        self.process = subprocess.Popen(command, stdin=subprocess.PIPE, stdout=subprocess.PIPE)

    def ask(self, line):
        self.process.stdin.write(line.encode())
        self.process.stdin.flush()
        answer = self.process.stdout.readline()
        if not answer.endswith(b"\n") or b'"refused"' in answer[:12] or b'"fault"' in answer[:200]:
            raise SystemExit(f"{line[:200]} was answered {answer[:200]}")
        return answer

    def time(self, lines):
        begun = time.perf_counter()
        for line in lines:
            self.ask(line)
        return (time.perf_counter() - begun) * 1000

    def cost(self, lines):
        """Returns the time by the clock, and the program's of a processor."""
        before = self.processor()
        wall = self.time(lines)
        return wall, self.processor() - before

    def processor(self):
        with open(f"/proc/{self.process.pid}/stat") as stat:
            fields = stat.read().rsplit(")", 1)[1].split()
        return (int(fields[11]) + int(fields[12])) * 1000 / os.sysconf("SC_CLK_TCK")

    def megabytes(self):
        with open(f"/proc/{self.process.pid}/status") as status:
            return next(int(line.split()[1]) for line in status if line.startswith("VmHWM")) / 1024

    def close(self):
        self.process.stdin.close()
        self.process.wait()


def measure(n, command, runs, processor=None):
    """Returns {name of a scenario: its times in milliseconds}, and the most memory in megabytes. A dictionary for times of
    the processor gets those of each scenario."""
    client, times = Client(command), {}

    def take(name, lines):
        wall, cost = client.cost(lines)
        times.setdefault(name, []).append(wall)
        if processor is not None:
            processor.setdefault(name, []).append(cost)

    take("all puts", workload.puts(workload.files(n)))
    take("cold, all packages", workload.loads(n))
    for turn in range(1, runs + 1):
        for name, edits, package in workload.scenarios(n, turn):
            asked = workload.loads(n) if package is None else [workload.line(op="load", names=[package])]
            take(name, workload.puts(edits) + asked)
    most = client.megabytes()
    client.close()
    return times, most


def main():
    words = argparse.ArgumentParser()
    words.add_argument("--runs", type=int, default=7)
    words.add_argument("n", type=int)
    words.add_argument("command", nargs="*")
    given = words.parse_args()
    command, processor = given.command or LOADER, {}
    times, most = measure(given.n, command, given.runs, processor)
    print(f"{given.n} packages, {os.path.basename(command[0])}: milliseconds, least and median, and of a processor")
    for name, took in times.items():
        print(f"  {name:46s} {min(took):9.2f} {statistics.median(took):9.2f} {min(processor[name]):7.0f}")
    print(f"  {'most memory, MB':46s} {most:9.1f}")


if __name__ == "__main__":
    main()
