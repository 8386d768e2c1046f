#!/usr/bin/env python3
"""Times the built program with 1, 2, 4 and 16 workers on the workload of workload.py, a line at a time.

    workers.py [--runs R] [--rounds M] [--allocator NAME] N
                        N packages; M programs of each number of workers, R edits of each kind in each

It prints the least times in milliseconds, and each as a multiple of that with one worker. The second table has two
processors alone. Then it tells what a cold load took of a processor, by the host, which is the main thread, and by all
threads, and the most memory in megabytes. At the end it leaves a program with 16 workers idle for ten seconds, and tells
what it used of a processor. With an allocator, which is a shared library, each number of workers is there a second time,
with the library before the C library, where the command `sefgulaw` puts it. All of them take turns, and the multiples are
of one worker with the C library alone. Times are noisy, so what counts are the multiples.
"""
import argparse
import os
import time

import cold
import lines
import workload

NUMBERS = [1, 2, 4, 16]


def columns(numbers, before, allocators):
    """Returns the command of each number of workers with each allocator, by the name of its column."""
    return {
        f"{it}{mark}": [*before, *words, *lines.LOADER, "--workers", str(it)]
        for mark, words in allocators.items()
        for it in numbers
    }


def table(n, runs, rounds, commands):
    took = {it: {} for it in commands}
    # The commands take turns, so that a machine that is slow for a while is slow for all of them.
    for _ in range(rounds):
        for it, command in commands.items():
            for name, times in lines.measure(n, command, runs)[0].items():
                took[it].setdefault(name, []).extend(times)
    print(f"  {'workers':46s}" + "".join(f"{it:>22s}" for it in commands))
    for name in took["1"]:
        one = min(took["1"][name])
        cells = (f"{min(times[name]):14.2f}{min(times[name]) / one:8.2f}" for times in took.values())
        print(f"  {name:46s}" + "".join(cells))


def used(pid):
    """Returns the processor milliseconds of the main thread so far, and those of all threads, ended ones too."""
    with open(f"/proc/{pid}/task/{pid}/schedstat") as stat:
        host = int(stat.read().split()[0]) / 1e6
    with open(f"/proc/{pid}/stat") as stat:
        fields = stat.read().rsplit(")", 1)[1].split()
    return host, (int(fields[11]) + int(fields[12])) * 1000 / os.sysconf("SC_CLK_TCK")


def shares(n, commands):
    print(f"  {'workers':22s}{'wall':>10s}{'host':>10s}{'all':>10s}{'MB':>10s}")
    for name, command in commands.items():
        client = lines.Client(command)
        client.time(workload.puts(workload.files(n)))
        before = used(client.process.pid)
        wall = client.time(workload.loads(n))
        after, most = used(client.process.pid), client.megabytes()
        client.close()
        print(f"  {name:22s}{wall:10.0f}{after[0] - before[0]:10.0f}{after[1] - before[1]:10.0f}{most:10.1f}")


def idle(seconds, command):
    """Returns the processor milliseconds that a program uses while it waits for a line."""
    client = lines.Client(command)
    client.time(workload.puts(workload.files(50)))
    client.time(workload.loads(50))
    before = used(client.process.pid)[1]
    time.sleep(seconds)
    after = used(client.process.pid)[1]
    client.close()
    return after - before


def main():
    words = argparse.ArgumentParser()
    words.add_argument("--runs", type=int, default=5)
    words.add_argument("--rounds", type=int, default=3)
    words.add_argument("--allocator", metavar="NAME")
    words.add_argument("n", type=int)
    given = words.parse_args()
    allocators = cold.allocators(lines.LOADER[0], given.allocator)
    print(f"{given.n} packages: milliseconds, and multiples of one worker's")
    table(given.n, given.runs, given.rounds, columns(NUMBERS, [], allocators))
    print("on two processors")
    table(given.n, given.runs, given.rounds, columns([1, 2, 16], ["taskset", "-c", "0,1"], allocators))
    print("a cold load: milliseconds by the clock, and of a processor")
    shares(given.n, columns(NUMBERS, [], allocators))
    for name, command in columns([16], [], allocators).items():
        print(f"{name} workers, idle for 10 seconds: {idle(10, command):.0f} milliseconds of a processor")


if __name__ == "__main__":
    main()
