#!/usr/bin/env python3
"""Times one `under` of the root beside the loads of all packages, in the built program, on the workload of workload.py.

    under.py [--runs R] N       N packages; R programs of each kind, in turns

The loads have 256 names a line. It prints the least times in milliseconds: cold, without a change since, and after an
edit of one BUILD file. The last column is the time of `under` as a multiple of that of the loads. Each row is printed
twice: by the clock, as a client sees it, and of a processor, without the client. To read the one answer of 5,000
packages, 7 megabytes, takes a client some 10 milliseconds more than to read 20 short ones.
"""
import argparse
import glob

import lines
import workload


def on_processor(client):
    """Returns the milliseconds that the program's threads have had a processor, to the nanosecond."""
    threads = glob.glob(f"/proc/{client.process.pid}/task/*/schedstat")
    return sum(int(open(it).read().split()[0]) for it in threads) / 1e6


def measure(n, asked, turn, least):
    """Times a new program, and keeps the least times in milliseconds of each scenario."""
    client = lines.Client(lines.LOADER)
    client.time(workload.puts(workload.files(n)))
    build = next((path, text) for path, text in workload.files(n) if path.endswith("/BUILD"))
    for name, edits in [("cold", []), ("no change", []), ("a BUILD file", [(build[0], f"{build[1]}# {turn}\n")])]:
        client.time(workload.puts(edits))
        before = on_processor(client)
        wall = client.time(asked)
        for key, took in [(name, wall), (f"{name}, processor", on_processor(client) - before)]:
            least[key] = min(took, least.get(key, float("inf")))
    client.close()


def main():
    words = argparse.ArgumentParser()
    words.add_argument("--runs", type=int, default=5)
    words.add_argument("n", type=int)
    given = words.parse_args()
    loads, under = {}, {}
    for turn in range(1, given.runs + 1):
        measure(given.n, workload.loads(given.n), turn, loads)
        measure(given.n, [workload.line(op="under", dir="")], turn, under)
    print(f"{given.n} packages: milliseconds of all loads, of one `under`, and the multiple")
    for name, took in loads.items():
        print(f"  {name:26s} {took:10.2f} {under[name]:10.2f} {under[name] / took:7.2f}")


if __name__ == "__main__":
    main()
