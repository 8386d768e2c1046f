#!/usr/bin/env python3
"""Times a cold load from a file with 1, 2, 4 and 16 workers, on the workload of workload.py.

    cold.py [--runs R] [--program P] [--allocator NAME] N      N packages; the least of R runs of each

The program reads all lines from a file and writes to another, so no client takes part. What the puts take is measured by a
file of puts alone and taken off. The last rows have one worker on one processor and two on two. With an allocator, which
is a shared library, there are the same rows with it before the C library, where the command `sefgulaw` puts it. All rows
take turns. Each has the time by the clock and that of all processors, in milliseconds, and both as ratios to one worker
with the C library alone. Times are noisy, so what counts are the ratios of one run on an idle machine.
"""
import argparse
import os
import resource
import subprocess
import tempfile
import time

import workload

HERE = os.path.dirname(os.path.abspath(__file__))
PROGRAM = os.path.join(HERE, "../crates/sefgulaw_loader/out/sefgulaw_loader")


def cost(words, file):
    """What a run takes by the clock and of all processors, in milliseconds."""
    before, begun = resource.getrusage(resource.RUSAGE_CHILDREN), time.perf_counter()
    with open(file, "rb") as lines:
        subprocess.run(words, stdin=lines, stdout=subprocess.DEVNULL, check=True)
    wall, after = time.perf_counter() - begun, resource.getrusage(resource.RUSAGE_CHILDREN)
    used = after.ru_utime + after.ru_stime - before.ru_utime - before.ru_stime
    return wall * 1000, used * 1000


def allocators(program, library):
    """The words before a program for each allocator, by what follows the name of a row: that of the C library, which has
    none, and a shared library that is put before it."""
    if library is None:
        return {"": []}
    names = ":".join(filter(None, [os.environ.get("LD_PRELOAD"), library]))
    words = ["env", f"LD_PRELOAD={names}"]
    tried = subprocess.run([*words, program, "--version"], capture_output=True, text=True, check=True)
    if tried.stderr:
        raise SystemExit(tried.stderr.strip())
    return {"": [], f", {os.path.basename(library)}": words}


def rows(program, library):
    """The name of each row and its command."""
    cases, processors = {}, sorted(os.sched_getaffinity(0))
    for mark, before in allocators(program, library).items():
        serve = [*before, program, "run", "--workers"]
        cases |= {f"{workers} workers{mark}": [*serve, str(workers)] for workers in (1, 2, 4, 16)}
        if len(processors) > 1:
            one, two = str(processors[0]), f"{processors[0]},{processors[1]}"
            cases[f"1 worker on one processor{mark}"] = ["taskset", "-c", one, *serve, "1"]
            cases[f"2 workers on two processors{mark}"] = ["taskset", "-c", two, *serve, "2"]
    return cases


def main():
    words = argparse.ArgumentParser(description=__doc__, formatter_class=argparse.RawDescriptionHelpFormatter)
    words.add_argument("--runs", type=int, default=7)
    words.add_argument("--program", default=PROGRAM)
    words.add_argument("--allocator", metavar="NAME")
    words.add_argument("n", type=int)
    given = words.parse_args()
    cases = rows(given.program, given.allocator)
    least = {name: {} for name in cases}
    with tempfile.TemporaryDirectory() as room:
        files = {"puts": f"{room}/puts", "all": f"{room}/all"}
        puts = workload.puts(workload.files(given.n))
        for kind, lines in (("puts", puts), ("all", [*puts, *workload.loads(given.n)])):
            with open(files[kind], "w", encoding="utf-8") as out:
                out.writelines(lines)
        for _ in range(given.runs):
            for name, command in cases.items():
                for kind, file in files.items():
                    now = cost(command, file)
                    least[name][kind] = tuple(map(min, now, least[name].get(kind, now)))
    loads = {name: [whole - put for whole, put in zip(took["all"], took["puts"], strict=True)] for name, took in least.items()}
    print(f"{given.n} packages, puts {least['1 workers']['puts'][0]:.0f} ms by one worker")
    for name, (wall, used) in loads.items():
        one = loads["1 worker on one processor" if "on two" in name else "1 workers"]
        print(f"  {name:46s}{wall:9.1f}{wall / one[0]:7.2f}{used:12.1f}{used / one[1]:7.2f}")


if __name__ == "__main__":
    main()
