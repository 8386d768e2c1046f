#!/usr/bin/env python3
"""Times the program, on lines that this script makes. Run it by `make bench`.

Times are noisy, so each is the least of several runs. What counts is the ratio to `measures lines` in the same minute,
which parses the same lines as JSON and does nothing else.
"""
import json
import os
import subprocess
import sys
import tempfile
import time

HERE = os.path.dirname(os.path.abspath(__file__))
LOADER = [os.path.join(HERE, "../crates/sefgulaw_loader/out/sefgulaw_loader"), "run"]
MEASURES = os.path.join(HERE, "out/measures")
PARSE_ONLY = [MEASURES, "lines"]


def line(**members):
    return json.dumps(members, separators=(",", ":")) + "\n"


def path(file, directories):
    """Places about ten files in each directory. A hundred directories are in one above."""
    directory = file % directories
    return f"d{directory // 100}/p{directory % 100}/f{file // directories}"


def put(file, directories):
    return line(op="put", path=path(file, directories), text=f"text {file}")


def find(directory):
    return line(op="find", name=f"d{directory // 100}/p{directory % 100}")


def seconds(command, file, runs=7):
    best = None
    for _ in range(runs):
        with open(file) as lines:
            start = time.perf_counter()
            subprocess.run(command, stdin=lines, stdout=subprocess.DEVNULL, check=True)
            took = time.perf_counter() - start
        best = took if best is None else min(best, took)
    return best


def throughput(folder):
    file = os.path.join(folder, "lines")
    puts, directories = 100_000, 10_000
    with open(file, "w") as lines:
        for n in range(puts):
            lines.write(put(n, directories))
        for n in range(puts):
            lines.write(find(n % directories))
    size = os.path.getsize(file)
    served, parsed = seconds(LOADER, file), seconds(PARSE_ONLY, file)
    print(f"{puts} puts in {directories} directories and as many finds, {size / 1e6:.1f} MB:")
    print(f"  served in {served:.3f} s ({size / served / 1e6:.1f} MB/s), only parsed in {parsed:.3f} s "
          f"({size / parsed / 1e6:.1f} MB/s): {served / parsed:.2f} times")


class Session:
    """A run of the program, a line at a time."""

    def __init__(self):
        self.process = subprocess.Popen(LOADER, stdin=subprocess.PIPE, stdout=subprocess.PIPE)

    def load(self, text):
        import threading
        count = text.count(b"\n")
        reader = threading.Thread(target=lambda: [self.process.stdout.readline() for _ in range(count)])
        reader.start()
        self.process.stdin.write(text)
        self.process.stdin.flush()
        reader.join()

    def ask(self, text):
        self.process.stdin.write(text)
        self.process.stdin.flush()
        return self.process.stdout.readline()

    def close(self):
        self.process.stdin.close()
        self.process.wait()


def one_edit(files):
    directories = max(1, files // 10)
    session = Session()
    session.load("".join(put(n, directories) for n in range(files)).encode())
    edit, ask = put(files // 2, directories).encode(), find(directories // 2).encode()
    edits, asks = [], []
    for _ in range(300):
        start = time.perf_counter()
        session.ask(edit)
        middle = time.perf_counter()
        session.ask(ask)
        end = time.perf_counter()
        edits.append(middle - start)
        asks.append(end - middle)
    session.close()
    print(f"one edit and one find at {files} files, through two pipes: "
          f"{sorted(edits)[150] * 1e6:.0f} and {sorted(asks)[150] * 1e6:.0f} microseconds (median of 300)")


def marks(lookups):
    """Times edits and finds beside so many look-ups. Each edit reaches one of them, and its find runs that one."""
    session = Session()
    lines = [line(op="put", path=f"d{n // 100}/p{n % 100}/BUILD", text="") for n in range(lookups)]
    session.load("".join(lines).encode())
    finds = [line(op="find", name=f"d{n // 100}/p{n % 100}") for n in range(lookups)]
    session.load("".join(finds).encode())
    edits, asks, again = [], [], []
    for turn in range(300):
        n = turn * 7919 % lookups
        edit = line(op="put", path=f"d{n // 100}/p{n % 100}/BUILD", text=str(turn)).encode()
        ask = finds[n].encode()
        start = time.perf_counter()
        session.ask(edit)
        edited = time.perf_counter()
        session.ask(ask)
        asked = time.perf_counter()
        session.ask(ask)
        edits.append(edited - start)
        asks.append(asked - edited)
        again.append(time.perf_counter() - asked)
    session.close()
    print(f"beside {lookups} look-ups that were evaluated, through two pipes: an edit of one {sorted(edits)[150] * 1e6:.0f}, "
          f"its find {sorted(asks)[150] * 1e6:.0f}, the same find again {sorted(again)[150] * 1e6:.0f} microseconds (median of 300)")


def finds_again(folder):
    """Times finds without a change, against parsing them."""
    file, puts, times = os.path.join(folder, "again"), 1000, 200
    with open(file, "w") as lines:
        for n in range(puts):
            lines.write(line(op="put", path=f"d{n // 100}/p{n % 100}/BUILD", text=""))
        for _ in range(times):
            for n in range(puts):
                lines.write(line(op="find", name=f"d{n // 100}/p{n % 100}"))
    served, parsed = seconds(LOADER, file), seconds(PARSE_ONLY, file)
    print(f"{times} finds without a change of each of {puts} packages: {served:.3f} s, only parsed in {parsed:.3f} s: "
          f"{served / parsed:.2f} times")


def long_line():
    session = Session()
    start = time.perf_counter()
    for _ in range(300):
        session.process.stdin.write(b"x" * 1_000_000)
    answer = session.ask(b"\n")
    took = time.perf_counter() - start
    with open(f"/proc/{session.process.pid}/status") as status:
        most = next(line.split()[1] for line in status if line.startswith("VmHWM"))
    session.close()
    assert answer == b'{"refused":6}\n', answer
    print(f"a line of 300 MB: refused in {took:.2f} s, at most {int(most) / 1024:.1f} MB of memory")


def tree_times():
    for files in ("1000", "100000"):
        print(subprocess.run([MEASURES, "tree", files], capture_output=True, text=True, check=True).stdout, end="")


def graph_times():
    for packages in ("1000", "100000"):
        print(subprocess.run([MEASURES, "graph", packages], capture_output=True, text=True, check=True).stdout, end="")


def function(n):
    """Returns a function of some ten lines, with most of the forms."""
    return f'''def rule_{n}(name, srcs = [], deps = None):
    """Makes target number {n}."""
    labels = [":%s_%d" % (name, i) for i in range({n % 7 + 1}) if i % 2 == 0]
    for i, src in enumerate(srcs):
        if src.endswith(".c") and not src in labels:
            labels.append(src)
        elif deps:
            labels += [d for d in deps if d != name]
        else:
            continue
    attrs = {{"name": name, "size": {n} + len(labels), "on": True}}
    return attrs.get("name", labels[0:-1]) if labels else None

'''


def package(n):
    return f'''load("//tools:rules.bzl", "library", binary = "program")

# Package number {n}.
library(
    name = "lib{n}",
    srcs = glob(["*.c", "src/**/*.c"], exclude = ["src/test_*.c"]),
    deps = ["//base:core", ":headers", "//p{n % 10}:lib"],
)

filegroup(name = "headers", srcs = ["h%d.h" % i for i in range({n % 5 + 2})], visibility = ["//visibility:public"])

binary(name = "main{n}", srcs = ["main.c"], deps = [":lib{n}"])
'''


def parse_times(folder):
    module = os.path.join(folder, "module.bzl")
    with open(module, "w") as out:
        size = n = 0
        while size < 250_000:
            size += out.write(function(n))
            n += 1
    packages = []
    for n in range(1_000):
        packages.append(os.path.join(folder, f"BUILD{n}"))
        with open(packages[-1], "w") as out:
            out.write(package(n))
    for kind, rounds, files in ("bzl", 30, [module]), ("build", 30, packages):
        said = subprocess.run([MEASURES, "parse", kind, str(rounds)] + files, capture_output=True, text=True, check=True).stdout.splitlines()
        size = sum(os.path.getsize(file) for file in files)
        print(f"parsed: {said[0]}: {size / int(said[1]) * 1e3:.1f} MB/s (the best of {rounds} rounds)")


def main():
    with tempfile.TemporaryDirectory() as folder:
        parse_times(folder)
        tree_times()
        graph_times()
        long_line()
        throughput(folder)
        for files in (1_000, 100_000):
            one_edit(files)
        for lookups in (1_000, 100_000):
            marks(lookups)
        finds_again(folder)


if __name__ == "__main__":
    sys.exit(main())
