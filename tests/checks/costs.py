"""The costs of lines that are at a limit: seconds, most memory and the last answer, of which the
answer is compared, and the memory with the most that a loader may take. `--only TEXT` takes the
lines that have this text in their names."""

import json
from collections.abc import Callable

from harness.commands import Command, find, lines_of_commands, load, put, under
from harness.context import Context
from harness.loader import Run
from harness.report import Report

# How many directories a path may have above a build file: 125 names of a byte, each with its slash,
# and 5 bytes.
MAX_DEPTH = 125
GLOBBING = 'filegroup(name = "t", srcs = glob(["*"]))\n'
# A longer answer is told by what it counts.
MAX_ANSWER = 200
# The most memory of a loader that answers, in MB.
MOST_MEMORY = 300


def deep_tree() -> list[Command]:
    """A tree of directories whose paths are as long as they may be."""
    paths = [["s"] + ["a"] * depth for depth in range(120)]
    return [put("/".join([*path, f"f{number}.c"]), "") for path in paths for number in range(8)]


def packages(count: int, text: str) -> list[Command]:
    """So many packages whose build files have this text."""
    return [put(f"p{number}/BUILD", text) for number in range(count)]


def chain_of_packages(name: str) -> list[Command]:
    """A package in each directory of a chain that is as deep as a path may be, and the directory
    above."""
    return [put("/".join([name] * depth + ["BUILD"]), "") for depth in range(MAX_DEPTH + 1)]


def of_build(text: str) -> list[Command]:
    """A package whose build file has this text."""
    return [put("s/BUILD", text), load("s")]


def labelled(count: int) -> str:
    """A build file of so many targets that share a list of 65,536 labels."""
    made = 'filegroup(name = "t" + str(i), srcs = L)'
    return f'L = [":a"] * 65536\nx = [{made} for i in range({count})]\n'


def calling(lines: str) -> list[Command]:
    """A package that calls a function of a module, with these lines as its body."""
    return [put("s/m.bzl", "def f():\n" + lines), *of_build('load(":m.bzl", "f")\nf()\n')]


def longest_line() -> list[Command]:
    """A line of 1,048,576 bytes."""
    return [put("s/BUILD", "#" * 262_000), find("x" * 1_048_500)]


def longest_text() -> list[Command]:
    """A text of 262,144 bytes."""
    text = "".join(f"x{number} = {number}\n" for number in range(20_000))
    return of_build(text[: text.rindex("\n", 0, 262_144) + 1])


def many_functions() -> list[Command]:
    """15,000 calls among 14,000 functions."""
    functions = "".join(f"def f{number}(): pass\n" for number in range(14_000))
    module = put("s/m.bzl", functions + "def all():\n    for i in range(15000): f0()\n")
    return [module, *of_build('load(":m.bzl", "all")\nall()\n')]


def fan_of_loads() -> list[Command]:
    """A package that loads from 2,000 modules."""
    modules = [put(f"m/m{number}.bzl", "X = 1\n") for number in range(2_000)]
    loads = "".join(f'load("//m:m{number}.bzl", x{number} = "X")\n' for number in range(2_000))
    return [put("m/BUILD", ""), *modules, *of_build(loads)]


def large_directory() -> list[Command]:
    """A directory of 100,000 names, in which one is added."""
    files = [put(f"s/f{number}.c", "") for number in range(100_000)]
    return [*files, *of_build('x = glob(["*1.c"])\n'), put("s/g.c", ""), load("s")]


def many_marks() -> list[Command]:
    """An edit of a module that 25,000 packages load."""
    names = [f"p{number}" for number in range(25_000)]
    loads = [load(*names[at : at + 250]) for at in range(0, 25_000, 250)]
    files = [put("m/BUILD", ""), put("m/m.bzl", "X = 1\n")]
    files += packages(25_000, 'load("//m:m.bzl", "X")\n')
    return [*files, *loads, put("m/m.bzl", "X = 2\n"), load("p1")]


def files_found_often() -> list[Command]:
    """A glob of 1,000 patterns that each find the same 30,000 files."""
    files = [put(f"s/{'a' * 20}{number}.c", "") for number in range(30_000)]
    pattern = '"a" * i + "*a" + "a" * j + "*"'
    includes = f"[{pattern} for i in range(10) for j in range(10)] * 10"
    return [*files, *of_build(f"x = glob({includes})\n")]


def files_not_found() -> list[Command]:
    """A glob of 2,000 patterns that begin with a star and find none of 65,536 files."""
    files = [put(f"s/f{number}.c", "") for number in range(65_536)]
    return [*files, *of_build('x = glob(["*g" + str(i) + ".c" for i in range(2000)])\n')]


def many_directories() -> list[Command]:
    """A glob that finds 20,000 directories."""
    files = [put(f"s/d{number}/x.c", "") for number in range(20_000)]
    text = 'filegroup(name = str(len(glob(["**"], exclude_directories = 0))))\n'
    return [*files, *of_build(text)]


def one(name: str) -> str:
    """The answer of a package without targets."""
    answer = {"packages": [{"name": name, "targets": []}]}
    return json.dumps(answer, separators=(",", ":"))


# Lines, and a summary of the answer to the last one.
COSTS: dict[str, tuple[Callable[[], list[Command]], str]] = {
    "a line of 1,048,576 bytes": (longest_line, '{"refused":5}'),
    "a text of 262,144 bytes": (longest_text, one("s")),
    "a list of 65,536 members": (
        lambda: of_build("x = [i for i in range(65536)]\ny = x + []\nz = sorted(x)\n"),
        one("s"),
    ),
    "1,000,000 steps": (
        lambda: calling("    for i in range(1000):\n        for j in range(1000): pass\n"),
        '{"packages":[{"fault":{"code":11,"line":3,"path":"s/m.bzl"},"name":"s"}]}',
    ),
    "a load of 256 names": (
        lambda: packages(256, GLOBBING) + [load(*[f"p{number}" for number in range(256)])],
        "256 packages, 256 targets, 0 faults",
    ),
    "a dictionary of 65,536 keys": (
        lambda: of_build("d = {i * 65536: i for i in range(65536)}\nx = [d[i] for i in d]\n"),
        one("s"),
    ),
    "65,536 targets": (
        lambda: of_build('x = [filegroup(name = "t" + str(i)) for i in range(65536)]\n'),
        "1 packages, 65536 targets, 0 faults",
    ),
    "20 targets with 65,536 labels each": (
        lambda: of_build(labelled(20)),
        "1 packages, 20 targets, 0 faults",
    ),
    "65,536 targets with 65,536 labels each": (
        lambda: of_build(labelled(65_536)),
        "status 3, stop: memory",
    ),
    "15,000 calls among 14,000 functions": (many_functions, one("s")),
    "patterns with many ** in a deep tree": (
        lambda: [
            *deep_tree(),
            *of_build('x = glob(["**/a/**/a/**/a/**/a/**/f1.c", "**/**/**/**/*.h"])\n'),
        ],
        one("s"),
    ),
    "a fan of 2,000 loads": (fan_of_loads, one("s")),
    "a directory of 100,000 names": (large_directory, one("s")),
    "an edit that marks 100,000 records": (many_marks, one("p1")),
    "5,000 packages by one under": (
        lambda: packages(5_000, GLOBBING) + [under("")],
        "5000 packages, 5000 targets, 0 faults",
    ),
    "a chain of 126 packages by one under": (
        lambda: chain_of_packages("a") + [under("")],
        "126 packages, 0 targets, 0 faults",
    ),
    "1,000 patterns that each find 30,000 files": (files_found_often, one("s")),
    "2,000 patterns with a star first, 65,536 files": (files_not_found, one("s")),
    "a glob that finds 20,000 directories": (
        many_directories,
        '{"packages":[{"name":"s","targets":[{"attrs":{},"kind":"filegroup","name":"40001"}]}]}',
    ),
    "100,000 names that are not there": (
        lambda: [find(f"x{number}") for number in range(100_000)],
        '{"build":null}',
    ),
    "1,000 lists that nothing reaches": (
        lambda: calling("    for i in range(1000): x = [0] * 65536\n"),
        one("s"),
    ),
    "20,000 lists that nothing reaches": (
        lambda: calling("    for i in range(20000): x = [0] * 65536\n"),
        one("s"),
    ),
    "20,000,000 tuples that nothing reaches": (
        lambda: calling("    for i in range(300): x = enumerate([0] * 65536)\n"),
        one("s"),
    ),
    "2,000 lists in one expression, none of them reached": (
        lambda: calling("    x = [" + "len([0] * 65536), " * 2000 + "]\n"),
        one("s"),
    ),
    "2,000 lists by the statements of one suite": (
        lambda: calling("    x = [0] * 65536\n" * 2000),
        one("s"),
    ),
    "2,000 lists that are reached": (
        lambda: calling("    x = [[0] * 65536 for i in range(2000)]\n"),
        "status 3, stop: memory",
    ),
}


def summary(ran: Run, count: int) -> str:
    """How a run of so many lines ended: a short answer as it is, and of a long one how many
    packages, targets and faults it has."""
    if ran.status:
        return f"status {ran.status}, {ran.said.decode().strip()}"
    if len(ran.lines()) != count:
        return f"{len(ran.lines())} answers to {count} lines"
    if len(ran.last()) <= MAX_ANSWER:
        return ran.last().decode()
    found = json.loads(ran.last())["packages"]
    targets = sum(len(package.get("targets", [])) for package in found)
    faults = sum("fault" in package for package in found)
    return f"{len(found)} packages, {targets} targets, {faults} faults"


def run(context: Context) -> Report:
    """Prints the costs of each line, and compares the answers."""
    report = Report()
    for name, (lines, wanted) in COSTS.items():
        if context.only in name:
            made = lines()
            ran, took, most = context.loader("run").run_measured(lines_of_commands(made))
            last = summary(ran, len(made))
            print(f"  {name:52s}{took:8.2f} s{most:8.0f} MB   {last[:80]}", flush=True)
            wrong = None if last == wanted else f"{name}: {last[:200]} and not {wanted}"
            if wrong is None and not ran.status and most > MOST_MEMORY:
                wrong = f"{name}: {most:.0f} MB, and at most {MOST_MEMORY} are allowed"
            report.add(wrong, compared=1)
    return report
