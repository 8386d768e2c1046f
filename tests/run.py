#!/usr/bin/env python3
"""Runs checks of the built program by their names, and prints one line for each: `ok NAME 123
compared`, or `WRONG NAME ..` after what is wrong. The status is 1 where one is wrong or compared
nothing.

    run.py                 the checks of the gate
    run.py NAME..          these checks
    run.py --list          the names of all checks, with what they compare

Each check is a file of tests/checks with a function `run`. The program is the one that the gate
builds, and where two compilers left two, both are checked.
"""

import argparse
import glob
import importlib
import os
import shlex
import sys

sys.path.insert(0, os.path.dirname(os.path.abspath(__file__)))

from harness.context import Context, path_of  # noqa: E402
from harness.report import Report  # noqa: E402

# The checks that the gate runs, in their order.
GATE = ["golden", "language", "many", "journal", "words", "devices", "cuts", "talk"]
BUILT = "crates/sefgulaw_loader/out/sefgulaw_loader"


def names() -> list[str]:
    """The names of all checks."""
    files = glob.glob(path_of("tests/checks/*.py"))
    found = (os.path.splitext(os.path.basename(it))[0] for it in files)
    return sorted(it for it in found if it != "__init__")


def about(name: str) -> str:
    """What a check says of itself, in its first sentence."""
    text = importlib.import_module(f"checks.{name}").__doc__ or ""
    return " ".join(text.split("\n\n")[0].split()).split(". ")[0].rstrip(".:")


def programs() -> list[str]:
    """The programs that were built, the gate's own first. The gate builds one more by the other
    compiler, named after it. Such a one may be left from an earlier state, so it is left out where
    a source is newer."""
    paths = sorted(glob.glob(path_of(f"{BUILT}*")))
    built = [it for it in paths if os.path.isfile(it) and os.access(it, os.X_OK)]
    sources = glob.glob(path_of("crates/*/src/**/*.rt"), recursive=True)
    newest = max(map(os.path.getmtime, sources))
    old = [path for path in built[1:] if os.path.getmtime(path) <= newest]
    for path in old:
        print(f"{os.path.basename(path)} is older than a source, and is left out")
    return [path for path in built if path not in old]


def run_check(name: str, context: Context) -> Report:
    """Runs a check. One that ends with an error of its own is wrong."""
    try:
        report = importlib.import_module(f"checks.{name}").run(context)
        assert isinstance(report, Report)
        return report
    except Exception as error:
        return Report(0, [f"it ended with {type(error).__name__}: {error}"])


def arguments() -> argparse.ArgumentParser:
    """The words of the command."""
    words = argparse.ArgumentParser(
        "run.py", description=__doc__, formatter_class=argparse.RawDescriptionHelpFormatter
    )
    words.add_argument("names", nargs="*", metavar="NAME")
    words.add_argument("--list", action="store_true", help="print the names of all checks")
    words.add_argument("--workers", default="1,2,3,16", help="the numbers of workers")
    words.add_argument("--program", nargs="+", default=[], help="the programs to be checked")
    words.add_argument("--scripts", type=int, help="how many random scripts")
    words.add_argument("--first", type=int, default=0, help="the number of the first of them")
    words.add_argument("--edits", type=int, default=100_000, help="the edits of `life`")
    words.add_argument("--only", default="", help="a part of the names of lines for `costs`")
    words.add_argument("--command", default="", help="a command for `talk` to talk with")
    return words


def main() -> int:
    """Runs the checks on each program."""
    words = arguments()
    asked = words.parse_args()
    if asked.list:
        for name in names():
            print(f"{name:20s}{about(name)}")
        return 0
    for name in asked.names:
        if name not in names():
            words.error(f"there is no check {name}: --list prints the names")
    paths = asked.program or programs()
    if not paths:
        print(f"no program at {BUILT}: build it first")
        return 1
    workers = tuple(int(it) for it in asked.workers.split(","))
    command, is_well = tuple(shlex.split(asked.command)), True
    for path in paths:
        more = (asked.scripts, asked.first, asked.edits, asked.only, command)
        context = Context(os.path.abspath(path), workers, *more)
        for name in asked.names or GATE:
            report = run_check(name, context)
            beside = f" of {os.path.basename(path)}" if len(paths) > 1 else ""
            print("\n".join(report.lines(name + beside)), flush=True)
            is_well = is_well and report.is_well()
    return 0 if is_well else 1


if __name__ == "__main__":
    sys.exit(main())
