"""Deep and wide sources, with 1 and 16 workers: nesting, operators, brackets and calls at their
limits and one above, cut calls, a circle of 256 modules, and a chain of 1,000."""

import functools
import json

from harness.commands import Command, lines_of_commands, load, module, put
from harness.context import Context
from harness.loader import Loader
from harness.model import Answer
from harness.report import Report, compare_each

Row = tuple[list[Command], Answer]


def fault(code: int, line: int, path: str = "s/BUILD") -> Answer:
    """The answer of a package that has a fault."""
    return {"packages": [{"fault": {"code": code, "line": line, "path": path}, "name": "s"}]}


PLAIN: Answer = {"packages": [{"name": "s", "targets": []}]}


def of_file(text: str, answer: Answer) -> Row:
    """A package whose build file has this text."""
    return [put("s/BUILD", text), load("s")], answer


def calls(count: int) -> list[Command]:
    """Functions that call one another so deep."""
    lines = ["def f0(): pass\n"] + [f"def f{k}(): f{k - 1}()\n" for k in range(1, 65)]
    build = f'load(":m.bzl", "f{count}")\nf{count}()\n'
    return [put("s/m.bzl", "".join(lines)), put("s/BUILD", build), load("s")]


def chain(count: int, last: str) -> list[Command]:
    """Modules that load each other in a row. The last one has the text given."""
    files = [
        put(f"s/m{k}.bzl", f'load(":m{k + 1}.bzl", Y = "X")\nX = 1\n') for k in range(count - 1)
    ]
    end = put(f"s/m{count - 1}.bzl", last)
    return [put("s/BUILD", ""), *files, end, module("//s:m0.bzl")]


CYCLE: Answer = {"fault": {"code": 19, "cycle": [f"//s:m{k}.bzl" for k in range(256)]}}

ROWS: dict[str, Row] = {
    "64 levels": of_file(f"x = {'(' * 64}1{')' * 64}\n", PLAIN),
    "65 levels": of_file(f"x = {'(' * 65}1{')' * 65}\n", fault(12, 0)),
    "64 operators": of_file("x = " + " + ".join("1" * 65) + "\n", PLAIN),
    "65 operators": of_file("x = " + " + ".join("1" * 66) + "\n", fault(12, 0)),
    "262,144 open brackets": of_file("(" * 262_144, fault(3, 0)),
    "131,072 pairs of brackets": of_file("(" * 131_072 + ")" * 131_072, fault(12, 0)),
    "the longest string": of_file('x = "a" * 65536\n', PLAIN),
    "a string too long": of_file('x = "a" * 65537\n', fault(13, 1)),
    "bytes over 127": of_file("x = 1\n# é\n", fault(2, 2)),
    "a cut call": of_file('filegroup(name = "l"', fault(3, 0)),
    "64 calls": (calls(63), PLAIN),
    "65 calls": (calls(64), fault(12, 2, "s/m.bzl")),
    "a circle of 256 modules": (chain(256, 'load(":m0.bzl", Y = "X")\nX = 1\n'), CYCLE),
    "a chain of 1,000 modules": (chain(1000, "X = 1\n"), {"exports": ["X"]}),
    "a list in itself": of_file("x = []\nx.append(x)\ny = [x == x]\n", fault(12, 3)),
}


def row_differs(context: Context, stack: int | None, which: tuple[str, int]) -> str | None:
    """What is wrong with a row with so many workers and a limit of the stack, or None."""
    name, workers = which
    lines, answer = ROWS[name]
    words = ["run", "--workers", str(workers)]
    ran = Loader(context.program, *words, stack=stack).run(lines_of_commands(lines))
    if ran.status or json.loads(ran.last() or b"null") != answer:
        return f"{name}, {workers} workers: status {ran.status}, wrote {ran.written[-200:]!r}"
    return None


def compare_rows(context: Context, stack: int | None = None) -> Report:
    """Compares all rows with a limit of the stack, which is also that of each worker."""
    rows = [(name, workers) for name in ROWS for workers in (1, 16)]
    return compare_each(functools.partial(row_differs, context, stack), rows)


def run(context: Context) -> Report:
    """Compares all rows."""
    return compare_rows(context)
