"""Each allocation of the parser fails in turn, over a build file and a module. `make measures`
builds the program that parses them.

It writes what it always writes, or says that memory ran out.
"""

import os
import tempfile

from harness.context import Context, path_of
from harness.refuse import refusals, refuse_each
from harness.report import Report

PARSER = "bench/out/measures"
BUILD = """'''A package.'''
load("//tools:rules.bzl", "library", binary = "program")

library(name = "a" + "b\\n", srcs = glob(["*.c"], exclude = ["x.c"]), on = not 1 < 2 or -3 % 2 == 1)
x, (y, z) = [i for i in [1, 2] if i], ("s", {"k": {2: 3}, "l": None})
x[0], y = z[1:][:2], {a: b for a in x for b in y}
"""
MODULE = """load(":a.bzl", "f")

def g(a, b = [1], c = {}):
    for i, j in a:
        if i in b and not j:
            c[i] = b[0:j] if j else ()
        elif i:
            b += [f(i, key = j).strip("x")]
        else:
            break
    return a, b

X = g((1, 2), c = {})
"""


def run(context: Context) -> Report:
    """Refuses each allocation over both files."""
    report = Report()
    with tempfile.TemporaryDirectory() as folder, refusals() as library:
        for kind, text in {"build": BUILD, "bzl": MODULE}.items():
            file = os.path.join(folder, kind)
            with open(file, "w", encoding="utf-8") as out:
                out.write(text)
            command = [path_of(PARSER), "parse", kind, "0", file]
            found, whole, _ = refuse_each(library, kind, command)
            report.add(*found.wrong, compared=found.compared)
            report.require(b" 0 refused" in whole.written, f"{kind}: the parser refuses the file")
    return report
