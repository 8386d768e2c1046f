#!/usr/bin/env python3
"""Times what one step of the language may do to many members, pieces or bytes.

    members.py [--runs R] [--program P]

Each row is a function that does the same to a value of 65,536 parts, some times over, in the built program. The least of
R runs with few and of R runs with many times is taken, and the difference is told by nanoseconds a part.
"""
import argparse
import json
import os
import subprocess
import time

HERE = os.path.dirname(os.path.abspath(__file__))
PROGRAM = os.path.join(HERE, "../crates/sefgulaw_loader/out/sefgulaw_loader")
PARTS = 65536
FEW, MANY = 20, 220
# What is made before, and the expression. A string of 65,536 bytes has 32,768 pieces.
ROWS = {
    "a list repeated": ("x = [0]", "x * 65536"),
    "two lists added": ("x = [0] * 32768", "x + x"),
    "a list sliced": ("x = [0] * 65536", "x[0:65536]"),
    "a list copied": ("x = [0] * 65536", "list(x)"),
    "a list reversed": ("x = [0] * 65536", "reversed(x)"),
    "a list sorted": ("x = list(range(65536))", "sorted(x)"),
    "a range": ("x = 65536", "range(x)"),
    "a string split, a piece": ('x = "a," * 32768', 'x.split(",")'),
    "strings joined, a piece": ('x = ["a"] * 32768', '",".join(x)'),
    "a string replaced in, a byte": ('x = "ab" * 32768', 'x.replace("b", "c")'),
    "a string sought in, a byte": ('x = "a" * 65536\n    y = "a" * 255 + "b"', "y in x"),
}
PIECES = 32768


def cost(program, before, expression, count):
    """What it takes to do it so often, in seconds."""
    text = f"def f():\n    {before}\n    for i in range({count}):\n        z = {expression}\nf()\n"
    given = [
        {"op": "put", "path": "s/BUILD", "text": ""},
        {"op": "put", "path": "s/m.bzl", "text": text},
        {"op": "module", "label": "//s:m.bzl"},
    ]
    lines = "".join(json.dumps(it) + "\n" for it in given).encode()
    begun = time.perf_counter()
    out = subprocess.run([program, "run"], input=lines, capture_output=True, check=True).stdout
    took = time.perf_counter() - begun
    if b'"exports"' not in out.splitlines()[-1]:
        raise SystemExit(f"{expression}: {out.splitlines()[-1][:200]!r}")
    return took


def main():
    words = argparse.ArgumentParser(description=__doc__, formatter_class=argparse.RawDescriptionHelpFormatter)
    words.add_argument("--runs", type=int, default=5)
    words.add_argument("--program", default=PROGRAM)
    given = words.parse_args()
    for name, (before, expression) in ROWS.items():
        few = min(cost(given.program, before, expression, FEW) for _ in range(given.runs))
        many = min(cost(given.program, before, expression, MANY) for _ in range(given.runs))
        parts = PIECES if name.endswith("piece") else PARTS
        print(f"{name:32s}{(many - few) * 1e9 / (MANY - FEW) / parts:8.2f} ns")


if __name__ == "__main__":
    main()
