#!/usr/bin/env python3
"""Makes one workload: packages of nine rules and three globs, macros, and .bzl files that many packages load.

    workload.py N FOLDER     writes a tree of N packages, which Bazel reads too
    workload.py N            prints the same as lines of commands: all puts, then all loads

Packages are `d<K>/p<I>`, fifty to a group. `//lib:g<K>.bzl` is loaded by the fifty packages of group K, and
`//lib:base.bzl` by every `g<K>.bzl`, so by all packages. Each package has a BUILD file and six other files.
"""
import json
import os
import sys

GROUP, NAMES = 50, 256


def base(value=0, comment=""):
    return f'''BASE_TAGS = ["base", "v{value}"]{comment}

def cmd_for(i):
    parts = ["cat", "$(SRCS)", ">", "$@"]
    if i % 2 == 0:
        parts.append("# even")
    return " ".join(parts)

def merge(a, b):
    out = {{}}
    for x in a + b:
        out[x] = True
    return sorted(out.keys())
'''


def group(k, value=0, comment=""):
    return f'''load(":base.bzl", "BASE_TAGS", "cmd_for", "merge")

TAGS = merge(BASE_TAGS, ["g{k}", "w{value}"]){comment}

def unit(name, srcs, n = 4):
    outs = []
    for i in range(n):
        o = name + "_" + str(i) + ".o"
        native.genrule(
            name = name + "_gen" + str(i),
            srcs = srcs,
            outs = [o],
            cmd = cmd_for(i),
        )
        outs.append(":" + o)
    native.filegroup(name = name, srcs = outs, tags = TAGS + [t for t in native.glob(["**/*.txt"])])
'''


def build(i, n, value=0, comment=""):
    return f'''load("//lib:g{i // GROUP}.bzl", "TAGS", "unit")

filegroup(
    name = "srcs",
    srcs = glob(["*.c", "*.h"]),
    tags = TAGS + ["t{value}"],{comment}
)

filegroup(
    name = "deep",
    srcs = glob(["**/*.txt"], exclude = ["**/skip*"]),
    visibility = ["//visibility:public"],
)

alias(name = "next", actual = "//{package((i + 1) % n)}:srcs")

unit("u", [":srcs"] + ["extra" + str(e) + ".c" for e in range(3)])

test_suite(name = "suite", tests = [":u", ":srcs"])
'''


def package(i):
    return f"d{i // GROUP}/p{i}"


def files(n):
    """Yields the path and the text of each file."""
    yield "lib/BUILD", ""
    yield "lib/base.bzl", base()
    for k in range((n + GROUP - 1) // GROUP):
        yield f"lib/g{k}.bzl", group(k)
    for i in range(n):
        yield package(i) + "/BUILD", build(i, n)
        for name in ("a.c", "b.c", "c.h", "sub/x.txt", "sub/skip.txt", "sub/deep/y.txt"):
            yield f"{package(i)}/{name}", ""


def scenarios(n, turn):
    """Yields (name, edits, package): each edit is a path and a text; the package is the one asked for, or None for all."""
    yield "no change, all packages", [], None
    yield "a comment in one BUILD file, all", [("d0/p0/BUILD", build(0, n, 3 * turn, f"  # {turn}"))], None
    yield "a value in one BUILD file, that package", [("d0/p0/BUILD", build(0, n, 3 * turn + 1))], "d0/p0"
    yield "a new file under one glob, that package", [(f"d0/p0/sub/new{turn}.txt", "")], "d0/p0"
    yield "a comment in a .bzl file that all load, all", [("lib/base.bzl", base(turn, f"  # {turn}"))], None
    yield "a value in a .bzl file that all load, all", [("lib/base.bzl", base(turn + 1))], None


def line(**members):
    return json.dumps(members, separators=(",", ":")) + "\n"


def puts(edits):
    return [line(op="put", path=path, text=text) for path, text in edits]


def loads(n):
    names = [package(i) for i in range(n)]
    return [line(op="load", names=names[at:at + NAMES]) for at in range(0, n, NAMES)]


def write_tree(n, folder):
    os.makedirs(folder, exist_ok=True)
    for path, text in [("WORKSPACE", "")] + list(files(n)):
        path = os.path.join(folder, path)
        os.makedirs(os.path.dirname(path), exist_ok=True)
        with open(path, "w") as file:
            file.write(text)


def main():
    n = int(sys.argv[1])
    if len(sys.argv) > 2:
        write_tree(n, sys.argv[2])
    else:
        sys.stdout.writelines(puts(files(n)) + loads(n))


if __name__ == "__main__":
    main()
