"""A Bazel tree that changes at random, kept up, beside the same tree opened anew."""

from __future__ import annotations

import random
from collections.abc import Callable

import pytest

from bridged_trees import answers, opened
from conftest import Root

MakeTree = Callable[..., Root]

PIECES = [
    'load("@x//:y.bzl", "far")\n',
    'load("//m:x.bzl", "X")\n',
    'load(":z.bzl", "Z")\n',
    'cc_library(name = "{n}", srcs = glob(["*.c"]), tags = X)\n',
    'filegroup(name = "{n}", srcs = glob(["**"]))\n',
    'far(name = "{n}", data = Z)\n',
    'cc_libary(name = "{n}")\n',
    'V = "%s-{n}" % "a"\n',
    "{n} = (\n",
    'package(default_visibility = ["//:__pkg__"])\n',
]
MODULES = [
    'X = ["a"]\n',
    'load(":z.bzl", "Z")\nX = Z + ["b"]\n',
    "X = rule()\n",
    'Z = ["{n}"]\n',
    'Z = ["c"\n',
    'load("//m:x.bzl", "X")\nZ = X\n',
]


def change(root: Root, made: random.Random, number: int) -> None:
    directory = made.choice(["", "a/", "a/b/", "m/"])
    name = made.choice(["BUILD", "BUILD", "BUILD.bazel", "x.bzl", "z.bzl", "x.c", "c++.c"])
    if name == "x.bzl":
        directory = "m/"
    path = directory + name
    if made.random() < 0.25 and (root.path / path).exists():
        root.delete(path)
    elif name.startswith("BUILD"):
        count = made.randint(0, 3)
        pieces = [
            it.replace("{n}", f"t{number}_{at}")
            for at, it in enumerate(made.choices(PIECES, k=count))
        ]
        root.write(path, "".join(sorted(pieces, key=lambda it: not it.startswith("load"))))
    elif name.endswith(".bzl"):
        root.write(path, made.choice(MODULES).replace("{n}", str(number)))
    else:
        root.write(path, "")


def compare_with_fresh(tree: MakeTree, loader: str, seed: int, steps: int) -> None:
    made = random.Random(seed)
    root = tree({"m/BUILD": "", "m/x.bzl": MODULES[0]}, f"tree{seed}")
    base = opened(root, loader)
    bridged = 0
    for step in range(steps):
        for _ in range(made.randint(1, 3)):
            change(root, made, step)
        if made.random() < 0.2:
            marker = root.path / "WORKSPACE"
            if marker.exists():
                marker.unlink()
            else:
                marker.touch()
        base.refresh()
        base.load(base.names())
        fresh = opened(root, loader)
        assert answers(base) == answers(fresh), f"seed {seed}, step {step}"
        states = {name for name in base.names() if base.bridge.is_bridged(name)}
        assert states == {name for name in fresh.names() if fresh.bridge.is_bridged(name)}
        bridged += len(states)
        fresh.close()
    base.close()
    assert bridged > 0


@pytest.mark.parametrize("seed", range(3))
def test_a_base_that_is_kept_up_answers_as_a_fresh_one(
    tree: MakeTree, loader: str, seed: int
) -> None:
    compare_with_fresh(tree, loader, seed, 40)


@pytest.mark.long
@pytest.mark.parametrize("seed", range(10, 20))
def test_a_base_that_is_kept_up_for_many_changes(tree: MakeTree, loader: str, seed: int) -> None:
    compare_with_fresh(tree, loader, seed, 200)


OWN = [
    'filegroup(name = "{n}", srcs = ["x.c", ":{m}", "//a", "//a/b:c"], data = glob(["*.c"]))\n',
    'filegroup(name = "{n}", srcs = [], tags = ["t=1", "%s", "a\\\\b", "\\"q\\""])\n',
    'genrule(name = "{n}", srcs = [":{m}"], outs = ["o{n}"], cmd = "cat $(SRCS) > \\"$@\\"\\n")\n',
    'genrule(name = "{n}", tools = ["//a:t"], cmd = """two\nlines""", visibility = [":x"])\n',
    'alias(name = "{n}", actual = "{m}")\n',
    'alias(name = "{n}", actual = "//a/b", visibility = [])\n',
    'test_suite(name = "{n}", tests = ["{m}", "//a:t"], tags = None)\n',
    '[filegroup(name = "{n}" + s, srcs = [f for f in glob(["**"]) if f != s]) for s in X]\n',
    'X{n} = {"k": [1, -2, True, None], ("a", 1): "v"}\n'
    'filegroup(name = "{n}", tags = [repr(X{n}), str(len(X{n})), "a" if X else "b"])\n',
    'f(name = "{n}", what = X)\n',
    'filegroup(name = "{n}", tags = [s + t for s in X for t in X if s != t][1:3] + X * 2)\n',
    'filegroup(name = "{n}", tags = ["%d" % 1] if False else [package_name()])\n',
    'filegroup(name = "{n}", srcs = ["bad label:"])\n',
    "pass\n",
    '"a string"\n',
    "({n}, Y{n}) = (1, [2])\n",
]
MODULE = 'X = ["p", "q"]\n\ndef f(name, what):\n    native.filegroup(name = name, tags = what)\n'


@pytest.mark.parametrize("seed", range(6))
def test_what_loads_as_it_is_means_the_same_when_it_is_rewritten(
    tree: MakeTree, loader: str, monkeypatch: pytest.MonkeyPatch, seed: int
) -> None:
    made = random.Random(seed)
    files = {"WORKSPACE": "", "m/BUILD": "", "m/x.bzl": MODULE, "a/b/BUILD": ""}
    for number in range(60):
        pieces = made.choices(OWN, k=made.randint(1, 5))
        named = [it.replace("{n}", f"n{at}") for at, it in enumerate(pieces)]
        texts = [it.replace("{m}", f"n{at + 1}") for at, it in enumerate(named)]
        lead = made.choice(["", '"""Doc."""\n', "# Only a comment.\n\n"])
        files[f"p{number}/BUILD"] = lead + 'load("//m:x.bzl", "X", "f")\n' + "".join(texts)
        files[f"p{number}/x.c"] = ""
        files[f"p{number}/s/c++.c"] = ""
    root = tree(files, f"own{seed}")
    plain = opened(root, loader, "never")
    monkeypatch.setattr("sefgulaw.bridge.tree._is_bridgeable", lambda item: True)
    rewritten = opened(root, loader)
    same = 0
    for name, raw in answers(plain).items():
        if name.startswith("p"):
            assert rewritten.bridge.is_bridged(name)
            assert rewritten.store.raw(name) == raw, files[f"{name}/BUILD"]
            same += raw is not None and raw.startswith(b'{"name"')
    plain.close()
    rewritten.close()
    assert same >= 20
