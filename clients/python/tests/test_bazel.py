"""Queries over a tree of the four rules, beside Bazel 4.2.3 of Debian's package bazel-bootstrap."""

from __future__ import annotations

import os
import shutil
import subprocess
from collections.abc import Callable, Iterator
from pathlib import Path

import pytest
from conftest import Done, Root
from fresh_root import system

pytestmark = pytest.mark.long
Make = Callable[..., Root]
Direct = Callable[..., Done]

FILES = {
    "WORKSPACE": "",
    "app/BUILD": (
        'load("//lib:defs.bzl", "TAGS", "pair")\n'
        'filegroup(name = "core", srcs = glob(["*.c"]), data = ["//lib:base"], tags = TAGS)\n'
        'genrule(name = "gen", srcs = [":core"], outs = ["out.txt", "sub/two.txt"], cmd = "true")\n'
        'filegroup(name = "app", srcs = [":out.txt", "//lib/deep:deep"], tags = ["manual"])\n'
        'alias(name = "al", actual = ":app")\n'
        'pair("twin")\n'
        'test_suite(name = "suite", tests = [])\n'
    ),
    "app/a.c": "",
    "app/b.c": "",
    "lib/BUILD": 'filegroup(name = "base", srcs = ["defs.bzl"])\nfilegroup(name = "lib")\n',
    "lib/defs.bzl": (
        'load("//lib:tags.bzl", _T = "T")\nTAGS = _T + ["two"]\n\ndef pair(name):\n'
        '    native.filegroup(name = name + "_a", srcs = [":gen"])\n'
        '    native.filegroup(name = name + "_b", srcs = [name + "_a"])\n'
    ),
    "lib/tags.bzl": 'T = ["one"]\n',
    "lib/deep/BUILD": (
        'genrule(name = "deep", outs = ["d.h"], cmd = "true", tools = ["//lib:base"])\n'
        'filegroup(name = "un", srcs = [])\n'
    ),
    "tools/BUILD": 'alias(name = "tool", actual = "//lib/deep:d.h")\n',
}

EXPRESSIONS = [
    "//...",
    "//app:*",
    "//lib/...:*",
    "deps(//app:al)",
    "deps(//app:al, 1)",
    "deps(//...)",
    "rdeps(//..., //lib:base)",
    "rdeps(//app/..., //lib:base, 2)",
    "rdeps(//..., //app:out.txt)",
    "allpaths(//app:al, //lib:base)",
    "somepath(//app:twin_b, //app:a.c)",
    'kind("filegroup rule", //...)',
    'kind("file", deps(//tools:tool))',
    'attr(tags, "\\btwo\\b", //...)',
    'attr(srcs, "^\\[\\]$", //lib/...)',
    'filter("_[ab]$", //...)',
    "labels(outs, //app:gen) + labels(srcs, //app:core)",
    "siblings(//lib:base) - //lib:lib ^ //lib:all",
    "buildfiles(//app:al)",
    "loadfiles(//app:al)",
    "let x = deps(//app:app) in $x except rdeps($x, //lib:base)",
    "same_pkg_direct_rdeps(//app:gen)",
    "tests(//app:suite)",
    "set(//app:al //lib) - //tools:tool",
]
WHOLE = ["allrdeps(//lib:base)", "rbuildfiles(lib/tags.bzl)"]
"""These two work in Bazel with a universe alone."""


class Bazel:
    """Bazel over one tree, without a network."""

    def __init__(self, root: Root, folder: Path) -> None:
        self._root, self._folder = root, folder

    def run(self, *words: str) -> subprocess.CompletedProcess[str]:
        """Runs Bazel, which starts its server first."""
        command = ["bazel", f"--output_user_root={self._folder}", "--max_idle_secs=60", *words]
        environment = system(HOME=str(self._folder), PATH=os.environ["PATH"], USER="nobody")
        return subprocess.run(
            command,
            cwd=self._root.path,
            env=environment,
            stdin=subprocess.DEVNULL,
            capture_output=True,
            text=True,
            timeout=280,
        )

    def query(self, expression: str, *words: str) -> list[str]:
        """Returns the labels that Bazel answers with, but for its own repository."""
        done = self.run("query", "--noimplicit_deps", "--order_output=no", *words, expression)
        assert done.returncode == 0, (expression, done.stderr)
        return sorted(it for it in done.stdout.splitlines() if not it.startswith("@"))


@pytest.fixture
def bazel(tree: Make, tmp_path: Path) -> Iterator[Bazel]:
    """Bazel over the tree of this file. It is installed by `tools/install-packages long`."""
    assert shutil.which("bazel"), "there is no bazel: tools/install-packages long installs it"
    folder = tmp_path / "bazel"
    folder.mkdir()
    found = Bazel(tree(FILES), folder)
    yield found
    found.run("shutdown")


@pytest.mark.timeout(900)
def test_bazel_gives_the_same_labels(bazel: Bazel, tmp_path: Path, direct: Direct) -> None:
    root = tmp_path / "tree"
    wrong = []
    for expression in [*EXPRESSIONS, *WHOLE]:
        words = ["--universe_scope=//..."] if expression in WHOLE else []
        theirs = bazel.query(expression, *words)
        ours = sorted(direct("query", expression, cwd=root).lines)
        if ours != theirs:
            wrong.append((expression, ours, theirs))
    assert wrong == []
