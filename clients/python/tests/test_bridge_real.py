"""Existing trees of Bazel, from the sources of Debian's packages.

The lists of targets in `data` are what `bazel query 'kind(rule, //...)' --output label_kind` of
Debian's Bazel says of googletest 1.12.1 and of re2 20220601. It was run with a repository
`rules_python` whose rules are Bazel's own.
"""

from __future__ import annotations

import ast
import json
import os
import re
import shutil
from collections.abc import Callable
from dataclasses import dataclass
from pathlib import Path

import pytest

import debian_sources
from conftest import Done, Root

pytestmark = [pytest.mark.long, pytest.mark.timeout(1800)]

Direct = Callable[..., Done]

DATA = Path(__file__).parent / "data"


@dataclass(frozen=True)
class Share:
    """How many of a tree's packages load at least, with stand-ins and without.

    `packages` counts directories, and `exact` those of them that load as they are. Directories
    that are seen through links are packages as well, but are not counted here.
    """

    packages: int
    bridged: float
    exact: int


TREES = {
    "abseil": Share(23, 1.0, 0),
    "googletest": Share(3, 1.0, 0),
    "re2": Share(1, 1.0, 0),
    "protobuf": Share(28, 0.95, 0),
    "kubernetes": Share(3317, 0.95, 34),
}


def report(direct: Direct, root: Path) -> dict[str, dict[str, object]]:
    """The packages that do not load as they are, by name."""
    done = direct("bridge", "--json", cwd=root)
    assert done.status == 0
    return {str(it["package"]): it for it in map(json.loads, done.lines)}


def packages(root: Path, through_links: bool = True) -> set[str]:
    """The directories with a BUILD file, by a walk of the test's own."""
    found = set()
    for directory, names, files in os.walk(root, followlinks=through_links):
        real = os.path.realpath(directory) + "/"
        paths = {it: os.path.realpath(os.path.join(directory, it)) + "/" for it in names}
        names[:] = [it for it in names if it != ".git" and not real.startswith(paths[it])]
        if "BUILD" in files or "BUILD.bazel" in files:
            name = os.path.relpath(directory, root)
            found.add("" if name == "." else name)
    return found


def build_text(root: Path, file: str) -> str:
    return (root / file).read_text(encoding="latin-1")


def calls(text: str) -> list[ast.Call]:
    """The calls that are statements of a file."""
    values = [it.value for it in ast.parse(text).body if isinstance(it, ast.Expr)]
    return [it for it in values if isinstance(it, ast.Call)]


@pytest.mark.parametrize("name", TREES)
def test_the_share_of_packages_that_load(direct: Direct, name: str) -> None:
    root = debian_sources.source(name)
    share = TREES[name]
    everything, directories = packages(root), packages(root, through_links=False)
    assert len(directories) == share.packages
    done = direct("check", "--output", "jsonl", cwd=root)
    assert done.status in (0, 1)
    faulty = {package for line in done.lines for package in json.loads(line)["packages"]}
    assert faulty <= everything
    assert len(faulty) <= (1 - share.bridged) * len(everything)
    told = report(direct, root)
    assert {it for it, words in told.items() if words["state"] == "fault"} == faulty
    assert len(directories - told.keys()) == share.exact
    words = r"sefgulaw: ([\d,]+) packages? of this answer rests? on stand-ins, see sefgulaw bridge"
    found = re.search(words, done.err.decode())
    assert found is not None
    assert len(told) - len(faulty) <= int(found[1].replace(",", "")) <= len(told)


@pytest.mark.parametrize("name", TREES)
def test_each_line_is_the_beginning_of_a_statement_of_the_file(direct: Direct, name: str) -> None:
    root = debian_sources.source(name)
    shutil.copytree(root, root.parent / f"{name}.planted", symlinks=True, dirs_exist_ok=True)
    planted = Root(root.parent / f"{name}.planted")
    expected = set()
    for package in sorted(packages(root))[:40]:
        directory = root / package
        file = "BUILD.bazel" if (directory / "BUILD.bazel").exists() else "BUILD"
        path = os.path.join(package, file) if package else file
        text = build_text(root, path)
        rules = [it for it in calls(text) if any(word.arg == "name" for word in it.keywords)]
        if not rules:
            continue
        line = rules[len(rules) // 2].lineno
        lines = text.split("\n")
        lines[line - 1] = "cc_libary" + lines[line - 1][lines[line - 1].index("(") :]
        planted.write(path, "\n".join(lines).encode("latin-1"))
        expected.add(f"{path}:{line}:1: error: name is not bound: cc_libary [4]")
    done = direct("check", cwd=planted)
    shutil.rmtree(planted.path)
    assert done.status == 1
    assert expected
    assert expected <= set(done.lines)


@pytest.mark.parametrize("name", TREES)
def test_without_stand_ins(direct: Direct, name: str) -> None:
    root = debian_sources.source(name)
    share = TREES[name]
    done = direct("check", "--stand-ins", "never", "--output", "jsonl", cwd=root)
    faulty = {package for line in done.lines for package in json.loads(line)["packages"]}
    assert len(packages(root, through_links=False) - faulty) == share.exact
    assert "stand-ins" not in done.err.decode()


def literal_names(root: Path) -> set[str]:
    """The labels of the rule calls at file level that have a literal name."""
    found = set()
    for package in packages(root):
        directory = root / package
        file = "BUILD.bazel" if (directory / "BUILD.bazel").exists() else "BUILD"
        text = build_text(directory, file)
        for call in calls(text):
            for word in call.keywords:
                if word.arg == "name" and isinstance(word.value, ast.Constant):
                    found.add(f"//{package}:{word.value.value}")
    return found


def test_the_names_of_abseil_are_those_of_its_calls(direct: Direct) -> None:
    root = debian_sources.source("abseil")
    done = direct("targets", "--output", "jsonl", "//...", cwd=root)
    assert {json.loads(line)["label"] for line in done.lines} == literal_names(root)
    assert all(json.loads(line)["exact"] is False for line in done.lines)


@pytest.mark.parametrize("name", ["googletest", "re2"])
def test_the_rules_are_those_that_bazel_finds(direct: Direct, name: str) -> None:
    done = direct("targets", "//...", cwd=debian_sources.source(name))
    expected = (DATA / f"{name}.txt").read_text().splitlines()
    assert sorted(done.lines) == sorted(expected)


def test_a_tree_without_a_marker_has_no_stand_ins(direct: Direct, tmp_path: Path) -> None:
    shutil.copytree(debian_sources.source("googletest"), tmp_path / "googletest", symlinks=True)
    (tmp_path / "googletest/WORKSPACE").unlink()
    done = direct("-C", str(tmp_path / "googletest"), "check", cwd=tmp_path)
    assert len([line for line in done.lines if "error:" in line]) >= 3
    assert "stand-ins" not in done.err.decode()
