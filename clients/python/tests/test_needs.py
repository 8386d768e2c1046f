"""Who is affected by a change, and what a bench needs, beside a plain model over random trees."""

from __future__ import annotations

import importlib.util
import random
from pathlib import Path as FilePath
from types import ModuleType
from typing import Callable

import pytest

import plain_model
from sefgulaw import needs
from sefgulaw.names import Path
from sefgulaw.needs import Needs

DIRECTORIES = ("a", "b", "c")
FILES = ("BUILD", "BUILD", "BUILD", "BUILD.bazel", "x.bzl", "y.bzl", "x.c", "w")
PATTERNS = ("*", "**", "a/*", "a/**", "*/x.c", "b/**/*.c", "*.bzl")

# Each is a rule of the module with a wrong one in its place.
WRONG_RULES = {
    "a changed BUILD file reaches its own package": (
        "packages.add(parent(path))",
        "packages.discard(parent(path))",
    ),
    "a BUILD file that comes or goes reaches the package above": (
        "around |= {directory, self.nearest(parent(directory))}",
        "around = {directory}",
    ),
    "a BUILD file that comes or goes reaches the loads below it": (
        "sources |= self._modules_at_or_below(boundaries)",
        "sources |= set()",
    ),
    "a changed module reaches those that load it": (
        "self._with_loaders(sources)",
        "sources",
    ),
    "a file that comes or goes reaches the nearest package": (
        "around = {self.nearest(directory)}",
        "around: set[Path | None] = set()",
    ),
}


class RandomTree:
    """A tree that changes at random, and the packages that the rules ask again."""

    def __init__(self, seed: int, make: Callable[[], Needs] = Needs) -> None:
        self.random = random.Random(seed)
        self.files: dict[str, str] = {}
        self.needs = make()
        self.answers: dict[str, plain_model.Answer] = {}

    def directory(self) -> str:
        return "/".join(self.random.choice(DIRECTORIES) for _ in range(self.random.randint(0, 3)))

    def label(self) -> str:
        """Mostly a label of a module that is there, from the nearest package above it."""
        modules = sorted(path for path in self.files if path.endswith(".bzl"))
        if modules and self.random.random() < 0.8:
            path = self.random.choice(modules)
            parts = path.split("/")
            for count in range(len(parts) - 1, -1, -1):
                package = "/".join(parts[:count])
                if plain_model.build_of(self.files, package):
                    return f"//{package}:{'/'.join(parts[count:])}"
        name = self.random.choice(["x.bzl", "y.bzl", "a/x.bzl", "b/y.bzl"])
        start = f"//{self.directory()}:" if self.random.random() < 0.5 else None
        return (start or self.random.choice([":", ""])) + name

    def text(self, path: str) -> str:
        lines = []
        for _ in range(self.random.choice([0, 0, 1, 1])):
            lines.append(f'load("{self.label()}", "{self.random.choice("XXXY")}")')
        names = [self.random.choice(["p", "q", "X", "Y"]) for _ in range(self.random.randint(1, 2))]
        if path.endswith(".bzl"):
            lines.append(f"{self.random.choice('XXXZ')} = {'+'.join(names)}")
        else:
            names = self.random.choice([names, ["p"]])
            lines.append(f'target(glob("{self.random.choice(PATTERNS)}"), {"+".join(names)})')
        return "\n".join(lines) + "\n"

    def change(self) -> list[Path]:
        """Makes one to four changes and tells the rules of them."""
        changed = []
        for _ in range(self.random.randint(1, 4)):
            path = plain_model.join(self.directory(), self.random.choice(FILES))
            if path in self.files and self.random.random() < 0.4:
                del self.files[path]
            else:
                is_source = path.endswith(("BUILD", ".bazel", ".bzl"))
                self.files[path] = self.text(path) if is_source else ""
            self.needs.update(Path(path), self.files.get(path))
            changed.append(Path(path))
        return changed

    def step(self) -> bool:
        """Changes the tree, asks what the rules say, and tells whether all is right."""
        for package in self.needs.affected(self.change()):
            self.answers[package] = plain_model.answer(self.files, package)
        expected = {
            package: plain_model.answer(self.files, package)
            for package in plain_model.packages(self.files)
        }
        kept = {package: it for package, it in self.answers.items() if it != ("no package",)}
        self.answers = dict(expected)
        return kept == expected

    def bench_is_right(self, package: str) -> bool:
        """Tells whether a package's closure alone gives its answer."""
        closure = self.needs.closure(package)
        bench = {path: text for path, text in self.files.items() if path in closure}
        return plain_model.answer(bench, package) == plain_model.answer(self.files, package)


def check(seed: int, steps: int) -> None:
    tree = RandomTree(seed)
    asked = 0
    for number in range(steps):
        assert tree.step(), f"seed {seed}, step {number}"
        asked += 1
        packages = plain_model.packages(tree.files)
        for package in tree.random.sample(packages, min(3, len(packages))):
            assert tree.bench_is_right(package), f"seed {seed}, step {number}, bench of {package}"
    assert asked == steps


@pytest.mark.parametrize("seed", range(3))
def test_affected_and_closure_are_never_too_small(seed: int) -> None:
    check(seed, 120)


@pytest.mark.long
@pytest.mark.parametrize("seed", range(10, 19))
def test_affected_and_closure_over_many_steps(seed: int) -> None:
    check(seed, 1000)


def wrong_module(rule: str) -> ModuleType:
    """The module `needs` with one rule replaced by a wrong one."""
    right, wrong = WRONG_RULES[rule]
    text = FilePath(needs.__file__).read_text()
    assert text.count(right) == 1
    spec = importlib.util.spec_from_loader("wrong_needs", loader=None)
    assert spec is not None
    module = importlib.util.module_from_spec(spec)
    exec(compile(text.replace(right, wrong), "wrong_needs.py", "exec"), module.__dict__)
    return module


@pytest.mark.parametrize("rule", WRONG_RULES)
def test_each_rule_is_needed(rule: str) -> None:
    tree = RandomTree(1, wrong_module(rule).Needs)
    assert sum(not tree.step() for _ in range(300)) > 0


def told(files: dict[str, str]) -> Needs:
    result = Needs()
    for path, text in files.items():
        result.update(Path(path), text)
    result.affected(Path(path) for path in files)
    return result


def test_only_what_a_change_reaches_is_affected() -> None:
    tree = told(
        {
            "BUILD": "",
            "a/BUILD": 'load("//m:x.bzl", "X")\n',
            "b/BUILD": 'load("//m:y.bzl", "Y")\n',
            "b/s/w": "",
            "m/BUILD": "",
            "m/x.bzl": 'load(":y.bzl", "Y")\nX = Y\n',
            "m/y.bzl": "Y = 1\n",
        }
    )
    tree.update(Path("m/x.bzl"), 'load(":y.bzl", "Y")\nX = 2\n')
    assert tree.affected([Path("m/x.bzl")]) == {"a"}
    tree.update(Path("m/y.bzl"), "Y = 3\n")
    assert tree.affected([Path("m/y.bzl")]) == {"a", "b"}
    tree.update(Path("b/s/v"), "")
    assert tree.affected([Path("b/s/v")]) == {"b"}
    tree.update(Path("b/s/v"), "")
    assert tree.affected([Path("b/s/v")]) == set()
    tree.update(Path("c/v"), "")
    assert tree.affected([Path("c/v")]) == {""}


def test_loaders_and_load_order() -> None:
    tree = told(
        {
            "a/BUILD": 'load("//m:x.bzl", "X")\nload("//m:z.bzl", "Z")\n',
            "m/BUILD": "",
            "m/x.bzl": 'load(":y.bzl", "Y")\nX = Y\n',
            "m/y.bzl": 'load("//m:x.bzl", "X")\nY = 1\n',
            "m/z.bzl": 'load("//n:absent.bzl", "N")\n',
        }
    )
    assert tree.loaders(Path("m/z.bzl")) == {"a/BUILD"}
    assert tree.loaders(Path("m/y.bzl")) == {"a/BUILD", "m/x.bzl"}
    assert tree.loaders(Path("n/absent.bzl")) == {"a/BUILD", "m/z.bzl"}
    assert tree.load_order([Path("a/BUILD")]) == ["m/y.bzl", "m/x.bzl", "m/z.bzl", "a/BUILD"]


def test_closure_stops_at_packages_below() -> None:
    tree = told(
        {
            "BUILD": "",
            "p/BUILD": 'load("//m:d/x.bzl", "X")\n',
            "p/s/w": "",
            "p/k/BUILD": "",
            "p/k/w": "",
            "p/k/l/BUILD": "",
            "m/BUILD.bazel": "",
            "m/d/x.bzl": "X = 1\n",
            "m/d/y.bzl": "",
            "q/BUILD": "",
        }
    )
    assert tree.closure("p") == {
        "BUILD",
        "p/BUILD",
        "p/s/w",
        "p/k/BUILD",
        "m/BUILD.bazel",
        "m/d/x.bzl",
    }


def test_a_file_that_came_and_went_leaves_nothing() -> None:
    tree = told({"a/b/BUILD": 'load(":x.bzl", "X")\n'})
    tree.update(Path("a/b/BUILD"), None)
    assert tree.affected([Path("a/b/BUILD")]) == {"a/b"}
    assert not tree.has(Path("a/b/BUILD"))
    assert tree.nearest(Path("a/b")) is None
    assert tree.loaders(Path("a/b/x.bzl")) == set()
    assert tree.closure("a") == set()
