"""Values of expressions in BUILD files of Bazel, beside what Python computes of the same text."""

from __future__ import annotations

import os
import random
from collections.abc import Callable
from pathlib import Path

import pytest

from conftest import Root
from sefgulaw.base import Base, Options
from sefgulaw.names import decode
from sefgulaw.store import Attribute

MakeTree = Callable[..., Root]

NAMES = {"A": "alpha", "B": "b.c++", "N": 7, "L": ["x", "y/z", "w"], "D": {"k": "v", "m": "n"}}

LITERALS = [
    '"plain"',
    "'single'",
    'r"raw\\d\\n"',
    '"side " "by" \' side\'',
    '"\\x41\\102\\u0043"',
    '"tab\\tand\\\\back"',
    '"quote\\"and\'"',
    '"""long\nof two lines"""',
    '"gr\xfc\xdf"',
    '"__x41 is no code"',
    '"100%"',
    '"braces {} {{"',
    '"a\\\nb"',
]

TEMPLATES = [
    '"%s-%s" % ({0}, {1})',
    '"<%s>" % {0}',
    '"%d%%" % N',
    '"%r:%i" % (N, N)',
    '"%(k)s/%(m)s" % D',
    '"{{}}:{{}}".format({0}, {1})',
    '"{{1}}{{0}}{{1}}".format({0}, {1})',
    '"{{x}}".format(x = {0})',
    '("%" + "s!") % {0}',
    '("{{}}" + "?").format({0})',
]

METHODS = [
    '"{0}".lower()',
    '"{0}".upper()',
    '"{0}".capitalize()',
    '"{0}".replace("a", "o", 1)',
    '"{0}".rpartition(".")[2]',
    '"{0}".partition("/")[0]',
    '"{0}".rsplit(".", 1)[0]',
    '"{0}".split("/", 1)[-1]',
    '"{0}".strip("a.")',
    '"{0}".lstrip("a")',
    '"{0}".rstrip("c")',
    'str("{0}".find("/"))',
    'str("{0}".rfind("a"))',
    'str("{0}".count("a"))',
    '"{0}".removesuffix(".cc")',
    '"{0}".removeprefix("a")',
    '("yes" if "{0}".endswith((".cc", ".h")) else "no")',
    '("yes" if "{0}".startswith("a") else "no")',
    '",".join("{0}".splitlines())',
]

WORDS = ["a/b/Main.cc", "abacus.h", "plain", "a.b.c", "aaa", "x/y"]


class Expressions:
    """Random texts of expressions whose values are strings or lists of strings."""

    def __init__(self, seed: int) -> None:
        self.random = random.Random(seed)

    def string(self, depth: int = 0) -> str:
        chance = self.random.random()
        if depth > 2 or chance < 0.3:
            return self.random.choice([*LITERALS, "A", "B"])
        if chance < 0.5:
            form = self.random.choice(TEMPLATES)
            return form.format(self.string(depth + 1), self.string(depth + 1))
        if chance < 0.7:
            return self.random.choice(METHODS).format(self.random.choice(WORDS))
        if chance < 0.85:
            return f"({self.string(depth + 1)} + {self.string(depth + 1)})"
        if chance < 0.92:
            test = self.random.choice(["N > 3", "not N", '"x" in L', "A == B or N"])
            return f"({self.string(depth + 1)} if {test} else {self.string(depth + 1)})"
        return self.random.choice(['D["k"]', "L[1]", "L[-1]", "A[1:3]", "str(N * 2 - 1)", "B[0]"])

    def list(self) -> str:
        chance = self.random.random()
        if chance < 0.4:
            return f"[{self.string()}, {self.string()}]"
        if chance < 0.6:
            return f"[x + {self.string(2)} for x in L if x != {self.string(2)}]"
        if chance < 0.7:
            return f"L + [{self.string()}]"
        if chance < 0.8:
            return f"sorted([{self.string()}, {self.string()}])"
        return "[k + v for k, v in (D | {'q': 'r'}).items()]"

    def any(self) -> str:
        return self.string() if self.random.random() < 0.7 else self.list()


def shown(value: Attribute) -> object:
    """A decoded value, whose characters are bytes."""
    if isinstance(value, str):
        return decode(value).decode("latin-1")
    return [decode(one).decode("latin-1") for one in value]


def attributes(root: Root, loader: str) -> dict[str, object]:
    base = Base.open(os.fsencode(root.path), Options(loader, rules=("make",)))
    try:
        base.refresh()
        base.load([""])
        targets = base.targets("")
        assert base.bridge.is_bridged(""), base.store.raw("")
        return {target.name: shown(target.attrs["value"]) for target in targets}
    finally:
        base.close()


def compare(tree: MakeTree, loader: str, seed: int, count: int) -> None:
    made = Expressions(seed)
    texts = [made.any() for _ in range(count)]
    lines = [f"{name} = {value!r}\n" for name, value in NAMES.items()]
    expected = {}
    for number, text in enumerate(texts):
        lines.append(f'make(name = "t{number}", value = {text})\n')
        expected[f"t{number}"] = eval(
            text, {"__builtins__": {"str": str, "sorted": sorted}, **NAMES}
        )
    root = tree({"WORKSPACE": "", "BUILD": "".join(lines).encode("latin-1")}, f"tree{seed}")
    found = attributes(root, loader)
    for name, value in expected.items():
        assert found[name] == value, texts[int(name[1:])]
    assert len(found) == count


@pytest.mark.parametrize("seed", range(4))
def test_values_are_those_that_python_computes(tree: MakeTree, loader: str, seed: int) -> None:
    compare(tree, loader, seed, 100)


@pytest.mark.long
@pytest.mark.parametrize("seed", range(10, 60))
def test_many_values_are_those_that_python_computes(tree: MakeTree, loader: str, seed: int) -> None:
    compare(tree, loader, seed, 200)


def test_a_global_that_is_bound_again(tree: MakeTree, loader: str) -> None:
    text = (
        'X = ["a"]\n'
        'make(name = "one", value = X)\n'
        'X = X + ["b"]\n'
        'X += ["c"]\n'
        'make(name = "two", value = X)\n'
        'Y = "p"\n'
        'Y += "q"\n'
        'make(name = "three", value = Y)\n'
        "len = 3\n"
        'make(name = "four", value = str(len))\n'
        "sefgulaw_odd = 4\n"
        'make(name = "five" + "", value = str(sefgulaw_odd))\n'
    )
    root = tree({"WORKSPACE": "", "BUILD": text})
    assert attributes(root, loader) == {
        "one": ["a"],
        "two": ["a", "b", "c"],
        "three": "pq",
        "four": "3",
        "five": "4",
    }


def test_globs_see_real_names(tree: MakeTree, loader: str, tmp_path: Path) -> None:
    text = (
        'make(name = "all", value = glob(["*.cc", "gr*"], exclude = ["c++.cc"]))\n'
        'make(name = "one", value = [f for f in glob(["*.cc"]) if f == "c++.cc"])\n'
        'make(name = "sub", value = glob(["d e/*"]))\n'
    )
    files = {"WORKSPACE": "", "BUILD": text, "c++.cc": "", "a.cc": "", "d e/f=g": ""}
    root = tree(files)
    root.write("gr\xfc\xdf".encode("latin-1"), "")
    assert attributes(root, loader) == {
        "all": ["a.cc", "gr\xfc\xdf"],
        "one": ["c++.cc"],
        "sub": ["d e/f=g"],
    }
