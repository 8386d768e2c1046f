"""Random queries over random trees, beside a naive evaluator."""

from __future__ import annotations

import random
from collections.abc import Callable, Iterator
from contextlib import contextmanager

import pytest
from conftest import Root, Runner
from daemon_lines import Lines
from query_model import Expressions, Model, build_files

Make = Callable[..., Root]


@contextmanager
def asking(model: Model, tree: Make, run: Runner) -> Iterator[Lines]:
    """A daemon over the tree of a model."""
    lines = Lines(run, tree(model.files))
    try:
        yield lines
    finally:
        lines.close()


def found(lines: Lines, text: str) -> list[str]:
    """Returns the targets that an expression stands for."""
    items, end = lines.ask("query", expression=text, output="label", cwd="")
    assert end["status"] == 0, (text, end, items)
    assert [it["kind"] for it in items if it["kind"] == "missing"] == []
    return [it["label"] for it in items]


def compare(seed: int, count: int, tree: Make, run: Runner) -> None:
    """Compares so many random expressions over one random tree."""
    model = Model(random.Random(seed))
    expressions = Expressions(model)
    with asking(model, tree, run) as lines:
        for _ in range(count):
            text, expected = expressions.one(3)
            assert found(lines, text) == sorted(expected), (seed, text)
        for text, roots in (expressions.one(1) for _ in range(count // 10)):
            modules, files = build_files(model, model.loads, roots)
            assert found(lines, f"loadfiles({text})") == sorted(modules)
            assert found(lines, f"buildfiles({text})") == sorted(files)
            paths(model, lines, text, roots, *expressions.one(1))


def paths(
    model: Model, lines: Lines, text: str, roots: set[str], other: str, ends: set[str]
) -> None:
    """Looks at a path: each step is a pair, and it is there where there is one."""
    path = found(lines, f"somepath({text}, {other})")
    assert bool(path) == bool(model.after(roots) & ends)
    if path:
        assert path[0] in roots and path[-1] in ends
        assert all(pair in model.pairs for pair in zip(path, path[1:]))


@pytest.mark.parametrize("seed", range(2))
def test_random_queries(seed: int, tree: Make, run: Runner) -> None:
    compare(seed, 30, tree, run)


@pytest.mark.long
@pytest.mark.parametrize("seed", range(10, 20))
def test_many_random_queries(seed: int, tree: Make, run: Runner) -> None:
    compare(seed, 30, tree, run)
