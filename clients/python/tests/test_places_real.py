"""Places of faults in real BUILD files, of which one token is deleted.

The files are from the sources of Debian's packages. Python's parser says where the statements of a
whole file are, and a file that it cannot read is left out.
"""

from __future__ import annotations

import ast
import os
import random
from collections.abc import Iterator

import debian_sources
import pytest
from benches import BUILD, bench_of
from sefgulaw.places import fault_place, read_fault
from sefgulaw.store import Fault
from test_places import Tally, Written, deleted

pytestmark = [pytest.mark.long, pytest.mark.timeout(1800)]

TREES = ("abseil", "googletest", "re2", "protobuf", "kubernetes")
SYNTAX = 3


def build_files() -> Iterator[str]:
    """Yields the texts of the trees' BUILD files."""
    for name in TREES:
        for folder, folders, names in os.walk(debian_sources.source(name)):
            folders.sort()
            for it in sorted({"BUILD", "BUILD.bazel"} & set(names)):
                with open(os.path.join(folder, it), "rb") as file:
                    content = file.read()
                if content.isascii():
                    yield content.decode("ascii")


def written(text: str) -> Written | None:
    """Returns a file with its statements, the docstring of the file left out."""
    try:
        statements = ast.parse(text).body
    except SyntaxError:
        return None
    lines = [(it.lineno, it.end_lineno or it.lineno) for it in statements]
    return Written(text, lines) if lines else None


def fault_of(loader: str, text: str) -> tuple[Fault | None, tuple[int, int] | None]:
    """Returns a BUILD file's fault of the grammar, with the lines of its statement and its own."""
    bench = bench_of(loader, {"p/BUILD": text})
    try:
        fault = read_fault(bench.package("p"))
        if not isinstance(fault, Fault) or fault.code != SYNTAX:
            return None, None
        place = fault_place(bench, BUILD, fault)
        line = place.statement.line if place.statement is not None else 0
        return fault, (line, place.span.line)
    finally:
        bench.close()


def test_one_token_deleted_of_600_real_files(loader: str) -> None:
    """The statement has to be the right one nearly always, and the line most of the time."""
    chance = random.Random(600)
    texts = list(build_files())
    chance.shuffle(texts)
    seen = right = near = 0
    for text in texts * 3:
        good = written(text)
        if good is None or fault_of(loader, text)[0] is not None:
            continue
        one = deleted(chance, good)
        place = None if one is None else fault_of(loader, one.text)[1]
        if one is None or place is None:
            continue
        seen += 1
        right += place[0] == good.statements[one.statement][0]
        near += abs(place[1] - one.line) <= 1
        if seen == 600:
            break
    found = Tally(seen, right, near)
    print(found)
    assert seen == 600
    assert right >= 0.99 * seen, found
    assert near >= 0.70 * seen, found
