"""Places of targets, over files in which the right places are known."""

from __future__ import annotations

import random

import pytest
from benches import HEAD, bench_of, files
from sefgulaw.places import target_places


def test_places_of_targets(loader: str) -> None:
    text = HEAD + (
        'filegroup(name = "one")\n'
        'pair(name = "two")\n\n'
        'NAMES = ["c", "d"]\n'
        "[filegroup(name = x) for x in NAMES]\n"
        'joined(name = "e", parts = ["f"])\n'
        'filegroup(\n    name = "g" + "h",\n)\n'
        'alias(\n    name = "last",\n    actual = ":one",\n)\n'
    )
    bench = bench_of(loader, files(text))
    found = {name: (it.line, it.end_line) for name, it in target_places(bench, "p").items()}
    bench.close()
    assert found == {
        "one": (3, 3),
        "two_a": (4, 4),
        "two_b": (4, 4),
        "c": (7, 7),
        "d": (7, 7),
        "e-f": (8, 8),
        "gh": (9, 11),
        "last": (12, 15),
    }


def test_a_loaded_name_of_a_rule_declares_what_its_function_declares(loader: str) -> None:
    tree = files('load("//lib:r.bzl", "filegroup")\nfilegroup(name = "a")\ngenrule(name = "b")\n')
    tree["lib/r.bzl"] = "def filegroup(name):\n    native.alias(name = name + 'x', actual = ':b')\n"
    bench = bench_of(loader, tree)
    found = {name: it.line for name, it in target_places(bench, "p").items()}
    bench.close()
    assert found == {"ax": 2, "b": 3}


@pytest.mark.parametrize("seed", range(3))
def test_places_of_random_targets(loader: str, seed: int) -> None:
    chance = random.Random(seed)
    text, expected = HEAD, {}
    for number in range(120):
        line = text.count("\n") + 1
        kind = chance.randrange(4)
        if kind == 0:
            text += f'filegroup(\n    name = "t{number}",\n)\n'
            expected[f"t{number}"] = line
        elif kind == 1:
            text += f'pair(name = "t{number}")\n\n'
            expected |= {f"t{number}_a": line, f"t{number}_b": line}
        elif kind == 2:
            text += f'[alias(name = "t{number}" + x, actual = ":z") for x in ["u", "v"]]\n'
            expected |= {f"t{number}u": line, f"t{number}v": line}
        else:
            text += f"X{number} = {number}  # nothing\n"
    bench = bench_of(loader, files(text))
    found = {name: it.line for name, it in target_places(bench, "p").items()}
    bench.close()
    assert found == expected
