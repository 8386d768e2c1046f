"""Places of faults and of targets, over files in which the right places are known."""

from __future__ import annotations

import random
import re
import time
from collections.abc import Callable
from typing import NamedTuple

import pytest
from benches import BUILD, HEAD, MACROS, bench_of, files
from sefgulaw import places
from sefgulaw.messages import Message, Related
from sefgulaw.names import Path
from sefgulaw.places import all_faults, fault_place, read_fault
from sefgulaw.store import Fault
from sefgulaw.text import Span
from sefgulaw.wire import Command


def faults(loader: str, tree: dict[str, str], path: Path = BUILD, most: int = 20) -> list[Message]:
    """Returns the faults of a file."""
    bench = bench_of(loader, tree)
    try:
        return list(all_faults(bench, path, most))
    finally:
        bench.close()


def shown(messages: list[Message]) -> list[tuple[str, int, int, int | str, str]]:
    """Returns what a line of output has of each message."""
    return [(it.file, it.span.line, it.span.column, it.code, it.text) for it in messages]


def statement(number: int) -> str:
    """Returns a statement of five lines, as people write them, and an empty line."""
    return (
        f"library(\n"
        f'    name = "target_{number}",\n'
        f'    srcs = ["a{number}.cc", "b{number}.h"],\n'
        f'    deps = [":target_{number - 1}", "//other:one"],\n'
        f")\n\n"
    )


def planted(kind: int, number: int) -> str:
    """Returns a statement of five lines that has a fault of its own, of one of eight kinds."""
    good = statement(number)
    name = f"target_{number}"
    rule = good.replace("library(", "filegroup(").replace("deps", "data")
    return [
        good.replace("library(", "libary("),
        good.replace('"//other:one"],', '"//other:one",'),
        good.replace(f'"{name}",', f'"{name}"'),
        rule.replace("data", "dta"),
        good.replace(f'"{name}"', f"{number}"),
        rule.replace("//other:", "//o//"),
        good.replace(f'["a{number}.cc", "b{number}.h"]', f'glob(["a{number}//*"])'),
        f'joined(\n    name = "{name}",\n    parts = ["a", {number}],\n    # why\n)\n\n',
    ][kind]


KINDS = 8


@pytest.mark.long
@pytest.mark.parametrize("seed", range(5))
def test_twenty_planted_faults_in_900_lines(loader: str, seed: int) -> None:
    chance = random.Random(seed)
    chosen = set(chance.sample(range(1, 150), 20))
    text = HEAD
    expected: list[int] = []
    for number in range(150):
        if number in chosen:
            kind = chance.randrange(KINDS) if len(expected) >= KINDS else len(expected)
            expected.append(text.count("\n") + 1)
            text += planted(kind, number)
        else:
            text += statement(number)
    assert text.count("\n") >= 900
    begun = time.monotonic()
    found = faults(loader, files(text))
    took = time.monotonic() - begun
    assert sorted(starting(text, it.span.line) for it in found) == expected
    assert took <= 3


def starting(text: str, line: int) -> int:
    """Returns the first line of the statement that a line is in, in a text of such statements."""
    lines = text.split("\n")
    while not re.match(r"\w", lines[line - 1]):
        line -= 1
    return line


# One token deleted.


class Written(NamedTuple):
    """A text with the range of lines of each statement."""

    text: str
    statements: list[tuple[int, int]]


def written(chance: random.Random) -> Written:
    """Returns a BUILD file as people write them, without a fault of the grammar."""
    text = '"""What this package is for."""\n\n' if chance.random() < 0.3 else ""
    found = []
    for number in range(chance.randrange(3, 30)):
        if chance.random() < 0.4:
            text += chance.choice(["# A comment, with (an open bracket\n", "\n", "#\n# more\n"])
        piece = one_statement(chance, number)
        first = text.count("\n") + 1
        found.append((first, first + piece.count("\n") - 1))
        text += piece + chance.choice(["", "\n", "\n\n"])
    return Written(text, found)


def one_statement(chance: random.Random, number: int) -> str:
    """Returns one statement."""
    name = f"n{number}"
    listed = ", ".join(f'"{chance.choice("abc")}{at}.cc"' for at in range(chance.randrange(4)))
    rows = "".join(f'        "//{chance.choice("xyz")}:{at}",\n' for at in range(3))
    makers: list[Callable[[], str]] = [
        lambda: f'cc_library(name = "{name}", srcs = [{listed}])\n',
        lambda: f'cc_library(\n    name = "{name}",\n    srcs = [{listed}],  # (why)\n)\n',
        lambda: f'cc_test(\n    name = "{name}",\n    deps = [\n{rows}    ],\n    size = "s",\n)\n',
        lambda: f"{name.upper()} = [\n{rows}]\n",
        lambda: f'[cc_library(name = "{name}_" + x, srcs = [x + ".cc"]) for x in [{listed}]]\n',
        lambda: f'genrule(\n    name = "{name}",\n    cmd = """\n  echo ( > $@\n  #\n""",\n)\n',
        lambda: f'{name} = {{"a": [{listed}], "b": ({number}, [1])}}\n',
        lambda: f'filegroup(\n    name = "{name}",\n    srcs = glob(\n        ["*"],\n    ),\n)\n',
    ]
    return chance.choice(makers)()


TOKEN = re.compile(r'[()\[\],"=]')


class Broken(NamedTuple):
    """A text without one token: the line that it stood in, and the number of its statement."""

    text: str
    line: int
    statement: int


def deleted(chance: random.Random, good: Written) -> Broken | None:
    """Returns the text without one token of a statement."""
    places = []
    for found in TOKEN.finditer(good.text):
        line = good.text.count("\n", 0, found.start()) + 1
        around = [at for at, (one, other) in enumerate(good.statements) if one <= line <= other]
        before = good.text[good.text.rfind("\n", 0, found.start()) + 1 : found.start()]
        if around and "#" not in before:
            places.append((found.start(), line, around[0]))
    if not places:
        return None
    at, line, number = chance.choice(places)
    return Broken(good.text[:at] + good.text[at + 1 :], line, number)


class Tally(NamedTuple):
    """How often the statement was right, and how often the line of the message."""

    files: int
    right: int
    near: int


def tally(loader: str, seed: int, files: int) -> Tally:
    """Breaks files by one token each, and looks at the places of their first faults."""
    chance = random.Random(seed)
    seen = right = near = 0
    while seen < files:
        good = written(chance)
        one = deleted(chance, good)
        if one is None:
            continue
        bench = bench_of(loader, {"p/BUILD": one.text})
        fault = read_fault(bench.package("p"))
        if isinstance(fault, Fault) and fault.code == 3:
            place = fault_place(bench, BUILD, fault)
            seen += 1
            assert place.statement is not None, one.text
            right += place.statement.line == good.statements[one.statement][0]
            near += abs(place.span.line - one.line) <= 1
        bench.close()
    return Tally(seen, right, near)


@pytest.mark.long
def test_one_token_deleted_of_600_files(loader: str) -> None:
    found = tally(loader, 59, 600)
    assert found.right >= 0.99 * found.files, found
    assert found.near >= 0.70 * found.files, found


def test_one_token_deleted_of_60_files(loader: str) -> None:
    found = tally(loader, 7, 60)
    assert found.right >= 59, found
    assert found.near >= 42, found


# Kinds of places.


def test_a_fault_in_a_function_is_shown_at_the_call(loader: str) -> None:
    text = HEAD + 'pair(name = "x")\njoined(\n    name = "y",\n    parts = [1],\n)\n'
    found = faults(loader, files(text))
    assert shown(found) == [("p/BUILD", 4, 1, 5, "wrong type or shape")]
    place = Span(11, 9, 11, 27)
    assert found[0].notes == (Related("lib/m.bzl", place, "in this function, called there"),)


def test_a_fault_of_a_module_is_shown_in_the_module(loader: str) -> None:
    tree = files(HEAD + 'pair(name = "x")\ny = zz\n')
    tree["lib/m.bzl"] = MACROS + "\nX = [1,\n"
    assert shown(faults(loader, tree)) == [
        ("lib/m.bzl", 14, 5, 3, "syntax error: '[' was never closed"),
        ("p/BUILD", 4, 5, 4, "name is not bound: zz"),
    ]


def test_a_fault_of_a_module_below_a_module(loader: str) -> None:
    tree = files(HEAD)
    tree["lib/m.bzl"] = 'load("//lib:n.bzl", "N")\nM = N\n'
    tree["lib/n.bzl"] = "N = 1 // 0\n"
    assert shown(faults(loader, tree)) == [("lib/n.bzl", 1, 1, 10, "division by zero")]


def test_a_call_in_a_module_of_a_function_in_another_one(loader: str) -> None:
    tree = files('load("//lib:u.bzl", "U")\n')
    tree["lib/u.bzl"] = 'load("//lib:n.bzl", "f")\nA = 1\nU = f(0)\n'
    tree["lib/n.bzl"] = "def f(a):\n    return 1 // a\n"
    found = faults(loader, tree)
    assert shown(found) == [("lib/u.bzl", 3, 1, 10, "division by zero")]
    assert [(it.file, it.span.line, it.span.column) for it in found[0].notes] == [
        ("lib/n.bzl", 2, 5)
    ]


def test_a_call_of_a_function_of_the_same_module(loader: str) -> None:
    tree = files('load("//lib:u.bzl", "U")\n')
    tree["lib/u.bzl"] = "def f(a):\n    return 1 // a\n\nU = f(0)\n"
    found = faults(loader, tree, Path("lib/u.bzl"))
    assert shown(found) == [("lib/u.bzl", 2, 5, 10, "division by zero")]
    assert [(it.file, it.span.line, it.text) for it in found[0].notes] == [
        ("lib/u.bzl", 4, "called here")
    ]


def test_loads_that_cannot_be_made(loader: str) -> None:
    text = (
        'load("@r//x:y.bzl", "A")\n'
        'load("//lib:absent.bzl", "B")\n'
        'load("//nowhere:c.bzl", "C")\n'
        'load("//lib:m.bzl", "pair", "triple")\n'
        "x = A + B + C + triple\n"
        "y = D\n"
    )
    assert shown(faults(loader, files(text))) == [
        (
            "p/BUILD",
            1,
            6,
            15,
            "bad label or target name: @r//x:y.bzl (other repositories are not read)",
        ),
        ("p/BUILD", 2, 6, 16, "no such .bzl file: //lib:absent.bzl"),
        ("p/BUILD", 3, 6, 1, "no such package: //nowhere:c.bzl"),
        ("p/BUILD", 4, 29, 18, "name is not exported by the loaded file: triple"),
        ("p/BUILD", 6, 5, 4, "name is not bound: D"),
    ]


def test_a_cycle_of_loads(loader: str) -> None:
    tree = files('load("//lib:a.bzl", "A")\ny = D\n')
    tree["lib/a.bzl"] = 'load(":b.bzl", "B")\nA = B\n'
    tree["lib/b.bzl"] = 'load(":a.bzl", "A")\nB = A\n'
    assert shown(faults(loader, tree)) == [
        (
            "p/BUILD",
            1,
            6,
            19,
            "loads run in a cycle: //lib:a.bzl -> //lib:b.bzl -> //lib:a.bzl",
        ),
        ("p/BUILD", 2, 5, 4, "name is not bound: D"),
    ]


def test_a_line_that_is_in_no_statement(loader: str) -> None:
    found = faults(loader, files("\n\n  x = 1\nz = 3\n"))
    assert shown(found) == [("p/BUILD", 3, 2, 3, "syntax error: unexpected indent")]
    assert [it.text for it in found[0].notes] == ["further faults of this file were not looked for"]


@pytest.mark.parametrize("deep", ["-" * 100_000 + "1", "a." * 50_000 + "a", "1" + " + 1" * 9_000])
def test_deep_expressions(loader: str, deep: str) -> None:
    found = faults(loader, files(f"y = 1\nx = {deep}\nz = zz\n"))
    assert shown(found) == [
        ("p/BUILD", 2, 1, 12, "nested too deep"),
        ("p/BUILD", 3, 5, 4, "name is not bound: zz"),
    ]


def test_a_name_that_a_faulty_statement_bound_is_not_shown(loader: str) -> None:
    text = "X = [1, 2)\nfilegroup(name = X[0])\nfilegroup(name = Y)\n"
    assert shown(faults(loader, files(text))) == [
        (
            "p/BUILD",
            1,
            10,
            3,
            "syntax error: closing parenthesis ')' does not match opening parenthesis '['",
        ),
        ("p/BUILD", 3, 18, 4, "name is not bound: Y"),
    ]


def test_no_fault_and_at_most_so_many(loader: str) -> None:
    assert faults(loader, files(HEAD + 'pair(name = "x")\n')) == []
    many = faults(loader, files("".join(f"x{number} = y\n" for number in range(50))))
    assert len(many) == 20
    assert [it.text for it in many[-1].notes] == [
        "this file has more faults, which are shown once these are mended"
    ]
    assert not any(it.notes for it in many[:-1])
    exactly = faults(loader, files("".join(f"x{number} = y\n" for number in range(20))))
    assert len(exactly) == 20 and not exactly[-1].notes
    one = faults(loader, files("x = y\nz = y\n"), most=1)
    assert len(one) == 1 and not one[0].notes


def test_a_file_that_takes_long_is_given_up(loader: str, monkeypatch: pytest.MonkeyPatch) -> None:
    monkeypatch.setattr(places, "MOST_SECONDS", 0.0)
    assert faults(loader, files("x = y\n")) == []
    monkeypatch.undo()
    bench = bench_of(loader, files("x = [1\ny = z\n"))
    seen = iter(all_faults(bench, BUILD))
    monkeypatch.setattr(bench, "try_text", slow(bench.try_text))
    monkeypatch.setattr(places, "MOST_SECONDS", 0.05)
    found = list(seen)
    bench.close()
    assert [it.text for it in found] == ["syntax error"]
    assert [it.text for it in found[0].notes] == ["further faults of this file were not looked for"]


def slow(call: Callable[[Path, str, Command], bytes]) -> Callable[[Path, str, Command], bytes]:
    """Returns a call that takes longer than a file's places may take."""

    def called(path: Path, text: str, command: Command) -> bytes:
        answer = call(path, text, command)
        time.sleep(0.06)
        return answer

    return called
