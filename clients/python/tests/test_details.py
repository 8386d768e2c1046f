"""Columns and words of faults inside a statement, each by hand."""

from __future__ import annotations

import re

import pytest
from fresh_root import REPOSITORY
from sefgulaw.details import FUNCTIONS, PACKAGE_CALLS, detail
from sefgulaw.names import Path
from sefgulaw.text import statements

BUILD, MODULE = Path("p/BUILD"), Path("p/m.bzl")

# A text, the number and the line of its fault, and the place and the words that are expected.
SYNTAX = [
    ("x = [1,\n", 1, 5, "'[' was never closed"),
    ("x = 1\ny = (2]\n", 2, 7, "closing parenthesis ']' does not match opening parenthesis '('"),
    ("x = 1\n\n\ny = [\n  (\n  ]\n", 6, 3, "']' does not match opening parenthesis '(' on line 5"),
    ("x = 'a\n", 1, 5, "unterminated string literal"),
    ("x = lambda: 1\n", 1, 5, "the language has no 'lambda'"),
    ("f(**a)\n", 1, 5, "the language has no '**' before an argument"),
    ("f(*a)\n", 1, 3, "the language has no '*' before an expression"),
    ("x = 1.5\n", 1, 5, "the language has no floats"),
    ("x = 0x10\n", 1, 5, "the language has no numbers written as 0x10"),
    ("x = 9223372036854775808\n", 1, 5, "the language has no whole numbers of over 64 bits"),
    ("x = r'a'\n", 1, 5, "the language has no raw strings and other strings with a prefix"),
    ("x = ('a'\n     'b')\n", 2, 6, "the language has no strings side by side"),
    ("x = '\\d'\n", 1, 5, "the language has no escapes but"),
    ("x = 1; y = 2\n", 1, 6, "the language has no ';'"),
    ("x = a < b < c\n", 1, 5, "the language has no chains of comparisons"),
    ("x = a is b\n", 1, 5, "the language has no 'is'"),
    ("x = a[::2]\n", 1, 9, "the language has no steps of slices"),
    ("x = a.b\n", 1, 5, "the language has no attribute '.b' without a call"),
    ("x = {1, 2}\n", 1, 5, "the language has no sets"),
    ("x = any(a for a in b)\n", 1, 8, "the language has no generators"),
    ("x = a / b\n", 1, 5, "the language has no '/'"),
    ("if a:\n  b()\n", 1, 1, "the language has no 'if' outside a function"),
    ("def f():\n  pass\n", 1, 1, "the language has no 'def' in BUILD files"),
    ("x += 1\n", 1, 1, "augmented assignment to a name outside a function"),
    ("f()\nload(':m.bzl', 'a')\n", 2, 1, "a load stands before all other statements"),
    ("x = 1\r\n", 1, 6, "carriage return"),
]


@pytest.mark.parametrize("text, line, column, words", SYNTAX)
def test_syntax(text: str, line: int, column: int, words: str) -> None:
    around = [it for it in statements(text) if it.line <= line <= it.end_line]
    found = detail(BUILD, text, around[0], 3, 0)
    assert (found.span.line, found.span.column) == (line, column)
    assert found.text.startswith("syntax error: ")
    assert words in found.text


UNBOUND = [
    (BUILD, "filegrup(name = 'a')\n", 1, (1, 1), "filegrup"),
    (BUILD, "x = [a for a in b]\n", 1, (1, 17), "b"),
    (BUILD, "f = 1\nfilegroup(\n  name = 'a',\n  srcs = glob(ff),\n)\n", 2, (4, 15), "ff"),
    (BUILD, "x = y\ny = 1\n", 1, (1, 5), "y"),
    (BUILD, "x = native\n", 1, (1, 5), "native"),
    (MODULE, "x = glob(['*'])\n", 1, (1, 5), "glob"),
    (MODULE, "def f(a):\n  b = a\n  return b + c\n", 3, (3, 14), "c"),
    (MODULE, "def f(a):\n  if a:\n    b = 1\n  elif bb:\n    b = 2\n", 4, (4, 8), "bb"),
    (MODULE, "def f(a):\n  for i in a + bb:\n    g(i)\n", 2, (2, 16), "bb"),
    (MODULE, "def f():\n  x = y\n  y = 1\n", 2, (2, 7), "y"),
    (MODULE, "def f(a = b):\n  pass\n", 1, (1, 11), "b"),
]


@pytest.mark.parametrize("path, text, line, place, name", UNBOUND)
def test_unbound_names(path: Path, text: str, line: int, place: tuple[int, int], name: str) -> None:
    around = [it for it in statements(text) if it.line <= line <= it.end_line]
    found = detail(path, text, around[0], 4, line)
    assert (found.span.line, found.span.column) == place
    assert (found.text, found.name) == (f"name is not bound: {name}", name)


def exports(label: str) -> set[str] | None:
    return {"a"} if label == ":m.bzl" else None


LOADS = [
    ("load('@r//p:x.bzl', 'a')\n", 15, 6, "@r//p:x.bzl (other repositories are not read)"),
    ("load('//p:x', 'a')\n", 15, 6, "bad label or target name: //p:x"),
    ("load(':x.bzl', 'a')\n", 16, 6, "no such .bzl file: :x.bzl"),
    ("load(':m.bzl', 'a', b = 'c')\n", 18, 25, "name is not exported by the loaded file: c"),
]


@pytest.mark.parametrize("text, code, column, words", LOADS)
def test_loads(text: str, code: int, column: int, words: str) -> None:
    found = detail(BUILD, text, statements(text)[0], code, 1, exports)
    assert (found.span.line, found.span.column) == (1, column)
    assert words in found.text


def test_the_text_of_fail_is_shown() -> None:
    text = "x = fail('no such thing') if y else 1\n"
    found = detail(MODULE, text, statements(text)[0], 24, 1)
    assert (found.span.column, found.text) == (5, "fail was called: no such thing")


def test_the_name_of_a_second_target_is_shown() -> None:
    text = "filegroup(\n  name = 'a',\n)\n"
    found = detail(BUILD, text, statements(text)[0], 20, 1)
    assert (found.span.line, found.span.column) == (2, 10)
    assert found.text == "name of a target is used twice: a"


def test_a_byte_over_127_is_found() -> None:
    text = "x = 1\n# caf\x80"
    found = detail(BUILD, text, statements(text)[0], 2, 2)
    assert (found.span.line, found.span.column) == (2, 6)


def test_universal_names_are_those_of_the_document() -> None:
    text = (REPOSITORY / "docs" / "LANGUAGE.md").read_text()
    table = text.split("## Functions")[1].split("Wrong arguments are")[0]
    rows = [line.split("|")[1] for line in table.splitlines() if line.startswith("| `")]
    assert rows
    assert FUNCTIONS == {name for row in rows for name in re.findall(r"`(\w+)[(`]", row)}
    line = next(it for it in text.splitlines() if it.startswith("**Universal names.**"))
    named = re.search(r"BUILD files also have `([^`]*)`", line)
    assert named and PACKAGE_CALLS == set(named[1].split())
