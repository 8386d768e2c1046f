"""Statements, loads and bound names of texts, against texts whose answers are written by hand."""

from __future__ import annotations

import ast

import pytest

from sefgulaw.text import (
    Span,
    Trouble,
    load_labels,
    loads,
    names_bound,
    parse,
    statements,
)

SOURCE = '''"""A module."""

load("//a:x.bzl", "X", y = "Y")  # comment

# Only a comment.
V = [
    1,
]

def f(a):
    """Text with ( in it."""

    return a

cc_library(name = "n")
'''


def lines_of(text: str) -> list[tuple[int, int]]:
    return [(span.line, span.end_line) for span in statements(text)]


def test_statements_of_a_text_that_parses() -> None:
    assert lines_of(SOURCE) == [(1, 1), (3, 3), (6, 8), (10, 13), (15, 15)]
    assert statements(SOURCE)[1] == Span(3, 1, 3, 43)


def test_the_beginning_of_a_call_at_the_first_column_is_no_statement() -> None:
    assert lines_of('f(\ng(1),\nname = "a"\n)\nh()\n') == [(1, 4), (5, 5)]


def test_an_open_bracket_ends_before_the_next_statement() -> None:
    assert lines_of("a = [1,\n\nb = 2\nc(\n    3)\n") == [(1, 1), (3, 3), (4, 5)]


def test_an_open_bracket_and_one_too_many_are_two_statements() -> None:
    assert lines_of("a = (1\nb = 2\nc = 3)\nd = 4\n") == [(1, 1), (2, 2), (3, 3), (4, 4)]


def test_a_long_string_hides_brackets_and_words() -> None:
    assert lines_of('a = """\nload("//b:c.bzl", "d")\n((\n"""\ne = 1\n') == [(1, 4), (5, 5)]


def test_many_open_brackets_take_no_long_time() -> None:
    text = "a(\n" * 50_000
    assert len(statements(text)) == 50_000


def test_empty_texts_have_no_statements() -> None:
    assert statements("") == []
    assert statements("\n# only this\n\n") == []


def test_loads_have_their_meaning_and_place() -> None:
    found = loads('load(\n    # why\n    "//a:b.bzl",\n    "c",\n)\nload(\'d\\"e.bzl\', "f")\n')
    assert [load.label for load in found] == ["//a:b.bzl", 'd"e.bzl']
    assert found[0].span == Span(3, 5, 3, 16)
    assert found[1].span == Span(6, 6, 6, 16)


@pytest.mark.parametrize(
    ("text", "labels"),
    [
        ('load("a.bzl", "x")', ["a.bzl"]),
        ('load  ( \n\n"a.bzl", "x")', ["a.bzl"]),
        ('load("""a\n.bzl""", "x")', ["a\n.bzl"]),
        ("load('''a.bzl''', 'x')", ["a.bzl"]),
        ('load("a\\tb", "x")', ["a\tb"]),
        (' load("a.bzl", "x")', []),
        ('x = load("a.bzl", "x")', []),
        ('load(x, "a.bzl")', []),
        ('loads("a.bzl", "x")', []),
    ],
)
def test_load_labels(text: str, labels: list[str]) -> None:
    assert load_labels(text) == labels


def test_names_bound() -> None:
    assert names_bound(SOURCE) == {"X", "y", "V", "f"}
    text = "a, (b, [c]) = x\nd += 1\nf(g = 1)\n[h for h in i]\n"
    assert names_bound(text) == {"a", "b", "c", "d"}


def test_names_bound_by_statements_that_do_not_parse() -> None:
    text = 'load("//a:b.bzl", "c", d = "e"\nf = [1\ng(h = 1\ndef i(:\nj = 1\n'
    assert names_bound(text) == {"c", "d", "f", "i", "j"}


def test_parse_keeps_the_lines_of_the_file() -> None:
    tree = parse(SOURCE, Span(6, 1, 8, 2))
    assert isinstance(tree, ast.Module)
    assert tree.body[0].lineno == 6


def test_parse_tells_the_place_of_a_trouble() -> None:
    text = "a = 1\nb = f(1\n"
    trouble = parse(text, Span(2, 1, 2, 8))
    assert trouble == Trouble(Span(2, 6, 2, 7), "'(' was never closed")


@pytest.mark.parametrize("text", ["\x00", "(" * 5000, "-" * 100_000 + "1", "[" * 90 + "1"])
def test_parse_says_something_of_what_python_cannot_take(text: str) -> None:
    trouble = parse(text)
    assert isinstance(trouble, Trouble)
    assert trouble.message
