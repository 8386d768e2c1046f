"""The query language's words, without a loader: what is read, and what is said of the rest."""

from __future__ import annotations

import pytest
from sefgulaw.names import BadLabel
from sefgulaw.query.parsing import BadQuery, Call, Expression, Let, Operation, Word, Words, parse
from sefgulaw.query.patterns import Wanted, read


def shape(expression: Expression) -> object:
    """Returns an expression as nested tuples."""
    if isinstance(expression, Word):
        return expression.text
    if isinstance(expression, Words):
        return ("set", *(word.text for word in expression.words))
    if isinstance(expression, Let):
        return ("let", expression.name, shape(expression.value), shape(expression.body))
    if isinstance(expression, Call):
        return (expression.name, *map(shape, expression.arguments))
    assert isinstance(expression, Operation)
    found = shape(expression.first)
    for operator, right in expression.rest:
        found = (operator, found, shape(right))
    return found


@pytest.mark.parametrize(
    ("text", "expected"),
    [
        ("//a:b", "//a:b"),
        ("deps(//a:b, 2)", ("deps", "//a:b", "2")),
        ("a + b - c ^ d", ("intersect", ("except", ("union", "a", "b"), "c"), "d")),
        ("a union b intersect c", ("intersect", ("union", "a", "b"), "c")),
        ("a except (b + c)", ("except", "a", ("union", "b", "c"))),
        ("a+b", ("union", "a", "b")),
        ("a-b", "a-b"),
        ("a -b", ("except", "a", "b")),
        ("set()", ("set",)),
        ("set(a b  //c:d)", ("set", "a", "b", "//c:d")),
        ("let v = deps(a) in $v - b", ("let", "v", ("deps", "a"), ("except", "$v", "b"))),
        ("a + let x = b in $x + c", ("union", "a", ("let", "x", "b", ("union", "$x", "c")))),
        ("kind('cc_.*', \"//a:c++.c\")", ("kind", "cc_.*", "//a:c++.c")),
        ("a:union + union_x + 'in' + innocent", None),
        ("//...:* + //a/...:all", ("union", "//...:*", "//a/...:all")),
        ("set", BadQuery),
        ("deps", "deps"),
    ],
)
def test_what_is_read(text: str, expected: object) -> None:
    if expected is BadQuery:
        with pytest.raises(BadQuery):
            parse(text)
    elif expected is not None:
        assert shape(parse(text)) == expected
    else:
        parse(text)


@pytest.mark.parametrize(
    ("text", "words"),
    [
        ("", "it is empty"),
        ("a b", "column 3: an operator or the end is expected, and not 'b'"),
        ("deps(a,)", "column 8: '(', 'let', 'set(', a function or a word is expected, and not ')'"),
        ("a + ", "a word is expected, and not the end"),
        ("let x = a", "column 9: 'in' is expected, and not the end"),
        ("a ; b", "column 3: ';' begins nothing"),
        ("'a", 'column 1: "\'" begins nothing'),
        ("(" * 200 + "a" + ")" * 200, "it is nested too deep"),
        (" " * 300_000, "it has over 262,144 characters"),
    ],
)
def test_what_cannot_be_read_is_said_with_its_column(text: str, words: str) -> None:
    with pytest.raises(BadQuery) as found:
        parse(text)
    assert str(found.value).startswith("the expression cannot be read: ")
    assert words in str(found.value)


def test_long_operations_are_no_deep_ones() -> None:
    found = parse(" + ".join(["//a:b"] * 3_000))
    assert isinstance(found, Operation) and len(found.rest) == 2_999


PACKAGES = {"", "a", "a/b", "x"}


@pytest.mark.parametrize(
    ("text", "at", "expected"),
    [
        ("//a", "", ("a", False, "a", False)),
        ("//a/b", "x", ("a/b", False, "b", False)),
        ("//a:c", "x", ("a", False, "c", False)),
        ("@//a:c", "", ("a", False, "c", False)),
        ("//a:all", "", ("a", False, None, False)),
        ("//a:*", "", ("a", False, None, True)),
        ("//a/...", "", ("a", True, None, False)),
        ("//a/...:all-targets", "", ("a", True, None, True)),
        ("...", "a", ("a", True, None, False)),
        (":c", "a", ("a", False, "c", False)),
        ("c", "a", ("a", False, "c", False)),
        ("b", "a", ("a/b", False, "b", False)),
        ("b/c/d", "a", ("a/b", False, "c/d", False)),
        ("a/BUILD", "", ("a", False, "BUILD", False)),
        ("c", "", ("", False, "c", False)),
        ("../x:y", "a", ("x", False, "y", False)),
        ("//:top", "a", ("", False, "top", False)),
    ],
)
def test_patterns(text: str, at: str, expected: tuple[object, ...]) -> None:
    found = read(text, at, PACKAGES.__contains__)
    assert isinstance(found, Wanted) and tuple(found) == expected


@pytest.mark.parametrize(
    "text", ["//", "@other//a:b", "/a", "//a//b", "//a:", "../..", "-x", "a/../.."]
)
def test_patterns_that_cannot_be_read(text: str) -> None:
    assert isinstance(read(text, "a", PACKAGES.__contains__), BadLabel)
