"""Parts of the bridge whose answers are written by hand: labels, templates, text of statements."""

from __future__ import annotations

import ast

import pytest
from hypothesis import given
from hypothesis import strategies as st

from sefgulaw.bridge.formats import BadTemplate, Field, braces, percent
from sefgulaw.bridge.labels import shown_label, told_label
from sefgulaw.bridge.rewriting import rewrite
from sefgulaw.bridge.scope import CannotRewrite, Known
from sefgulaw.bridge.writing import literal
from sefgulaw.names import decode

BYTES = st.text(st.characters(max_codepoint=255))
CODES = st.text(st.sampled_from('_x4f1\x80"\\\n%{}'))
WORDS = st.lists(st.one_of(st.sampled_from(["%s", "%d", "%%", "{}", "{{", "}}"]), BYTES))


@pytest.mark.parametrize(
    ("label", "told"),
    [
        ("a.c", "a.c"),
        (":a", ":a"),
        ("//p:t", "//p:t"),
        ("//p", "//p"),
        ("@//p:t", "//p:t"),
        ("@@//p:t", "//p:t"),
        ("c++.c", "c__x2b__x2b.c"),
        ("@repo//p:t", "//__x40repo/p:t"),
        ("@repo//p/q", "//__x40repo/p/q:q"),
        ("@repo//:t", "//__x40repo:t"),
        ("@repo", "//__x40repo:repo"),
        ("@@repo+//p:t", "//__x40__x40repo__x2b/p:t"),
        ("@io_grpc//:grpc++", "//__x40io_grpc:grpc__x2b__x2b"),
        ("", None),
        ("//p:", None),
        ("a/../b", None),
        ("/usr/lib/x", None),
        ("a//b", None),
    ],
)
def test_labels_as_the_loader_is_told_them(label: str, told: str | None) -> None:
    assert told_label(label) == told


@pytest.mark.parametrize("label", ["@own//p:t", "@@own//p:t", "@//p:t", "//p:t"])
def test_the_tree_by_its_own_name(label: str) -> None:
    assert told_label(label, frozenset(["own"])) == "//p:t"
    assert told_label("@owner//p:t", frozenset(["own"])) == "//__x40owner/p:t"


@pytest.mark.parametrize(
    ("told", "shown"),
    [
        ("//p:t", "//p:t"),
        ("//__x40repo/p:t", "@repo//p:t"),
        ("//__x40repo:t", "@repo//:t"),
        ("//__x40__x40repo__x2b/p/q:t", "@@repo__x2b//p/q:t"),
    ],
)
def test_labels_as_they_are_shown(told: str, shown: str) -> None:
    assert shown_label(told) == shown


def test_templates_of_percent() -> None:
    assert percent("a%sb%%%r") == ["a", Field(0, "str"), "b%", Field(1, "repr")]
    assert percent("%(x)s.%(y)d") == [Field("x", "str"), ".", Field("y", "str")]
    assert percent("plain") == ["plain"]
    for bad in ("%x", "%", "%s%(a)s", "%5d"):
        with pytest.raises(BadTemplate):
            percent(bad)


def test_templates_of_format() -> None:
    assert braces("a{}b{}") == ["a", Field(0, "str"), "b", Field(1, "str")]
    assert braces("{1}{x}{{}}") == [Field(1, "str"), Field("x", "str"), "{}"]
    for bad in ("{", "}", "{a.b}", "{:>3}", "{a!r}"):
        with pytest.raises(BadTemplate):
            braces(bad)


def test_loads_come_first_behind_a_leading_string() -> None:
    text = (
        '"""Doc."""\n'
        "package(default_visibility = [])\n"
        "\n"
        'load("//a:b.bzl", "x", y = "z")\n'
        "x(\n"
        '    name = "n",\n'
        ")\n"
    )
    rewritten = rewrite(text, Known(lambda label: {"x", "z"} if label == "//a:b.bzl" else None))
    assert rewritten.text == ('"Doc."\nload("//a:b.bzl", x = "x", y = "z")\nx(name = "n")\n')
    assert rewritten.lines == (1, 4, 5)


def test_a_rule_becomes_a_filegroup_that_says_what_it_was() -> None:
    text = 'cc_library(\n    name = "c++",\n    srcs = ["a.c"],\n    copts = ["-O"],\n)\n'
    mark = "//__x73:srcs"
    assert rewrite(text, Known()).text == (
        f'filegroup(name = "c__x2b__x2b", srcs = ["{mark}", "a.c"], '
        'tags = ["==cc_library", "copts=[\\"-O\\"]"])\n'
    )


def test_a_rule_whose_value_is_bound_is_declared() -> None:
    told = rewrite('x = cc_library(name = "a")\ny = cc_library()\n', Known()).text
    assert told.startswith('x = filegroup(name = "a", ')
    assert told.endswith("y = None\n")


def test_a_name_that_nothing_has_stays() -> None:
    assert rewrite('cc_libary(name = "a")\n', Known()).text == 'cc_libary(name = "a")\n'
    assert "filegroup" in rewrite('cc_libary(name = "a")\n', Known(rules=["cc_libary"])).text


@pytest.mark.parametrize(
    ("text", "line", "why"),
    [
        ("x = 1\ny = lambda: 1\n", 2, "a lambda"),
        ("def f():\n    pass\n", 1, "a function"),
        ("x = 1\nf(*x)\n", 2, "'*' in a call"),
        ("f(**x)\n", 1, "'**' in a call"),
        ('cc_test(name = "a", x = 1, x = 2)\n', 1, "the argument 'x' twice"),
        ("x = ~1\n", 1, "the operator '~'"),
        ("x = 2 ** 3\n", 1, "the operator '**'"),
        ("x = 1.5\n", 1, "a value of type float"),
        ("x = [1][::2]\n", 1, "a slice with a step"),
        ("x = (1\n", 1, "'(' was never closed"),
        ('x = "%x" % 1\n', 1, "'%x' in a template"),
    ],
)
def test_what_cannot_be_rewritten_is_said(text: str, line: int, why: str) -> None:
    with pytest.raises(CannotRewrite) as raised:
        rewrite(text, Known())
    assert (raised.value.line, raised.value.why) == (line, why)


def test_what_is_not_known_is_noted() -> None:
    text = (
        'load("@a//:b.bzl", "COPTS", "rule", "macro")\n'
        'rule(name = "x", copts = COPTS + ["-a"])\n'
        'macro("y")\n'
    )
    replaced = rewrite(text, Known()).replaced
    assert replaced.rules == {"rule": 1}
    assert replaced.loads == [(1, "@a//:b.bzl")]
    assert replaced.values == [(2, "COPTS")]
    assert replaced.nameless == [(3, "macro")]


@given(st.one_of(BYTES, CODES))
def test_a_literal_keeps_the_bytes_of_a_string(text: str) -> None:
    written = literal(text)
    assert written.isascii() and written.isprintable()
    assert decode(ast.literal_eval(written)).decode("latin-1") == text


@given(WORDS)
def test_pieces_of_percent_are_put_together_as_python_does(words: list[str]) -> None:
    template = "".join(words)
    try:
        pieces = percent(template)
    except BadTemplate:
        return
    values = tuple(range(10, 10 + sum(isinstance(it, Field) for it in pieces)))
    if any(isinstance(it, Field) and isinstance(it.key, str) for it in pieces):
        return
    shown = [it if isinstance(it, str) else str(values[int(it.key)]) for it in pieces]
    assert "".join(shown) == template % values


@given(WORDS)
def test_pieces_of_format_are_put_together_as_python_does(words: list[str]) -> None:
    template = "".join(words)
    try:
        pieces = braces(template)
    except BadTemplate:
        return
    keys = [it.key for it in pieces if isinstance(it, Field)]
    if any(isinstance(it, str) for it in keys) or "{" in template.replace("{{", "").replace(
        "{}", ""
    ):
        return
    values = [f"v{number}" for number in range(len(keys))]
    shown = [it if isinstance(it, str) else values[int(it.key)] for it in pieces]
    assert "".join(shown) == template.format(*values)
