"""What a text declares and binds, without the loader: for places in texts that were not saved."""

from __future__ import annotations

import ast
from collections.abc import Iterator
from typing import NamedTuple

from sefgulaw.text import Span, parse, statements

RULES = {
    "alias": ("actual",),
    "filegroup": ("srcs", "data"),
    "genrule": ("srcs", "tools", "outs", "cmd"),
    "test_suite": ("tests",),
}
COMMON = ("name", "tags", "visibility")
FUNCTIONS = (
    "all any bool dict enumerate fail getattr glob hasattr int len list load max min package_name"
    " print range repr reversed sorted str tuple type zip"
).split()


class Symbol(NamedTuple):
    """A target or a name, with the statement that makes it."""

    name: str
    kind: str
    span: Span


class Loaded(NamedTuple):
    """A name that a load binds, with the label and the name that the module has for it."""

    name: str
    label: str
    original: str


def trees(text: str) -> Iterator[tuple[Span, ast.stmt]]:
    """Yields the statements that can be read, each with its place."""
    for span in statements(text):
        tree = parse(text, span)
        for node in tree.body if isinstance(tree, ast.Module) else ():
            yield span, node


def targets(text: str) -> Iterator[Symbol]:
    """Yields the calls at file level that are given a literal name."""
    for span, node in trees(text):
        call = node.value if isinstance(node, ast.Expr) else None
        if not isinstance(call, ast.Call) or not isinstance(call.func, (ast.Name, ast.Attribute)):
            continue
        kind = call.func.id if isinstance(call.func, ast.Name) else call.func.attr
        for keyword in call.keywords:
            value = keyword.value
            if keyword.arg == "name" and isinstance(value, ast.Constant):
                yield Symbol(str(value.value), kind, span)


def bindings(text: str) -> Iterator[Symbol]:
    """Yields the functions and the names that a file binds itself."""
    for span, node in trees(text):
        if isinstance(node, ast.FunctionDef):
            yield Symbol(node.name, "function", span)
        elif isinstance(node, ast.Assign):
            for target in node.targets:
                for name in ast.walk(target):
                    if isinstance(name, ast.Name):
                        yield Symbol(name.id, "variable", span)


def loaded(text: str) -> Iterator[Loaded]:
    """Yields the names that the loads of a file bind."""
    for _, node in trees(text):
        call = node.value if isinstance(node, ast.Expr) else None
        if not isinstance(call, ast.Call) or not isinstance(call.func, ast.Name):
            continue
        texts = [it.value for it in call.args if isinstance(it, ast.Constant)]
        if call.func.id != "load" or not texts:
            continue
        for name in texts[1:]:
            yield Loaded(str(name), str(texts[0]), str(name))
        for keyword in call.keywords:
            if keyword.arg is not None and isinstance(keyword.value, ast.Constant):
                yield Loaded(keyword.arg, str(texts[0]), str(keyword.value.value))


def in_load(text: str, line: int) -> str | None:
    """Returns the label of the load statement that a line (from 0) is in."""
    for span, node in trees(text):
        if span.line <= line + 1 <= span.end_line and isinstance(node, ast.Expr):
            call = node.value
            if isinstance(call, ast.Call) and isinstance(call.func, ast.Name):
                first = call.args[0] if call.args else None
                if call.func.id == "load" and isinstance(first, ast.Constant):
                    return str(first.value)
    return None


def called_around(text: str, line: int) -> str | None:
    """Returns the name of the function that the statement around a line (from 0) calls."""
    lines = text.split("\n")
    for span in statements(text):
        if span.line <= line + 1 <= span.end_line:
            head, bracket, _ = lines[span.line - 1].partition("(")
            return head.strip() if bracket else None
    return None
