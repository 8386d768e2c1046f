"""What the language leaves out of Python, found in a statement that Python's parser takes."""

from __future__ import annotations

import ast
import io
import re
import tokenize
from collections.abc import Iterator
from typing import NamedTuple

LARGEST = 9_223_372_036_854_775_807

_PREFIXED = re.compile(r"[A-Za-z]")
_NUMBER = re.compile(r"0|[1-9][0-9]*")
_ESCAPES = re.compile(r"\\[^\\\"'nrt]")

_STATEMENTS: dict[type[ast.stmt], str] = {
    ast.While: "'while'",
    ast.Delete: "'del'",
    ast.Import: "'import'",
    ast.ImportFrom: "'import'",
    ast.ClassDef: "'class'",
    ast.With: "'with'",
    ast.Try: "'try'",
    ast.Raise: "'raise'",
    ast.Assert: "'assert'",
    ast.Global: "'global'",
    ast.Nonlocal: "'nonlocal'",
    ast.AnnAssign: "annotations",
    ast.AsyncFunctionDef: "'async'",
    ast.AsyncFor: "'async'",
    ast.AsyncWith: "'async'",
    ast.Match: "'match'",
}
_EXPRESSIONS: dict[type[ast.expr], str] = {
    ast.Lambda: "'lambda'",
    ast.Set: "sets",
    ast.SetComp: "sets",
    ast.GeneratorExp: "generators",
    ast.JoinedStr: "f-strings",
    ast.NamedExpr: "':='",
    ast.Yield: "'yield'",
    ast.YieldFrom: "'yield'",
    ast.Await: "'await'",
    ast.Starred: "'*' before an expression",
}
_OPERATORS: dict[type[ast.operator], str] = {
    ast.Div: "'/'",
    ast.Pow: "'**'",
    ast.BitOr: "'|'",
    ast.BitAnd: "'&'",
    ast.BitXor: "'^'",
    ast.LShift: "'<<'",
    ast.RShift: "'>>'",
    ast.MatMult: "'@'",
}


class LeftOut(NamedTuple):
    """Something that the language does not have, and where it stands. Lines count from 1."""

    line: int
    column: int
    words: str


def first_left_out(tree: ast.Module, piece: str, first: int, is_build: bool) -> LeftOut | None:
    """Returns what stands first in a statement that the language does not have.

    `piece` is the statement's text and `first` its line in the file, by which the tree counts.
    """
    found = [*_in_tokens(piece, first), *_at_file_level(tree, is_build), *_in_tree(tree)]
    return min(found, default=None)


def _at(node: ast.AST, words: str) -> LeftOut:
    return LeftOut(getattr(node, "lineno", 1), getattr(node, "col_offset", 0) + 1, words)


def _at_file_level(tree: ast.Module, is_build: bool) -> Iterator[LeftOut]:
    for node in tree.body:
        if isinstance(node, ast.If):
            yield _at(node, "'if' outside a function")
        elif isinstance(node, ast.For):
            yield _at(node, "'for' outside a function")
        elif isinstance(node, ast.FunctionDef) and is_build:
            yield _at(node, "'def' in BUILD files")
        elif isinstance(node, ast.Return):
            yield _at(node, "'return' outside a function")
        elif isinstance(node, ast.AugAssign) and isinstance(node.target, ast.Name):
            yield _at(node, "augmented assignment to a name outside a function")


def _in_tree(tree: ast.Module) -> Iterator[LeftOut]:
    called = {id(node.func) for node in ast.walk(tree) if isinstance(node, ast.Call)}
    for node in ast.walk(tree):
        if isinstance(node, ast.stmt):
            yield from _in_statement(node)
        elif isinstance(node, ast.expr):
            yield from _in_expression(node, id(node) in called)
        if isinstance(node, (ast.BinOp, ast.AugAssign)) and type(node.op) in _OPERATORS:
            yield _at(node, _OPERATORS[type(node.op)])


def _in_statement(node: ast.stmt) -> Iterator[LeftOut]:
    if type(node) in _STATEMENTS:
        yield _at(node, _STATEMENTS[type(node)])
    if isinstance(node, ast.FunctionDef):
        arguments = node.args
        if arguments.vararg or arguments.kwarg or arguments.kwonlyargs or arguments.posonlyargs:
            yield _at(node, "parameters with '*' or '/'")
        if node.decorator_list:
            yield _at(node, "decorators")
        annotated = [*arguments.args, *([node] if node.returns else [])]
        if any(getattr(one, "annotation", None) or one is node for one in annotated):
            yield _at(node, "annotations")
        for inner in ast.walk(node):
            if inner is not node and isinstance(inner, ast.FunctionDef):
                yield _at(inner, "functions inside functions")
    if isinstance(node, (ast.For, ast.While)) and node.orelse:
        yield _at(node.orelse[0], "'else' of a loop")


def _in_expression(node: ast.expr, is_called: bool) -> Iterator[LeftOut]:
    if type(node) in _EXPRESSIONS:
        yield _at(node, _EXPRESSIONS[type(node)])
    elif isinstance(node, ast.Attribute) and not is_called:
        yield _at(node, f"attribute '.{node.attr}' without a call")
    elif isinstance(node, ast.Call):
        for keyword in node.keywords:
            if keyword.arg is None:
                yield _at(keyword.value, "'**' before an argument")
    elif isinstance(node, ast.Constant):
        yield from _in_constant(node)
    elif isinstance(node, ast.Compare):
        if len(node.ops) > 1:
            yield _at(node, "chains of comparisons")
        if any(isinstance(op, (ast.Is, ast.IsNot)) for op in node.ops):
            yield _at(node, "'is'")
    elif isinstance(node, ast.UnaryOp) and isinstance(node.op, ast.Invert):
        yield _at(node, "'~'")
    elif isinstance(node, ast.Subscript) and isinstance(node.slice, ast.Slice):
        if node.slice.step is not None:
            yield _at(node.slice.step, "steps of slices")
    elif isinstance(node, ast.Dict) and None in node.keys:
        yield _at(node, "'**' in a dictionary")


def _in_constant(node: ast.Constant) -> Iterator[LeftOut]:
    value: object = node.value
    if isinstance(value, (float, complex)):
        yield _at(node, "floats")
    elif isinstance(value, bytes):
        yield _at(node, "strings of bytes")
    elif value is Ellipsis:
        yield _at(node, "'...'")
    elif isinstance(value, int) and value > LARGEST:
        yield _at(node, "whole numbers of over 64 bits")


def _in_tokens(piece: str, first: int) -> Iterator[LeftOut]:
    """Finds what Python's tree does not show: how strings and numbers are written, and `;`."""
    before = None
    try:
        for token in tokenize.generate_tokens(io.StringIO(piece + "\n").readline):
            line, column = token.start[0] + first - 1, token.start[1] + 1
            if token.type == tokenize.STRING:
                if before == tokenize.STRING:
                    yield LeftOut(line, column, "strings side by side")
                if _PREFIXED.match(token.string):
                    yield LeftOut(line, column, "raw strings and other strings with a prefix")
                elif _ESCAPES.search(token.string.replace("\\\\", "")):
                    yield LeftOut(line, column, "escapes but \\\\ \\\" \\' \\n \\t \\r")
            elif token.type == tokenize.NUMBER and not _NUMBER.fullmatch(token.string):
                yield LeftOut(line, column, f"numbers written as {token.string}")
            elif token.string == ";" and token.type == tokenize.OP:
                yield LeftOut(line, column, "';'")
            elif token.type == tokenize.INDENT and "\t" in token.string:
                yield LeftOut(line, 1, "tabs in an indentation")
            if token.type not in (tokenize.NL, tokenize.COMMENT):
                before = token.type
    except (tokenize.TokenError, IndentationError, SyntaxError):
        return
