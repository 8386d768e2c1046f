"""What can be said of a fault inside the statement that has it: the column, and names in the words.

The loader tells a fault's number and mostly its line. What stands here is read from the text by
Python's parser, which takes nearly the same language. Where it cannot tell more, the message has
the words of the table and the place of the statement.
"""

from __future__ import annotations

import ast
import re
from collections.abc import Callable, Iterable, Iterator
from typing import NamedTuple

from sefgulaw.left_out import first_left_out
from sefgulaw.messages import FAULTS
from sefgulaw.names import Path, is_build
from sefgulaw.telling import control_byte
from sefgulaw.text import LoadText, Span, Trouble, loads, names_bound, parse, statements

NOT_ASCII, SYNTAX, UNBOUND, TOO_DEEP = 2, 3, 4, 12
NO_PACKAGE, BAD_LABEL, NO_MODULE, BOUNDARY, NOT_EXPORTED = 1, 15, 16, 17, 18
TWICE, FAIL_CALLED = 20, 24
OF_LOADS = (NO_PACKAGE, BAD_LABEL, NO_MODULE, BOUNDARY, NOT_EXPORTED)

FUNCTIONS = frozenset(
    "len range str repr type sorted reversed enumerate zip list tuple bool dict any all min max"
    " fail".split()
)
PACKAGE_CALLS = frozenset("glob filegroup genrule alias test_suite package_name".split())

_LINE_OF_PIECE = re.compile(r" \(detected at line \d+\)| on line (\d+)")


class Detail(NamedTuple):
    """A place within a statement, and the message's words. `name` is the name that is not bound."""

    span: Span
    text: str
    name: str = ""


Exports = Callable[[str], "set[str] | None"]
"""Gives the names that the module of a label, as a file writes it, exports."""


def no_exports(_label: str) -> set[str] | None:
    """Knows no module."""
    return None


def detail(
    path: Path, text: str, statement: Span, code: int, line: int, exports: Exports = no_exports
) -> Detail:
    """Returns what can be said of a fault of this number in a statement of a file.

    `line` is the line that the loader tells, or 0.
    """
    words = FAULTS[code].message if code in FAULTS else f"fault {code}"
    if code == NOT_ASCII:
        return Detail(_not_ascii(text, line), words)
    if code == SYNTAX:
        return _of_syntax(path, text, statement, words)
    tree = parse(text, statement)
    if isinstance(tree, Trouble):
        return Detail(statement, words)
    load = _load_in(text, statement)
    if load is not None and code in OF_LOADS:
        return _of_load(tree, load, code, words, exports)
    node = _innermost(tree, line)
    if node is None:
        return Detail(statement, words)
    return _of_node(path, text, tree, node, code, words) or Detail(_span(node), words)


def _of_node(
    path: Path, text: str, tree: ast.Module, node: ast.stmt, code: int, words: str
) -> Detail | None:
    if code == UNBOUND:
        found = _unbound(path, text, tree, node)
        return Detail(_span(found), f"{words}: {found.id}", found.id) if found else None
    if code == FAIL_CALLED:
        return _fail(node, words)
    if code == TWICE:
        return _twice(node, words)
    return None


def _span(node: ast.expr | ast.stmt) -> Span:
    end_line, end_column = node.end_lineno or node.lineno, (node.end_col_offset or 0) + 1
    if isinstance(node, (ast.FunctionDef, ast.For, ast.If)):
        end_line, end_column = node.lineno, node.col_offset + 1
    return Span(node.lineno, node.col_offset + 1, end_line, end_column)


def _not_ascii(text: str, line: int) -> Span:
    lines = text.split("\n")
    one = lines[line - 1] if 0 < line <= len(lines) else ""
    at = next((at for at, byte in enumerate(one) if ord(byte) > 127), 0)
    return Span(max(line, 1), at + 1, max(line, 1), at + 2)


# Syntax.


def _of_syntax(path: Path, text: str, statement: Span, words: str) -> Detail:
    first = statement.line
    piece = "\n".join(text.split("\n")[first - 1 : statement.end_line])
    control = control_byte(piece.encode("utf-8", "surrogateescape"))
    if control is not None:
        line, column, name = control
        span = Span(line + first - 1, column, line + first - 1, column + 1)
        return Detail(span, f"{words}: {name}")
    tree = parse(text, statement)
    if isinstance(tree, Trouble):
        return Detail(tree.span, f"{words}: {_of_file(tree.message, first)}")
    left_out = first_left_out(tree, piece, first, is_build(path))
    if left_out is not None:
        span = Span(left_out.line, left_out.column, left_out.line, left_out.column + 1)
        return Detail(span, f"{words}: the language has no {left_out.words}")
    if _load_in(text, statement) is not None and _statement_before(text, statement):
        return Detail(statement, f"{words}: a load stands before all other statements")
    return Detail(statement, words)


def _of_file(message: str, first: int) -> str:
    """Returns Python's words with the lines of the file in place of those of the statement."""
    return _LINE_OF_PIECE.sub(
        lambda found: f" on line {int(found[1]) + first - 1}" if found[1] else "", message
    )


def _statement_before(text: str, statement: Span) -> bool:
    """Tells whether a statement that is no load stands before, but for a leading string."""
    for number, span in enumerate(statements(text)):
        if span.line >= statement.line:
            return False
        tree = parse(text, span)
        is_string = (
            isinstance(tree, ast.Module)
            and len(tree.body) == 1
            and isinstance(tree.body[0], ast.Expr)
            and isinstance(tree.body[0].value, ast.Constant)
        )
        if _load_in(text, span) is None and not (number == 0 and is_string):
            return True
    return False


# Loads.


def _load_in(text: str, statement: Span) -> LoadText | None:
    for load in loads("\n".join(text.split("\n")[statement.line - 1 : statement.end_line])):
        line, column, end_line, end_column = load.span
        more = statement.line - 1
        return LoadText(load.label, Span(line + more, column, end_line + more, end_column))
    return None


def _of_load(tree: ast.Module, load: LoadText, code: int, words: str, exports: Exports) -> Detail:
    if code == BAD_LABEL and load.label.startswith("@"):
        words += f": {load.label} (other repositories are not read)"
        return Detail(load.span, words)
    if code == NOT_EXPORTED:
        known = exports(load.label)
        for item in _items(tree):
            name = str(item.value)
            if known is not None and name not in known:
                return Detail(_span(item), f"{words}: {name}", name)
    return Detail(load.span, f"{words}: {load.label}")


def _items(tree: ast.Module) -> Iterator[ast.Constant]:
    """Yields the strings of a load statement that name what is loaded."""
    for node in tree.body:
        if isinstance(node, ast.Expr) and isinstance(node.value, ast.Call):
            for value in [*node.value.args[1:], *(it.value for it in node.value.keywords)]:
                if isinstance(value, ast.Constant) and isinstance(value.value, str):
                    yield value


# Evaluation.


def _innermost(tree: ast.Module, line: int) -> ast.stmt | None:
    """Returns the statement that begins at a line; without a line, the only statement."""
    if not line:
        return tree.body[0] if len(tree.body) == 1 else None
    innermost: ast.stmt | None = None
    for node in ast.walk(tree):
        if isinstance(node, ast.stmt) and node.lineno <= line <= (node.end_lineno or node.lineno):
            if innermost is None or node.lineno > innermost.lineno:
                innermost = node
    return innermost


def _own_expressions(node: ast.stmt) -> list[ast.AST]:
    """Returns what a statement evaluates itself, without the statements in it."""
    if isinstance(node, ast.If):
        return [node.test]
    if isinstance(node, ast.For):
        return [node.iter, node.target]
    if isinstance(node, ast.FunctionDef):
        return [it for it in [*node.args.defaults, *node.args.kw_defaults] if it is not None]
    return [node]


def _inner(node: ast.stmt) -> Iterator[ast.AST]:
    for part in _own_expressions(node):
        yield from ast.walk(part)


def _unbound(path: Path, text: str, tree: ast.Module, node: ast.stmt) -> ast.Name | None:
    """Returns the first name of a statement that nothing binds, or that is bound only later."""
    universal = FUNCTIONS | (PACKAGE_CALLS if is_build(path) else {"native"})
    inside = _function_around(tree, node)
    local = _names_stored(_inner(node), (ast.comprehension,))
    if inside is not None:
        local |= {argument.arg for argument in inside.args.args}
    used = sorted(
        (it for it in _inner(node) if isinstance(it, ast.Name) and isinstance(it.ctx, ast.Load)),
        key=lambda it: (it.lineno, it.col_offset),
    )
    anywhere = universal | local | names_bound(text)
    if inside is not None:
        anywhere |= _names_stored(ast.walk(inside))
    before = "\n".join(text.split("\n")[: tree.body[0].lineno - 1])
    so_far = universal | local | names_bound(before)
    if inside is not None:
        so_far |= _names_stored(it for it in ast.walk(inside) if _begins_before(it, node))
    for known in (anywhere, so_far):
        for name in used:
            if name.id not in known:
                return name
    return None


def _begins_before(one: ast.AST, node: ast.stmt) -> bool:
    return getattr(one, "lineno", node.lineno) < node.lineno


def _function_around(tree: ast.Module, node: ast.stmt) -> ast.FunctionDef | None:
    for one in tree.body:
        if isinstance(one, ast.FunctionDef) and one is not node and node in ast.walk(one):
            return one
    return None


def _names_stored(nodes: Iterable[ast.AST], within: tuple[type[ast.AST], ...] = ()) -> set[str]:
    """Returns the names that some nodes bind; with `within`, only those bound below such nodes."""
    found = set()
    for node in nodes:
        if within and not isinstance(node, within):
            continue
        for one in ast.walk(node) if within else [node]:
            if isinstance(one, ast.Name) and isinstance(one.ctx, ast.Store):
                found.add(one.id)
    return found


def _fail(node: ast.stmt, words: str) -> Detail | None:
    """The text of `fail`, where the statement has one call of it, with a literal text."""
    calls = [it for it in _inner(node) if isinstance(it, ast.Call) and _named(it, "fail")]
    if len(calls) != 1:
        return None
    call = calls[0]
    if len(call.args) == 1 and isinstance(call.args[0], ast.Constant):
        return Detail(_span(call), f"{words}: {call.args[0].value}")
    return Detail(_span(call), words)


def _twice(node: ast.stmt, words: str) -> Detail | None:
    """The name of the target, where the statement is one call with a literal name."""
    if isinstance(node, ast.Expr) and isinstance(node.value, ast.Call):
        name = literal_name(node.value)
        if name is not None:
            return Detail(_span(name), f"{words}: {name.value}")
    return None


def _named(call: ast.Call, name: str) -> bool:
    return isinstance(call.func, ast.Name) and call.func.id == name


def literal_name(call: ast.Call) -> ast.Constant | None:
    """Returns the string that is given as `name` to a call."""
    for keyword in call.keywords:
        if keyword.arg == "name" and isinstance(keyword.value, ast.Constant):
            return keyword.value if isinstance(keyword.value.value, str) else None
    return None
