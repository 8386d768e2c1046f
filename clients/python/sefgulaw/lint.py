"""Names that nothing binds, in functions that nothing calls: what the loader cannot see.

The loader evaluates what is called. So a name that is not bound is a fault of the package where a
call comes to it, and nobody is told of it in a function that no BUILD file calls yet. In a tree for
Bazel nothing is said, since Bazel binds names that are not known here.
"""

from __future__ import annotations

import ast
from collections.abc import Iterable, Iterator, Set
from dataclasses import replace

from sefgulaw.messages import Message
from sefgulaw.names import Path, parent, real
from sefgulaw.requests import Answer, Question, Tree
from sefgulaw.text import Span, names_bound, parse

UNIVERSAL = frozenset(
    """
    None True False all any bool dict enumerate fail hasattr getattr int len list max min print
    range repr reversed sorted str tuple type zip
    """.split()
)
NATIVE = frozenset("alias filegroup genrule glob native package_name test_suite".split())
CODE = "unbound"


def unbound_names(module: ast.Module, known: Set[str]) -> Iterator[ast.Name]:
    """Yields each name in the body of a function that neither the function nor the file binds."""
    for node in module.body:
        if isinstance(node, ast.FunctionDef):
            yield from _in_function(node, known)


def _in_function(function: ast.FunctionDef, known: Set[str]) -> Iterator[ast.Name]:
    arguments = function.args
    given = [*arguments.posonlyargs, *arguments.args, *arguments.kwonlyargs]
    given += [it for it in (arguments.vararg, arguments.kwarg) if it is not None]
    names = [
        node
        for statement in function.body
        for node in ast.walk(statement)
        if isinstance(node, ast.Name)
    ]
    own = {node.id for node in names if isinstance(node.ctx, ast.Store)}
    own |= {argument.arg for argument in given}
    seen: set[str] = set()
    for node in sorted(names, key=lambda it: (it.lineno, it.col_offset)):
        if node.id not in own and node.id not in known and node.id not in seen:
            seen.add(node.id)
            yield node


def text_warnings(path: Path, text: str, packages: Iterable[str]) -> Iterator[Message]:
    """Yields a warning for each such name of a source."""
    module = parse(text)
    if not isinstance(module, ast.Module):
        return
    known = UNIVERSAL | NATIVE | names_bound(text)
    for node in unbound_names(module, known):
        end = node.col_offset + len(node.id)
        span = Span(node.lineno, node.col_offset + 1, node.lineno, end + 1)
        words = f"name is not bound: {node.id}"
        yield Message(real(path), span, words, CODE, (), tuple(packages), "warning")


def warnings(tree: Tree, question: Question, checked: Answer) -> Answer:
    """Adds to an answer of `check` the warnings about the files that its packages read."""
    base = tree.base
    names, messages = tree.loaded(question)
    if base.bridge.is_on:
        return checked
    shown = {(it.file, it.span.line, it.text) for it in messages}
    builds = [base.build_file(name) for name in names]
    found: list[Message] = []
    for path in sorted(set(base.needs.load_order(builds))):
        if base.bridge.is_stand_in(path):
            continue
        text = base.content(path).decode("latin-1")
        package = base.needs.nearest(parent(path)) or ""
        found += text_warnings(path, text, [real(package)])
    kept = [it for it in found if (it.file, it.span.line, it.text) not in shown]
    lines = [tree.message_line(it) for it in kept]
    words = f", {len(kept):,} warning{'' if len(kept) == 1 else 's'}" if kept else ""
    end = replace(checked.end, summary=checked.end.summary + words)
    return Answer(end, iter([*checked.lines, *lines]))
