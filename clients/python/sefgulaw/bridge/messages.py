"""Messages about faults of packages that were told rewritten, at the file's own places."""

from __future__ import annotations

import ast
from collections.abc import Collection, Iterator

from sefgulaw import details
from sefgulaw.bridge.natives import QUIET, RULES, SELECTS, VALUES
from sefgulaw.bridge.scope import UNIVERSAL
from sefgulaw.bridge.state import State
from sefgulaw.messages import FAULTS, Message, place
from sefgulaw.names import real
from sefgulaw.store import Fault
from sefgulaw.text import Span, names_bound, parse, statements

NOT_REWRITTEN = "not rewritten"


def fault_in(state: State, text: str, fault: Fault, rules: Collection[str]) -> Message:
    """Returns the message about a package's fault. `text` is the BUILD file's own."""
    file = real(state.path)
    if state.cannot is not None:
        words = f"cannot be rewritten for the loader: {state.cannot.why}"
        return Message(file, place(state.cannot.line), words, NOT_REWRITTEN)
    words = FAULTS[fault.code].message if fault.code in FAULTS else "unknown fault"
    if fault.path != state.path:
        return Message(real(fault.path), place(fault.line), words, fault.code)
    statement = _statement_at(text, fault.line)
    if statement is None:
        return Message(file, place(fault.line), words, fault.code)
    if fault.code == details.UNBOUND:
        found = next(_unbound(text, statement, rules), None)
        if found is not None:
            end = found.end_col_offset or found.col_offset + len(found.id)
            span = Span(found.lineno, found.col_offset + 1, found.lineno, end + 1)
            return Message(file, span, f"{words}: {found.id}", fault.code)
    return Message(file, place(fault.line), words, fault.code)


def _statement_at(text: str, line: int) -> Span | None:
    return next((it for it in statements(text) if it.line <= line <= it.end_line), None)


def _unbound(text: str, statement: Span, rules: Collection[str]) -> Iterator[ast.Name]:
    """Yields the names of a statement that nothing binds and that Bazel does not have."""
    tree = parse(text, statement)
    if not isinstance(tree, ast.Module):
        return
    known = {*UNIVERSAL, *RULES, *QUIET, *VALUES, *SELECTS, *rules, *names_bound(text)}
    names = [node for node in ast.walk(tree) if isinstance(node, ast.Name)]
    known.update(node.id for node in names if isinstance(node.ctx, ast.Store))
    for node in sorted(names, key=lambda it: (it.lineno, it.col_offset)):
        if node.id not in known:
            yield node
