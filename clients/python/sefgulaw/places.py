"""Where faults and targets stand in a file, found by asking a bench about the file's beginnings.

A fault of the grammar has no line, a fault inside a function does not tell which call led there,
and a target that a function declares has no place at all. But the loader answers in a tenth of a
millisecond. So a bench is asked what the file would be worth with its first statements alone: the
first statement with which an answer appears is the one that it is of.
"""

from __future__ import annotations

import ast
import json
import time
from collections.abc import Callable, Collection, Generator, Iterator, Mapping
from dataclasses import replace
from typing import NamedTuple

from sefgulaw.beginnings import AnyFault as AnyFault
from sefgulaw.beginnings import Beginnings, TooLong, code_of
from sefgulaw.beginnings import read_fault as read_fault
from sefgulaw.bench import Bench
from sefgulaw.details import NOT_ASCII, NOT_EXPORTED, SYNTAX, UNBOUND, detail, literal_name
from sefgulaw.messages import CYCLE, FAULTS, Message, Related, first_line
from sefgulaw.names import BadLabel, Label, Path, is_build, join, parent, real
from sefgulaw.store import Cyclic, Fault
from sefgulaw.text import Span, loads, names_bound, parse
from sefgulaw.wire import Stopped

MOST_FAULTS = 20
MORE = "this file has more faults, which are shown once these are mended"
NOT_LOOKED_FOR = "further faults of this file were not looked for"

MOST_SECONDS = 3.0
"""How long one file's faults are looked for. Then the loader's own line has to do."""

RULES = frozenset(("filegroup", "genrule", "alias", "test_suite"))


class Place(NamedTuple):
    """Where a fault is, and what can be said of it. `statement` is the one to be mended."""

    path: Path
    span: Span
    text: str
    statement: Span | None = None
    name: str = ""
    notes: tuple[Related, ...] = ()


def fault_place(bench: Bench, path: Path, fault: AnyFault) -> Place:
    """Returns the place of a fault that the file at a path has: as its text stands on the bench.

    The file is a BUILD file for the fault of its package, or a .bzl file for that of its module.
    """
    text = bench.text(path) or ""
    return _place(Beginnings(bench, path, text, time.monotonic() + MOST_SECONDS), fault)


def _place(file: Beginnings, fault: AnyFault) -> Place:
    try:
        return _sure_place(file, fault)
    except (TooLong, Stopped):
        return _told_place(file, fault)


def _told_place(file: Beginnings, fault: AnyFault) -> Place:
    """Returns the place of a fault as the loader tells it, which may be the file as a whole."""
    code = code_of(fault)
    words = FAULTS[code].message if code in FAULTS else f"fault {code}"
    if isinstance(fault, Fault) and fault.line:
        line = Span(fault.line, 1, fault.line, 1)
        return Place(fault.path, line, words, file.around(fault.line))
    return Place(file.path, first_line(), words)


def _sure_place(file: Beginnings, fault: AnyFault) -> Place:
    if isinstance(fault, Cyclic):
        return _cycle_place(file, fault)
    inner = _inner_place(file, fault) if fault.line else None
    if inner is not None and fault.path == file.path:
        if fault.code == NOT_ASCII or not _in_function(file, fault.line):
            return inner
    statement = file.first(fault)
    if statement is None and fault.code == SYNTAX and fault.path == file.path:
        whole = Span(1, 1, len(file.lines), 1)
        return _in_statement(file, whole, SYNTAX, 0)._replace(statement=None)
    if statement is None:
        return inner or _told_place(file, fault)
    if inner is None:
        return _in_statement(file, statement, fault.code, 0)
    if inner.path == file.path:
        called = Related(real(file.path), statement, "called here")
        return inner._replace(statement=statement, notes=(called,))
    note = Related(real(inner.path), inner.span, "in this function, called there")
    span = _first_of(file, statement)
    return Place(file.path, span, inner.text, statement, inner.name, (note,))


def _in_statement(file: Beginnings, statement: Span, code: int, line: int) -> Place:
    package = _package_of(file.bench, file.path)

    def exports(label: str) -> set[str] | None:
        return _exports(file.bench, label, package)

    found = detail(file.path, file.text, statement, code, line, exports)
    return Place(file.path, found.span, found.text, statement, found.name)


def _inner_place(file: Beginnings, fault: Fault) -> Place | None:
    """Returns the place of a fault with a line, in whichever file it is."""
    text = file.text if fault.path == file.path else file.bench.text(fault.path)
    if text is None:
        return None
    other = file if fault.path == file.path else Beginnings(file.bench, fault.path, text, 0)
    around = other.around(fault.line)
    if around is None:
        found = detail(fault.path, text, Span(fault.line, 1, fault.line, 1), fault.code, fault.line)
        return Place(fault.path, found.span, found.text)
    return _in_statement(other, around, fault.code, fault.line)


def _in_function(file: Beginnings, line: int) -> bool:
    """Tells whether a line is in the body of a function."""
    around = file.around(line)
    if around is None or around.line == line:
        return False
    return file.lines[around.line - 1].startswith("def ")


def _first_of(file: Beginnings, statement: Span) -> Span:
    """Returns the place of a statement, in its first line alone where it has several."""
    end = statement.end_column
    if statement.end_line > statement.line:
        end = len(file.lines[statement.line - 1]) + 1
    return Span(statement.line, statement.column, statement.line, end)


def _cycle_place(file: Beginnings, fault: Cyclic) -> Place:
    statement = file.first(fault)
    labels = [*fault.labels, fault.labels[0]] if fault.labels else []
    text = f"{FAULTS[CYCLE].message}: {' -> '.join(real(label) for label in labels)}"
    if statement is None:
        return Place(file.path, first_line(), text)
    load = next((it for it in loads(file.text) if it.span.line >= statement.line), None)
    return Place(file.path, load.span if load else statement, text, statement)


def _package_of(bench: Bench, path: Path) -> Path:
    return parent(path) if is_build(path) else bench.needs.nearest(parent(path)) or Path("")


def _module_path(label: str, package: str) -> Path | None:
    read = Label.read(label, package)
    return None if isinstance(read, BadLabel) else join(read.package, read.name)


def _exports(bench: Bench, label: str, package: str) -> set[str] | None:
    path = _module_path(label, package)
    if path is None or bench.text(path) is None:
        return None
    answer = json.loads(bench.module(path))
    return set(answer["exports"]) if "exports" in answer else None


# All faults of a file.

Instead = Callable[[AnyFault], "Message | None"]
"""Gives the message about a fault whose words are not the loader's, as of a file not told."""


def nothing_instead(_fault: AnyFault) -> Message | None:
    """Leaves each fault to the loader's words."""
    return None


def home_of(bench: Bench, path: Path, fault: AnyFault) -> Path:
    """Returns the source whose own fault the fault of a BUILD file is: itself or a module."""
    if isinstance(fault, Fault) and fault.path != path:
        for module in bench.needs.load_order([path]):
            if not is_build(module) and read_fault(bench.module(module)) == fault:
                return module
    return path


def all_faults(
    bench: Bench, path: Path, most: int = MOST_FAULTS, instead: Instead = nothing_instead
) -> Iterator[Message]:
    """Yields the faults of a file, one for each of its statements that has one.

    The statement of a fault is left out, and the bench is asked for the next one. A name that such
    a statement bound is not shown as missing. Where a module that the file loads has faults of its
    own, these are yielded. If there may be more, the last message has a note that says so.
    """
    messages = _each_fault(bench, path, most, instead)
    last: Message | None = None
    while True:
        try:
            message = next(messages)
        except StopIteration as end:
            if last is not None and end.value and most > 1:
                more = Related(last.file, last.span, end.value)
                last = replace(last, notes=(*last.notes, more))
            if last is not None:
                yield last
            return
        if last is not None:
            yield last
        last = message


def _each_fault(
    bench: Bench, path: Path, most: int, instead: Instead
) -> Generator[Message, None, str]:
    """Yields the faults of a file, and returns why there may be more."""
    file = Beginnings(bench, path, bench.text(path) or "", time.monotonic() + MOST_SECONDS)
    lost: set[str] = set()
    shown = 0
    for _ in range(4 * most):
        try:
            fault = file.fault(file.text)
            home = home_of(bench, path, fault) if fault and is_build(path) else path
        except (TooLong, Stopped):
            return NOT_LOOKED_FOR
        if fault is None:
            return ""
        if shown >= most:
            return MORE
        place = _place(file, fault)
        found: list[Message] = []
        if home != path:
            found += all_faults(bench, home, most - shown, instead)
        elif not (place.name in lost or _mentions(file, place, fault, lost)):
            found.append(instead(fault) or message_of(place, fault))
        yield from found
        shown += len(found)
        if place.statement is None:
            return "" if code_of(fault) == NOT_ASCII else NOT_LOOKED_FOR
        lost |= _bound_in(file, place.statement)
        without = file.without(place.statement)
        if without.text == file.text:
            return NOT_LOOKED_FOR
        file = without
    return NOT_LOOKED_FOR


def _mentions(file: Beginnings, place: Place, fault: AnyFault, lost: set[str]) -> bool:
    """Tells whether a missing name, which nobody knows, may be one that a statement bound."""
    if not lost or place.name or code_of(fault) not in (UNBOUND, NOT_EXPORTED):
        return False
    span = place.statement or place.span
    tree = parse(file.text, span)
    names = ast.walk(tree) if isinstance(tree, ast.Module) else ()
    return any(isinstance(it, ast.Name) and it.id in lost for it in names)


def _bound_in(file: Beginnings, statement: Span) -> set[str]:
    return names_bound("\n".join(file.lines[statement.line - 1 : statement.end_line]))


def message_of(place: Place, fault: AnyFault) -> Message:
    """Returns the message about a fault at its place, without the names of packages."""
    return Message(real(place.path), place.span, place.text, code_of(fault), place.notes)


# Targets.


def target_places(
    bench: Bench, package: str, known: Collection[str] | None = None
) -> Mapping[str, Span]:
    """Returns the statement that declares each target of a package without a fault.

    A statement at file level that calls a rule by its own name, with a literal name, declares that
    target. For the others the beginnings are divided until each has its statement. `known` are the
    names of the targets where they are known already.
    """
    builds = bench.needs.builds(Path(package))[:1]
    if not builds:
        return {}
    text = bench.text(builds[0]) or ""
    file = Beginnings(bench, builds[0], text, time.monotonic() + MOST_SECONDS)
    wanted = _target_names(file.answer(text)) if known is None else set(known)
    found = {name: span for name, span in _written_targets(file) if name in wanted}
    try:
        _divide(file, 0, len(file.spans), frozenset(), frozenset(wanted - found.keys()), found)
    except (TooLong, Stopped):
        pass
    return found


def literal_name_of(call: ast.Call) -> str | None:
    """Returns the name that a call gives to a target, where it is written out."""
    name = literal_name(call)
    return None if name is None else str(name.value)


def _target_names(answer: bytes) -> set[str]:
    members = json.loads(answer)["packages"][0]
    return {str(target["name"]) for target in members.get("targets", ())}


def _written_targets(file: Beginnings) -> Iterator[tuple[str, Span]]:
    rules = RULES - names_bound(file.text)
    for span in file.spans:
        tree = parse(file.text, span)
        for node in tree.body if isinstance(tree, ast.Module) else ():
            call = node.value if isinstance(node, ast.Expr) else None
            if isinstance(call, ast.Call) and isinstance(call.func, ast.Name):
                name = literal_name(call) if call.func.id in rules else None
                if name is not None:
                    yield str(name.value), span


def _divide(
    file: Beginnings,
    low: int,
    high: int,
    before: frozenset[str],
    after: frozenset[str],
    found: dict[str, Span],
) -> None:
    """Finds the statements that declare the names in `after` which are not in `before`."""
    if before == after:
        return
    if high - low == 1:
        for name in after - before:
            found[name] = file.spans[high - 1]
        return
    middle = (low + high) // 2
    declared = frozenset(_target_names(file.answer(file.beginning(middle)))) & after
    _divide(file, low, middle, before, declared, found)
    _divide(file, middle, high, declared, after, found)
