"""What an editor asks about a place in a file: definitions, users, words and symbols."""

from __future__ import annotations

import json
from collections.abc import Callable, Iterator, Mapping
from typing import Protocol, cast

from sefgulaw.lsp import symbols
from sefgulaw.lsp.texts import Position, Text, open_string, under
from sefgulaw.lsp.wire import Message
from sefgulaw.names import BadLabel, Label, is_build
from sefgulaw.plain import Members
from sefgulaw.text import Span

FUNCTION, VARIABLE, OBJECT = 12, 13, 19
COMPLETIONS = {"package": 19, "source file": 17, "generated file": 17}
TARGET, WORD, ATTRIBUTE = 18, 3, 10


class Tree(Protocol):
    """What the features use of the server."""

    def ask(self, method: str, params: Mapping[str, object]) -> list[Members]:
        """Asks the daemon with the unsaved texts."""

    def content(self, path: str) -> str | None:
        """Returns the text of a file: the open one, or that on disk."""

    def uri(self, path: str) -> str:
        """Returns the uri of a path below the root."""

    def is_saved(self, text: Text) -> bool:
        """Tells whether an open text is that on disk."""

    def package(self, path: str) -> str:
        """Returns the package that a file is read in."""


def line_range(first: int, last: int) -> Message:
    """Returns some whole lines, which count from 1, as a range of the protocol."""
    return {
        "start": {"line": first - 1, "character": 0},
        "end": {"line": last, "character": 0},
    }


def _location(tree: Tree, path: str, span: Span) -> Message:
    start = {"line": span.line - 1, "character": span.column - 1}
    return {"uri": tree.uri(path), "range": {"start": start, "end": start}}


def _lines_of(item: Members) -> tuple[int, int]:
    return int(str(item["first"])), int(str(item["last"]))


def document_symbols(tree: Tree, text: Text) -> list[Message]:
    """Returns the targets of a BUILD file, or the functions and names of a .bzl file."""
    if not is_build(text.path):
        kinds = {"function": FUNCTION, "variable": VARIABLE}
        return [_symbol(it, kinds[it.kind]) for it in symbols.bindings(text.text)]
    if not tree.is_saved(text):
        return [_symbol(it, OBJECT) for it in symbols.targets(text.text)]
    found = []
    for item in tree.ask("symbols", {"file": text.path}):
        name = str(item["label"]).partition(":")[2]
        first, last = _lines_of(item)
        found.append(
            _symbol(symbols.Symbol(name, str(item["kind"]), Span(first, 1, last, 1)), OBJECT)
        )
    return found or [_symbol(it, OBJECT) for it in symbols.targets(text.text)]


def _symbol(found: symbols.Symbol, kind: int) -> Message:
    span = found.span
    selected = {"line": span.line - 1, "character": 0}
    return {
        "name": found.name or "?",
        "detail": found.kind,
        "kind": kind,
        "range": line_range(span.line, span.end_line),
        "selectionRange": {"start": selected, "end": selected},
    }


def definition(tree: Tree, text: Text, position: Position) -> Message | None:
    """Returns where a label, a loaded name or a name of the file is made."""
    found = under(text.line(position.line), position.character)
    if found is None:
        return None
    label = symbols.in_load(text.text, position.line)
    if found.is_string and label is not None and found.text != label:
        return _in_module(tree, text, label, found.text)
    if found.is_string:
        return _target(tree, text, found.text)
    for binding in symbols.bindings(text.text):
        if binding.name == found.text:
            return _location(tree, text.path, binding.span)
    for name in symbols.loaded(text.text):
        if name.name == found.text:
            return _in_module(tree, text, name.label, name.original)
    return None


def _in_module(tree: Tree, text: Text, label: str, name: str) -> Message | None:
    """Returns where a module binds a name."""
    read = Label.read(label, tree.package(text.path))
    if isinstance(read, BadLabel):
        return None
    path = f"{read.package}/{read.name}".lstrip("/")
    content = tree.content(path)
    if content is None:
        return None
    for binding in symbols.bindings(content):
        if binding.name == name:
            return _location(tree, path, binding.span)
    return _location(tree, path, Span(1, 1, 1, 1))


def _target(tree: Tree, text: Text, label: str) -> Message | None:
    for item in tree.ask("place", {"label": label, "file": text.path}):
        first, last = _lines_of(item)
        return _location(tree, str(item["file"]), Span(first, 1, last, 1))
    return None


def hover(tree: Tree, text: Text, position: Position) -> Message | None:
    """Returns what a label leads to, with the attributes of a target."""
    found = under(text.line(position.line), position.character)
    if found is None or not found.is_string:
        return None
    for item in tree.ask("place", {"label": found.text, "file": text.path}):
        words = f"{item['kind']} {item['label']}"
        if "attrs" in item:
            words += "\n" + json.dumps(item["attrs"], indent=1, ensure_ascii=False)
        return {"contents": {"kind": "plaintext", "value": words}}
    return None


def references(tree: Tree, text: Text, position: Position) -> list[Message]:
    """Returns the targets that need the one under the cursor, or the one declared there."""
    found = under(text.line(position.line), position.character)
    label = found.text if found is not None and found.is_string else None
    if label is None:
        for symbol in symbols.targets(text.text):
            if symbol.span.line <= position.line + 1 <= symbol.span.end_line:
                label = f":{symbol.name}"
    items = tree.ask("place", {"label": label, "file": text.path}) if label is not None else []
    if not items:
        return []
    full = str(items[0]["label"])
    quote = "'" if '"' in full else '"'
    words = f"rdeps(//..., {quote}{full}{quote}, 1) - {quote}{full}{quote}"
    asked = {"expression": words, "output": "location", "cwd": ""}
    return [
        _location(tree, str(it["file"]), Span(int(str(it["line"])), int(str(it["column"])), 0, 0))
        for it in tree.ask("query", asked)
        if "label" in it and "file" in it
    ]


def completion(tree: Tree, text: Text, position: Position) -> list[Message]:
    """Returns what may stand at a place: labels in a string, else attributes and names."""
    line = text.line(position.line)
    begun = open_string(line, position.character)
    if begun is not None:
        items = tree.ask("names", {"prefix": begun, "file": text.path})
        start = _start_of_word(begun)
        return [_completion(tree, it, begun, start) for it in items]
    found = [{"label": name, "kind": WORD} for name in _names(text)]
    rule = symbols.called_around(text.text, position.line)
    for name in (*symbols.RULES.get(rule or "", ()), *symbols.COMMON):
        if rule in symbols.RULES:
            found.append({"label": name, "kind": ATTRIBUTE, "insertText": f"{name} = "})
    return cast("list[Message]", found)


def _start_of_word(begun: str) -> int:
    """Returns where the part of a label begins that is to be completed."""
    return begun.rfind(":") + 1 if ":" in begun else 0


def _completion(tree: Tree, item: Members, begun: str, start: int) -> Message:
    name, kind = str(item["name"]), str(item["kind"])
    return {
        "label": name,
        "detail": kind,
        "kind": COMPLETIONS.get(kind, TARGET),
        "filterText": begun[start:] and name,
    }


def _names(text: Text) -> Iterator[str]:
    names = {binding.name for binding in symbols.bindings(text.text)}
    names |= {it.name for it in symbols.loaded(text.text)}
    yield from sorted(names | set(symbols.RULES) | set(symbols.FUNCTIONS))


def workspace_symbols(tree: Tree, wanted: str) -> list[Message]:
    """Returns the targets whose labels have a text in them."""
    found = []
    for item in tree.ask("find", {"text": wanted}):
        first, last = _lines_of(item)
        place = {"uri": tree.uri(str(item["file"])), "range": line_range(first, last)}
        found.append({"name": str(item["label"]), "kind": OBJECT, "location": place})
    return cast("list[Message]", found)


Feature = Callable[[Tree, Text, Position], object]
AT_PLACE: Mapping[str, Feature] = {
    "textDocument/definition": definition,
    "textDocument/hover": hover,
    "textDocument/references": references,
    "textDocument/completion": completion,
}
