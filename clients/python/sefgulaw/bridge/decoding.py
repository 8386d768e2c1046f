"""Answers about rewritten packages, with kinds, attributes and labels as the files have them."""

from __future__ import annotations

import ast
import json

from sefgulaw.bridge.labels import LIST_MARK, ONE_MARK, shown_label
from sefgulaw.bridge.rewriting import KIND_TAG


def decode(item: bytes) -> bytes:
    """Returns a good item as it would be without stand-ins. Names in it stay encoded.

    Targets that real macros made have no stand-in, and keep all but labels of other repositories.
    """
    package = json.loads(item)
    package["targets"] = [_target(it) for it in package["targets"]]
    text = json.dumps(package, sort_keys=True, separators=(",", ":"), ensure_ascii=True)
    return text.encode("ascii")


def _target(target: dict[str, object]) -> dict[str, object]:
    attrs = target["attrs"]
    assert isinstance(attrs, dict)
    tags = attrs.get("tags") or []
    if not (tags and tags[0].startswith(KIND_TAG)):
        shown = {name: _shown(value) for name, value in attrs.items()}
        return {**target, "attrs": shown}
    found: dict[str, object] = {}
    if "visibility" in attrs:
        found["visibility"] = attrs["visibility"]
    found.update(_labels(attrs.get("srcs") or []))
    for tag in tags[1:]:
        name, equals, text = tag.partition("=")
        if equals:
            found[name] = _value(text)
    return {"attrs": found, "kind": tags[0][len(KIND_TAG) :], "name": target["name"]}


def _shown(value: object) -> object:
    if isinstance(value, list):
        return [shown_label(it) if isinstance(it, str) else it for it in value]
    return shown_label(value) if isinstance(value, str) else value


def _labels(sources: list[str]) -> dict[str, object]:
    """Returns the attributes that hold labels, from the labels behind their marks."""
    found: dict[str, object] = {}
    lists: dict[str, list[str]] = {}
    one = ""
    here: list[str] = []
    for label in sources:
        if label.startswith(LIST_MARK):
            name = label[len(LIST_MARK) :]
            here = lists.setdefault(name, [])
            found[name], one = here, ""
        elif label.startswith(ONE_MARK):
            one = label[len(ONE_MARK) :]
        elif one:
            found[one], one = shown_label(label), ""
        else:
            here.append(shown_label(label))
    return found


def _value(text: str) -> object:
    """Returns an attribute's value: a string, a list of strings, or else its text."""
    try:
        value: object = ast.literal_eval(text)
    except (ValueError, SyntaxError, RecursionError, MemoryError):
        return text
    if isinstance(value, str):
        return value
    if isinstance(value, list) and all(isinstance(it, str) for it in value):
        return value
    return text
