"""Literals of the loader's language, and what a tag says of an attribute's value."""

from __future__ import annotations

import ast
import re

from sefgulaw.bridge.labels import LIST_MARK, ONE_MARK, any_label, told_label

_ESCAPES = {"\\": "\\\\", '"': '\\"', "\n": "\\n", "\t": "\\t", "\r": "\\r"}
_TO_ESCAPE = re.compile(r'[\\"\n\t\r]')
_TO_ENCODE = re.compile(r"_(?=_x[0-9a-f]{2})|[^\n\t\r -~]")


def plain(text: str) -> str:
    """Encodes the characters that no string of the loader has. Each character is a byte."""
    if text.isascii() and text.isprintable() and "__x" not in text:
        return text
    return _TO_ENCODE.sub(lambda found: f"__x{ord(found[0]):02x}", text)


def quoted(text: str) -> str:
    """Returns the literal of a string that holds the loader's characters alone."""
    if text.isprintable() and '"' not in text and "\\" not in text:
        return f'"{text}"'
    return '"' + _TO_ESCAPE.sub(lambda found: _ESCAPES[found[0]], text) + '"'


def literal(text: str) -> str:
    """Returns the literal of any string."""
    return quoted(plain(text))


def constant_strings(node: ast.expr) -> list[str] | None:
    """Returns the strings of a literal list or tuple of strings."""
    if not isinstance(node, (ast.List, ast.Tuple)):
        return None
    strings = [it.value for it in node.elts if isinstance(it, ast.Constant)]
    if len(strings) < len(node.elts) or not all(isinstance(it, str) for it in strings):
        return None
    return [str(it) for it in strings]


def constant_text(node: ast.expr) -> str | None:
    """Returns the text that `repr` of the loader gives for a literal."""
    if isinstance(node, ast.Constant):
        if isinstance(node.value, str):
            return literal(node.value)
        return repr(node.value) if isinstance(node.value, (bool, int)) else None
    strings = constant_strings(node)
    if strings is None or isinstance(node, ast.Tuple):
        return None
    return "[" + ", ".join(literal(it) for it in strings) + "]"


def constant_labels(
    attribute: str, node: ast.expr, own: frozenset[str], is_rule: bool
) -> list[str] | None:
    """Returns what stands in `srcs` for an attribute that is a literal of labels.

    A string of a rule that is no label is a fault. One of an unknown macro may be anything.
    """
    strings = constant_strings(node)
    mark = LIST_MARK + attribute
    if isinstance(node, ast.Constant) and isinstance(node.value, str):
        strings, mark = [node.value], ONE_MARK + attribute
    if strings is None:
        return None
    if is_rule:
        return [mark, *(any_label(it, own) for it in strings)]
    labels = [told_label(it, own) for it in strings]
    sound = [it for it in labels if it is not None]
    return [mark, *sound] if len(sound) == len(labels) else None
