"""Targets as lines of JSON, with the real names of files."""

from __future__ import annotations

import base64
import re
from collections.abc import Iterator, Sequence

from sefgulaw.messages import dumps, named, shown
from sefgulaw.names import real
from sefgulaw.store import Attribute, Target, read_targets

_TARGETS = b'","targets":['
_CUT = re.compile(rb',(?=\{"attrs":)')
_NAME = b',"name":"'


def target_lines(item: bytes, name: str, exact: bool) -> Iterator[tuple[str, bytes]]:
    """Yields the name and the line of JSON of each target of a package without a fault.

    Where no name is encoded the line has the loader's own bytes for attributes and kind.
    """
    if b"__x" in item or not exact:
        for target in read_targets(item):
            yield target.name, _line(target, exact)
        return
    head = item.index(_TARGETS) + len(_TARGETS)
    inner = item[head:-2]
    label = b',"label":"//' + name.encode("ascii") + b":"
    for one in _CUT.split(inner) if inner else []:
        before, _, last = one.rpartition(_NAME)
        yield last[:-2].decode("ascii"), before + label + last


def _line(target: Target, exact: bool) -> bytes:
    members: dict[str, object] = {}
    odd: dict[str, object] = {}
    attrs: dict[str, object] = {}
    for key, value in target.attrs.items():
        attrs[key] = _real_attribute(value)
        as_bytes = _bytes_of(value)
        if as_bytes is not None:
            odd[key] = as_bytes
    members["attrs"] = attrs
    if odd:
        members["attrs_bytes"] = odd
    if not exact:
        members["exact"] = False
    members["kind"] = target.kind
    named(members, "label", real(target.label))
    return dumps(members)


def _real_attribute(value: Attribute) -> object:
    if isinstance(value, str):
        return shown(real(value))
    return [shown(one) for one in _real_names(value)]


def _real_names(values: Sequence[str]) -> list[str]:
    """Returns real names. A list in byte order, as a glob gives it, is in the order of these."""
    found = [real(one) for one in values]
    if found != list(values) and list(values) == sorted(values):
        found.sort(key=lambda name: name.encode("utf-8", "surrogateescape"))
    return found


def _bytes_of(value: Attribute) -> object | None:
    """Returns the real bytes of an attribute in base64, where a name in it is not UTF-8."""
    values = [real(value)] if isinstance(value, str) else _real_names(value)
    raws = [one.encode("utf-8", "surrogateescape") for one in values]
    if all(_is_utf8(raw) for raw in raws):
        return None
    coded = [base64.b64encode(raw).decode("ascii") for raw in raws]
    return coded[0] if isinstance(value, str) else coded


def _is_utf8(raw: bytes) -> bool:
    try:
        raw.decode("utf-8")
    except UnicodeDecodeError:
        return False
    return True
