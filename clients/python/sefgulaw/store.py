"""The loader's answers, kept as bytes and read only when somebody needs them.

An answer is cut into packages at `,{"name":` and `,{"fault":`. No string of an answer can contain
these bytes, since a quote in a string is escaped, and no target begins so.
"""

from __future__ import annotations

import json
import re
from collections.abc import Iterator, Mapping, Sequence
from dataclasses import dataclass
from typing import NamedTuple, Union

from sefgulaw.names import Path

_HEAD, _TAIL = b'{"packages":[', b"]}"
_CUT = re.compile(rb',(?=\{"(?:name|fault)":)')
_GOOD = b'{"name":"'

Attribute = Union[str, Sequence[str]]


class Fault(NamedTuple):
    """A fault as the loader tells it. Line 0 is the file, or the package, as a whole."""

    code: int
    line: int
    path: Path


@dataclass(frozen=True)
class Good:
    """A package without a fault, as the loader answered it."""

    raw: bytes


@dataclass(frozen=True)
class Bad:
    """A package with a fault."""

    fault: Fault


@dataclass(frozen=True)
class Cyclic:
    """A package whose loads run in a cycle, which these labels are."""

    labels: tuple[str, ...]


Item = Union[Good, Bad, Cyclic]


@dataclass(frozen=True)
class Target:
    """A target with its full label, both as the loader has them."""

    label: str
    kind: str
    attrs: Mapping[str, Attribute]
    exact: bool = True

    @property
    def name(self) -> str:
        """The part of the label behind its colon."""
        return self.label.partition(":")[2]


@dataclass(frozen=True)
class Replaced:
    """Which packages an answer was about, and which of them have other bytes than before."""

    names: tuple[str, ...]
    differing: tuple[str, ...]


def cut(answer: bytes) -> list[bytes]:
    """Returns the items of an answer to a `load`, one for each package."""
    if not (answer.startswith(_HEAD) and answer.endswith(_TAIL)):
        raise ValueError(f"no answer about packages: {answer[:80]!r}")
    inner = answer[len(_HEAD) : -len(_TAIL)]
    return _CUT.split(inner) if inner else []


def name_of(item: bytes) -> str:
    """Returns the name of the package that an item is about."""
    if item.startswith(_GOOD):
        return item[len(_GOOD) : item.index(b'"', len(_GOOD))].decode("ascii")
    return item[item.rindex(b'"name":"') + 8 : -2].decode("ascii")


def read_item(item: bytes) -> Item:
    """Returns what an item means."""
    if item.startswith(_GOOD):
        return Good(item)
    fault = json.loads(item)["fault"]
    if "cycle" in fault:
        return Cyclic(tuple(str(label) for label in fault["cycle"]))
    return Bad(Fault(int(fault["code"]), int(fault["line"]), Path(str(fault["path"]))))


def read_targets(item: bytes) -> list[Target]:
    """Returns the targets of a good item."""
    package = json.loads(item)
    where = package["name"]
    return [
        Target(f"//{where}:{target['name']}", target["kind"], target["attrs"])
        for target in package["targets"]
    ]


class Store:
    """The newest answer about each package that somebody asked for."""

    def __init__(self) -> None:
        self._items: dict[str, bytes] = {}

    def put(self, answer: bytes) -> Replaced:
        """Takes in the answer to a `load`."""
        names, differing = [], []
        for item in cut(answer):
            name = name_of(item)
            names.append(name)
            if self._items.get(name) != item:
                self._items[name] = item
                differing.append(name)
        return Replaced(tuple(names), tuple(differing))

    def forget(self, name: str) -> None:
        """Drops the answer about a package that is none any more."""
        self._items.pop(name, None)

    def raw(self, name: str) -> bytes | None:
        """Returns the kept bytes about a package."""
        return self._items.get(name)

    def item(self, name: str) -> Item:
        """Returns the kept answer about a package, which must have been asked for."""
        return read_item(self._items[name])

    def targets(self, name: str) -> Sequence[Target]:
        """Returns the targets of a package, none where it has a fault."""
        raw = self._items[name]
        return read_targets(raw) if raw.startswith(_GOOD) else ()

    def names(self) -> Iterator[str]:
        """Yields the names of the packages with a kept answer."""
        return iter(self._items)

    def __contains__(self, name: str) -> bool:
        return name in self._items

    def __len__(self) -> int:
        return len(self._items)
