"""Which targets a change affects, and why: from what was declared before and is declared now.

Nothing is asked here. The two sides are given as targets by label, with the faults of packages.
"""

from __future__ import annotations

import re
from collections.abc import Callable, Collection, Iterable, Mapping
from dataclasses import dataclass, field

from sefgulaw.query.nodes import PackageNodes, Rule

NEW, GONE = "new", "gone"

_MENTION = re.compile(rb'"(//[^":]*):')
"""The package of a label in an answer. No character of a package's name is escaped in a string."""


@dataclass
class Reasons:
    """Why each target is affected. `whole` are those that are new, gone or in a faulty package."""

    found: dict[str, list[str]] = field(default_factory=dict)
    whole: set[str] = field(default_factory=set)

    def add(self, label: str, reason: str, is_whole: bool = False) -> None:
        """Adds a reason to a target."""
        self.found.setdefault(label, []).append(reason)
        if is_whole:
            self.whole.add(label)


def declared(reasons: Reasons, old: Mapping[str, Rule], new: Mapping[str, Rule]) -> None:
    """Adds the targets of one package that came or went, or are declared otherwise."""
    for label in old.keys() - new.keys():
        reasons.add(label, GONE, True)
    for label, now in new.items():
        before = old.get(label)
        if before is None:
            reasons.add(label, NEW, True)
            continue
        if before.kind != now.kind:
            reasons.add(label, f"kind {now.kind}")
        names = sorted(before.attrs.keys() | now.attrs.keys())
        differing = [it for it in names if before.attrs.get(it) != now.attrs.get(it)]
        if differing:
            reasons.add(label, f"attributes {' '.join(differing)}")


class Users:
    """Which targets name each label, kept up package by package.

    What a package declares is read only once a label is asked about that its answer mentions.
    `read` reads it, and gives None where the package has none, or a fault.
    """

    def __init__(self, read: Callable[[str], PackageNodes | None]) -> None:
        self._read = read
        self._raws: dict[str, bytes] = {}
        self._mentions: dict[str, frozenset[bytes]] = {}
        self._mentioning: dict[bytes, set[str]] = {}
        self._users: dict[str, tuple[PackageNodes, Mapping[str, list[str]]]] = {}

    def of(self, label: str) -> list[str]:
        """Returns the targets that name a label, each once."""
        package = label.partition(":")[0].encode("utf-8", "surrogateescape")
        found: list[str] = []
        for name in self._mentioning.get(package, ()):
            found += self._users_in(name).get(label, ())
        return found

    def _users_in(self, name: str) -> Mapping[str, list[str]]:
        """Returns which targets of a package name each label."""
        nodes = self._read(name)
        if nodes is None:
            return {}
        kept = self._users.get(name)
        if kept is not None and kept[0] is nodes:
            return kept[1]
        users: dict[str, list[str]] = {}
        for label in nodes.rules:
            for other in nodes.needs[label]:
                users.setdefault(other, []).append(label)
        self._users[name] = nodes, users
        return users

    def _nodes_of(self, label: str) -> PackageNodes | None:
        name = label.partition(":")[0][2:]
        return self._read(name) if name in self._raws else None

    def declares(self, label: str) -> bool:
        """Tells whether a label is that of a rule or of an output of one."""
        nodes = self._nodes_of(label)
        return nodes is not None and nodes.declares(label)

    def take(self, package: str, raw: bytes | None) -> None:
        """Takes in the loader's answer about a package; None is a package that is gone."""
        if self._raws.get(package) is raw:
            return
        mentions = frozenset() if raw is None else frozenset(_MENTION.findall(raw))
        before = self._mentions.get(package, frozenset())
        for other in before - mentions:
            self._mentioning[other].discard(package)
        for other in mentions - before:
            self._mentioning.setdefault(other, set()).add(package)
        if raw is None:
            del self._raws[package], self._mentions[package]
            self._users.pop(package, None)
        else:
            self._raws[package], self._mentions[package] = raw, mentions

    def outputs(self, label: str) -> Iterable[str]:
        """Returns the files that a target makes."""
        nodes = self._nodes_of(label)
        if nodes is None or label not in nodes.rules:
            return ()
        return [it for it, maker in nodes.generated.items() if maker == label]

    def packages(self) -> Collection[str]:
        """Returns the packages that something was taken in of."""
        return self._raws.keys()


def sources(reasons: Reasons, users: Users, paths: Iterable[str]) -> None:
    """Adds the targets that name a changed file."""
    for path in sorted(paths):
        parts = path.split("/")
        for count in range(len(parts)):
            label = f"//{'/'.join(parts[:count])}:{'/'.join(parts[count:])}"
            if not users.declares(label):
                for user in users.of(label):
                    reasons.add(user, f"source {path}")


def needing(reasons: Reasons, users: Users, old_outputs: Callable[[str], Iterable[str]]) -> None:
    """Adds the targets that need an affected one, through the files that it makes, too.

    A target that is new, gone or faulty gets no such reason.
    """
    needs: dict[str, set[str]] = {}
    waiting = list(reasons.found)
    seen = set(waiting)
    while waiting:
        label = waiting.pop()
        named = {label, *users.outputs(label), *old_outputs(label)}
        for user in {user for it in named for user in users.of(it)}:
            if user in reasons.whole or user == label:
                continue
            needs.setdefault(user, set()).add(label)
            if user not in seen:
                seen.add(user)
                waiting.append(user)
    for user, labels in needs.items():
        for label in sorted(labels):
            reasons.add(user, f"needs {label}")
