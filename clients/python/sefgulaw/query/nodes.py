"""What each package of a base declares, as nodes of a graph, kept until its answer differs."""

from __future__ import annotations

import json
from collections.abc import Iterable, Iterator, Mapping, Sequence
from dataclasses import dataclass, field
from functools import cached_property
from typing import NamedTuple

from sefgulaw.base import Base
from sefgulaw.names import Path, basename, join
from sefgulaw.query.world import RULE_END, Value

LABELS: dict[str, tuple[str, ...]] = {
    "alias": ("actual",),
    "filegroup": ("srcs", "data"),
    "genrule": ("srcs", "tools"),
    "test_suite": ("tests",),
}
"""The attributes of labels of the loader's own rules. Those of other rules are known by a look."""

OTHERS: dict[str, tuple[str, ...]] = {
    "alias": ("tags", "visibility"),
    "filegroup": ("tags", "visibility"),
    "genrule": ("outs", "cmd", "tags", "visibility"),
    "test_suite": ("tags", "visibility"),
}

OUTS = "outs"
NO_LABELS = ("visibility", "tags", OUTS)


class Rule(NamedTuple):
    """A target that a rule declares."""

    kind: str
    attrs: Mapping[str, Value]


@dataclass
class PackageNodes:
    """The nodes of one package. `needs` has an entry for each rule and each generated file."""

    raw: bytes
    rules: dict[str, Rule] = field(default_factory=dict)
    generated: dict[str, str] = field(default_factory=dict)
    needs: dict[str, tuple[str, ...]] = field(default_factory=dict)

    @cached_property
    def outside(self) -> frozenset[str]:
        """The labels that targets of the package name and that it does not declare."""
        named = {label for labels in self.needs.values() for label in labels}
        return frozenset(named - self.rules.keys() - self.generated.keys())

    @cached_property
    def around(self) -> frozenset[str]:
        """The packages of `outside`, by their labels without a name."""
        return frozenset(it.partition(":")[0] for it in self.outside if it.startswith("//"))

    @cached_property
    def lines(self) -> dict[str, bytes]:
        """The line of JSON of each rule whose label is its real name, if the package is exact."""
        return {
            label: f'{{"kind":"{rule.kind}{RULE_END}","label":"{label}"}}'.encode()
            for label, rule in self.rules.items()
            if "__x" not in label and "@" not in label
        }

    def declares(self, label: str) -> bool:
        """Tells whether a label is that of a rule of the package, or of an output of one."""
        return label in self.rules or label in self.generated


def looks_like_labels(name: str, value: Value) -> bool:
    """Tells whether an attribute of a rule that the loader does not know holds labels."""
    if name in NO_LABELS:
        return False
    texts = [value] if isinstance(value, str) else value
    return bool(texts) and all(it.startswith(("//", "@")) and ":" in it for it in texts)


def label_attributes(rule: Rule) -> Iterator[tuple[str, Sequence[str]]]:
    """Yields the attributes of a target that hold labels, each with the labels."""
    known = LABELS.get(rule.kind)
    for name in known if known is not None else rule.attrs:
        value = rule.attrs.get(name)
        if value is None or (known is None and not looks_like_labels(name, value)):
            continue
        yield name, [value] if isinstance(value, str) else value


def read_nodes(raw: bytes, package: str) -> PackageNodes:
    """Returns the nodes of a package from the loader's answer about it."""
    nodes = PackageNodes(raw)
    rules, generated, needs = nodes.rules, nodes.generated, nodes.needs
    head = f"//{package}:"
    for target in json.loads(raw)["targets"]:
        label = head + target["name"]
        rules[label] = rule = Rule(target["kind"], target["attrs"])
        needs[label] = _needed(rule)
        outs = rule.attrs.get(OUTS)
        if outs:
            for name in [outs] if isinstance(outs, str) else outs:
                output = head + name.removeprefix(":")
                if output not in rules:
                    generated[output] = label
    for output, label in generated.items():
        needs.setdefault(output, (label,))
    return nodes


def _needed(rule: Rule) -> tuple[str, ...]:
    """Returns the labels that a target names, each once."""
    known = LABELS.get(rule.kind)
    if known is not None and len(known) == 1:
        value = rule.attrs.get(known[0], ())
        return (value,) if isinstance(value, str) else tuple(dict.fromkeys(value))
    return tuple(dict.fromkeys(it for _, labels in label_attributes(rule) for it in labels))


class Nodes:
    """The nodes of the packages of a base that somebody has asked for."""

    def __init__(self, base: Base) -> None:
        self._base = base
        self._kept: dict[str, tuple[bytes | None, PackageNodes | None]] = {}
        self._sources: dict[str, bool] = {}
        self._sources_at = -1
        self._missing: dict[str, tuple[str, ...]] = {}
        self._missing_at = (-1, -1)
        self.stamp = 0

    def of(self, package: str) -> PackageNodes | None:
        """Returns the nodes of a package that was loaded; None where it has none, or a fault.

        `stamp` is another number whenever the answer of some package has differed.
        """
        raw = self._base.store.raw(package)
        kept = self._kept.get(package)
        if kept is not None and kept[0] is raw:
            return kept[1]
        self.stamp += 1
        is_package = raw is not None and raw.startswith(b'{"name":')
        nodes = read_nodes(raw, package) if raw is not None and is_package else None
        self._kept[package] = raw, nodes
        return nodes

    def kept_missing(self) -> dict[str, tuple[str, ...]]:
        """Returns the labels that packages name and that are not there, by the packages.

        It has what was found since the answer of a package has differed last, or a file has come
        or gone.
        """
        at = self.stamp, self._base.needs.moves
        if self._missing_at != at:
            self._missing_at = at
            self._missing = {}
        return self._missing

    def is_source_label(self, label: str) -> bool:
        """Tells whether a label is that of a source file, which is known until files move."""
        moves = self._base.needs.moves
        if self._sources_at != moves:
            self._sources_at = moves
            self._sources.clear()
        known = self._sources.get(label)
        if known is None:
            package, _, name = label[2:].partition(":")
            known = self._sources[label] = self.is_source(package, name)
        return known

    def is_source(self, package: str, name: str) -> bool:
        """Tells whether a package has a file or a directory of this name that is its own."""
        path = join(package, name)
        needs = self._base.needs
        if not (needs.has(path) or needs.has_directory(path)):
            return False
        return needs.nearest(Path(path.rpartition("/")[0])) == package

    def build_label(self, package: str) -> str:
        """Returns the label of a package's BUILD file."""
        return f"//{package}:{basename(self._base.build_file(package))}"

    def siblings(self, package: str) -> Iterator[str]:
        """Yields the targets of a package, and the files that it names."""
        nodes = self.of(package)
        if nodes is None:
            return
        yield from nodes.rules
        yield from nodes.generated
        head = f"//{package}:"
        named = {it for needed in nodes.needs.values() for it in needed if it.startswith(head)}
        for label in named - nodes.rules.keys() - nodes.generated.keys():
            if self.is_source(package, label[len(head) :]):
                yield label
        yield self.build_label(package)

    def modules(self, packages: Iterable[str]) -> list[Path]:
        """Returns the .bzl files that packages load, themselves or through others."""
        builds = [self._base.build_file(name) for name in packages]
        order = self._base.needs.load_order(builds)
        return [path for path in order if path.endswith(".bzl")]

    def file_label(self, path: Path) -> str:
        """Returns the label of a file, in the package that it belongs to."""
        package = self._base.needs.nearest(Path(path.rpartition("/")[0])) or ""
        return f"//{package}:{path[len(package) + 1 :] if package else path}"
