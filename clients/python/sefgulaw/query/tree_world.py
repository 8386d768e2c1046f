"""The targets of a tree, for the query language."""

from __future__ import annotations

import os
from collections.abc import Collection, Iterable, Sequence

from sefgulaw import graph
from sefgulaw.messages import Message, first_line
from sefgulaw.names import BadLabel, Path, decode, encode, real, show_label
from sefgulaw.faults import is_faulty
from sefgulaw.query.nodes import LABELS, OTHERS, OUTS, Nodes, PackageNodes, label_attributes
from sefgulaw.query.parsing import Word
from sefgulaw.query.patterns import Wanted, read
from sefgulaw.query.running import reached
from sefgulaw.query.world import (
    GENERATED,
    MISSING,
    RULE_END,
    SOURCE,
    Users,
    Value,
    package_of,
)
from sefgulaw.requests import BadWords, Tree


def by_package(labels: Iterable[str]) -> dict[str, list[str]]:
    """Returns labels by their packages, in the order given."""
    found: dict[str, list[str]] = {}
    for label in labels:
        package = label.partition(":")[0]
        own = found.get(package)
        if own is None:
            found[package] = [label]
        else:
            own.append(label)
    return found


class Reversed:
    """The users within the last universe that was asked for, kept until a package differs."""

    def __init__(self) -> None:
        self.roots: frozenset[str] = frozenset()
        self.stamp = -1
        self.within: Collection[str] = ()
        self.users: Users = {}


class TreeWorld:
    """The targets of a tree in one request. It notes which packages the answer is about."""

    def __init__(self, tree: Tree, nodes: Nodes, kept: Reversed, cwd: str) -> None:
        self._tree, self._base = tree, tree.base
        self._nodes, self._kept = nodes, kept
        self._at = encode(os.fsencode(cwd))
        self._ready: set[str] = set()
        self._known: dict[str, PackageNodes | None] = {}
        self._missing: dict[str, Message] = {}
        # The last answer of `matching` that is all rules of these packages.
        self._matched: list[str] | None = None
        self._matched_packages: list[str] = []
        self._untold = self._base.untold_packages()

    @property
    def packages(self) -> list[str]:
        """The packages that were looked at."""
        return sorted(self._ready)

    def messages(self) -> list[Message]:
        """Returns the faults of the packages that were looked at, and what was not there."""
        faulty = [it for it in self.packages if it in self._untold or is_faulty(self._base, it)]
        return [*self._tree.messages(faulty), *self._missing.values()]

    # Loading.

    def _is_there(self, package: str) -> bool:
        return self._base.has_package(package) or package in self._untold

    def load(self, packages: Iterable[str]) -> None:
        """Loads packages, as far as they are there and were not loaded for this request."""
        wanted = [it for it in packages if it not in self._ready and self._is_there(it)]
        if not wanted:
            return
        self._base.load([it for it in wanted if it not in self._untold])
        self._ready.update(wanted)

    def prepare(self, labels: Collection[str]) -> None:
        """Makes known what the packages of some labels declare."""
        if labels is self._matched:
            return
        packages = {package_of(label) for label in labels}
        self.load(it[2:] for it in packages if it.startswith("//"))

    def declared(self, package: str) -> PackageNodes | None:
        """Returns what a package declares, by its label without a name; None where it has no nodes.

        It is the same throughout a request, since no file is looked at again before the next one.
        """
        try:
            return self._known[package]
        except KeyError:
            found = self._known[package] = self._look_up(package)
            return found

    def _look_up(self, package: str) -> PackageNodes | None:
        if not package.startswith("//"):
            return None
        if package[2:] not in self._ready:
            self.load([package[2:]])
        return self._nodes.of(package[2:]) if package[2:] in self._ready else None

    def _of(self, label: str) -> PackageNodes | None:
        return self.declared(label.partition(":")[0])

    # Patterns.

    def matching(self, word: Word) -> Sequence[str]:
        """Returns the targets that a pattern asks for."""
        wanted = read(word.text, self._at, self._base.has_package)
        if isinstance(wanted, BadLabel):
            raise BadWords(str(wanted))
        if wanted.target is not None:
            return self._one(wanted.package, wanted.target)
        packages = self._covered(word, wanted)
        self.load(packages)
        found: list[str] = []
        for package in packages:
            nodes = self._nodes.of(package)
            if wanted.files:
                found += self._nodes.siblings(package)
            elif nodes is not None:
                found += nodes.rules
        if not wanted.files:
            self._matched, self._matched_packages = found, [f"//{it}" for it in packages]
        return found

    def _covered(self, word: Word, wanted: Wanted) -> list[str]:
        if not wanted.below:
            if not self._is_there(wanted.package):
                self._note_no_package(wanted.package)
            return [wanted.package]
        if not os.path.isdir(os.path.join(self._base.root, decode(wanted.package))):
            raise BadWords(f'"{word.text}": there is no directory {real(wanted.package)}')
        names = [*self._base.names(), *self._untold]
        if not wanted.package:
            return names
        head = f"{wanted.package}/"
        return [it for it in names if it == wanted.package or it.startswith(head)]

    def _one(self, package: Path, name: Path) -> Sequence[str]:
        if not self._is_there(package):
            self._note_no_package(package)
            return ()
        self.load([package])
        label = f"//{package}:{name}"
        if self.kind(label) != MISSING:
            return (label,)
        if self._nodes.of(package) is not None:
            file = real(self._base.build_file(package))
            text = f"no such target: {show_label(package, name)}"
            packages = (real(package),)
            message = Message(file, first_line(), text, "no target", packages=packages)
            self._missing[label] = message
        return ()

    def _note_no_package(self, package: Path) -> None:
        file = os.path.join(real(package), "BUILD")
        text = f"no such package: //{real(package)}"
        packages = (real(package),)
        self._missing[package] = Message(file, first_line(), text, 1, packages=packages)

    # What is known of a target.

    def needs(self, label: str) -> Sequence[str]:
        """Returns what a target needs."""
        nodes = self._of(label)
        return () if nodes is None else nodes.needs.get(label, ())

    def kind(self, label: str) -> str:
        """Returns the kind of a target."""
        nodes = self._of(label)
        if nodes is None:
            return MISSING
        rule = nodes.rules.get(label)
        if rule is not None:
            return rule.kind + RULE_END
        if label in nodes.generated:
            return GENERATED
        return SOURCE if self._nodes.is_source_label(label) else MISSING

    def missing(self, labels: Iterable[str]) -> list[str]:
        """Returns what targets name, or are, that nothing declares and no file of the tree is."""
        if labels is self._matched:
            return list(self._missing_of(self._matched_packages))
        named: set[str] = set()
        whole: list[str] = []
        for package, own in by_package(labels).items():
            nodes = self.declared(package)
            if nodes is None:
                named.update(own)
                continue
            rules, generated, needs = nodes.rules, nodes.generated, nodes.needs
            if len(own) >= len(rules) and rules.keys() <= set(own):
                whole.append(package)
                named.update(it for it in own if it not in needs)
                continue
            named.update(it for it in own if it not in rules and it not in generated)
            for label in own:
                for other in needs.get(label, ()):
                    if other not in rules and other not in generated:
                        named.add(other)
        return list(self._missing_of(whole).union(self._not_there(named)))

    def _missing_of(self, packages: Iterable[str]) -> set[str]:
        """Returns what the targets of packages name that is not there; most is kept from before."""
        declared = [(it, nodes) for it in packages if (nodes := self.declared(it)) is not None]
        around = {it for _, nodes in declared for it in nodes.around}
        self.load(package[2:] for package in around)
        # What is kept counts until one of these has another answer, which this finds.
        for package in around:
            self.declared(package)
        kept = self._nodes.kept_missing()
        found: set[str] = set()
        for package, nodes in declared:
            missing = kept.get(package)
            if missing is None:
                missing = kept[package] = tuple(self._not_there(nodes.outside))
            found.update(missing)
        return found

    def _not_there(self, named: Iterable[str]) -> list[str]:
        """Returns those of some labels that nothing declares and no file of the tree is."""
        around = by_package(it for it in named if it.startswith("//"))
        self.load(package[2:] for package in around)
        found: list[str] = []
        for package, own in around.items():
            nodes = self.declared(package)
            if nodes is None:
                found += own
                continue
            is_source = self._nodes.is_source_label
            found += [it for it in own if not (nodes.declares(it) or is_source(it))]
        return found

    def attribute(self, label: str, name: str) -> Value | None:
        """Returns an attribute of a rule's target."""
        nodes = self._of(label)
        rule = nodes.rules.get(label) if nodes is not None else None
        if rule is None:
            return None
        if name == "name":
            return label.partition(":")[2]
        value = rule.attrs.get(name)
        if value is None:
            if name in LABELS.get(rule.kind, ()):
                return "" if name == "actual" else []
            if name in OTHERS.get(rule.kind, ()):
                return "" if name == "cmd" else []
            return None
        if name == OUTS and not isinstance(value, str):
            return [f"{package_of(label)}:{it}" for it in value]
        return value

    def labels(self, label: str, name: str) -> Sequence[str]:
        """Returns the targets that an attribute of labels names, outputs among them."""
        nodes = self._of(label)
        rule = nodes.rules.get(label) if nodes is not None else None
        if rule is None:
            return ()
        if name == OUTS:
            value = self.attribute(label, name) or ()
            return (value,) if isinstance(value, str) else value
        return next((labels for it, labels in label_attributes(rule) if it == name), ())

    def tests_of(self, label: str) -> Sequence[str]:
        """Returns the tests beside a test suite that are not to be run by hand alone."""
        nodes = self._of(label)
        if nodes is None:
            return ()
        return [
            it
            for it, rule in nodes.rules.items()
            if rule.kind.endswith("_test") and "manual" not in rule.attrs.get("tags", ())
        ]

    # What is known of packages.

    def siblings(self, packages: Iterable[str]) -> Iterable[str]:
        """Returns all targets of some packages, files among them."""
        names = [it[2:] for it in packages if it.startswith("//")]
        self.load(names)
        return [label for name in names for label in self._nodes.siblings(name)]

    def build_files(self, packages: Iterable[str], also_builds: bool) -> Iterable[str]:
        """Returns the .bzl files that packages load, or with them all BUILD files."""
        names = [it[2:] for it in packages if it.startswith("//") and self._is_there(it[2:])]
        modules = self._nodes.modules(names)
        found = [self._nodes.file_label(path) for path in modules]
        if also_builds:
            around = {label[2:].partition(":")[0] for label in found}
            found += map(self._nodes.build_label, {*names, *around})
        return found

    def users_of(self, paths: Sequence[Word]) -> Iterable[str]:
        """Returns the BUILD files of the packages that read some files."""
        found: set[Path] = set()
        for word in paths:
            path = encode(word.text.encode("utf-8", "surrogateescape"))
            users = {path, *self._base.needs.loaders(path)}
            found |= {user for user in users if user in self._base.told}
        names = {it.rpartition("/")[0] for it in found if not it.endswith(".bzl")}
        return [self._nodes.build_label(it) for it in names if self._base.has_package(it)]

    def everything(self) -> Sequence[str]:
        """Returns all targets of the tree."""
        return self.matching(Word("//...", 1))

    def users(self, roots: Collection[str]) -> tuple[Collection[str], Users]:
        """Returns all that some targets need, and which of these need each."""
        kept, wanted = self._kept, frozenset(roots)
        within = reached(self, wanted, None) if kept.roots != wanted else kept.within
        self.prepare(within)
        if kept.roots == wanted:
            for package in {package_of(label) for label in within}:
                if package.startswith("//"):
                    self._nodes.of(package[2:])
        if kept.roots != wanted or kept.stamp != self._nodes.stamp:
            kept.within = reached(self, wanted, None).keys()
            kept.users = graph.backwards(self.needs, kept.within)
            kept.roots, kept.stamp = wanted, self._nodes.stamp
        return kept.within, kept.users
