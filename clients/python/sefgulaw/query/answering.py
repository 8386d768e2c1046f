"""Answers to queries, as lines of JSON."""

from __future__ import annotations

import os
from collections.abc import Collection, Iterator, Mapping
from itertools import groupby

from sefgulaw.messages import dumps, named
from sefgulaw.names import Path, encode, is_encoded, real
from sefgulaw.placing import Placed, Placer
from sefgulaw.query.nodes import Nodes
from sefgulaw.query.parsing import BadQuery, Call, parse
from sefgulaw.query.running import run
from sefgulaw.query.tree_world import Reversed, TreeWorld
from sefgulaw.query.world import GENERATED, MISSING, RULE_END, package_of
from sefgulaw.requests import FAULTS_STATUS, Answer, BadWords, End, QueryAsked, Tree

FORMS = ("label", "label_kind", "location", "package", "jsonl", "graph")
LEFT_OUT_FORMS = ("xml", "proto", "build")


class Queries:
    """Answers queries about one tree."""

    def __init__(self, tree: Tree, placer: Placer, nodes: Nodes) -> None:
        self._tree, self._placer, self._nodes = tree, placer, nodes
        self._reversed = Reversed()

    def answer(self, asked: QueryAsked) -> Answer:
        """Answers with the targets that an expression stands for."""
        if asked.output in LEFT_OUT_FORMS:
            raise BadWords(f"the form {asked.output} is left out")
        if asked.output not in FORMS:
            raise BadWords(f"there is no form {asked.output}")
        self._tree.base.refresh()
        world = TreeWorld(self._tree, self._nodes, self._reversed, asked.cwd)
        try:
            expression = parse(asked.expression)
            found: Collection[str] = run(expression, world)
        except BadQuery as error:
            raise BadWords(str(error)) from None
        is_path = isinstance(expression, Call) and expression.name == "somepath"
        world.prepare(found)
        absent = world.missing(found)
        if asked.missing:
            found, is_path = absent, False
        lines = self._lines(world, asked.output, list(found) if is_path else _sorted(found))
        messages = world.messages()
        faults = [self._tree.message_line(message) for message in messages]
        notes = self._tree.notes(world.packages)
        end = End(
            FAULTS_STATUS if messages else 0,
            self._tree.base.version,
            not notes,
            self._tree.all_notes(notes),
            "" if asked.missing or not absent else _missing_words(len(absent)),
        )
        return Answer(end, iter([*lines, *faults]))

    def _lines(self, world: TreeWorld, form: str, labels: list[str]) -> list[bytes]:
        if form == "package":
            names = {package_of(it).removeprefix("//") for it in labels}
            return [_line({}, "package", name, self._is_exact(name)) for name in sorted(names)]
        if form == "location":
            return [line for label in labels for line in self._location(world, label)]
        lines = list(self._label_lines(world, labels))
        if form == "graph":
            lines += graph_lines(world, labels)
        return lines

    def _label_lines(self, world: TreeWorld, labels: list[str]) -> Iterator[bytes]:
        for package, own in groupby(labels, package_of):
            is_exact = self._is_exact(package[2:])
            nodes = world.declared(package)
            lines: Mapping[str, bytes] = nodes.lines if nodes is not None and is_exact else {}
            for label in own:
                line = lines.get(label)
                if line is None:
                    line = _line({"kind": world.kind(label)}, "label", label, is_exact)
                yield line

    def _is_exact(self, package: str) -> bool:
        return not self._tree.exactness.reasons(package)

    def _location(self, world: TreeWorld, label: str) -> Iterator[bytes]:
        """Yields the line of a target at its place; what is missing has none."""
        package, _, name = label[2:].partition(":")
        kind = world.kind(label)
        members: dict[str, object] = {"kind": kind, "line": 1, "column": 1}
        file = encode(os.fsencode(f"{real(package)}/{real(name)}".lstrip("/")))
        if kind == GENERATED:
            name = next(iter(world.needs(label)), label).partition(":")[2]
        if kind.endswith(RULE_END) or kind == GENERATED:
            placed: Placed | None = self._placer.places(package).get(name)
            file = placed.file if placed else Path(self._tree.base.build_file(package))
            if placed:
                members["line"], members["column"] = placed.span.line, placed.span.column
        if kind != MISSING:
            named(members, "file", real(file))
        yield _line(members, "label", label, self._is_exact(package))


def _sorted(labels: Collection[str]) -> list[str]:
    """Returns labels in the byte order of their real names."""
    if "__x" in "\n".join(labels) and any(map(is_encoded, labels)):
        return sorted(labels, key=lambda it: real(it).encode("utf-8", "surrogateescape"))
    return sorted(labels)


def _line(members: dict[str, object], member: str, name: str, is_exact: bool) -> bytes:
    if not is_exact:
        members["exact"] = False
    named(members, member, real(name))
    return dumps(members)


def graph_lines(world: TreeWorld, labels: list[str]) -> Iterator[bytes]:
    """Yields the edges between some targets."""
    inside = set(labels)
    for label in labels:
        for other in world.needs(label):
            if other in inside:
                members: dict[str, object] = {}
                named(members, "from", real(label))
                named(members, "to", real(other))
                yield dumps(members)


def _missing_words(count: int) -> str:
    if count == 1:
        return "1 label of this answer is missing, see --missing"
    return f"{count:,} labels of this answer are missing, see --missing"
