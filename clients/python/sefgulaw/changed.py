"""Which targets differ between two revisions of a git tree, and why."""

from __future__ import annotations

import os
from collections.abc import Iterable, Mapping
from dataclasses import dataclass

from sefgulaw.affected import Reasons, Users, declared, needing, sources
from sefgulaw.faults import is_faulty
from sefgulaw.gitrev import WORKING, NoRevision, Revision, commit_of
from sefgulaw.messages import Message, dumps, named, shown
from sefgulaw.mirror import BrokenLoader
from sefgulaw.names import Path, decode, encode, is_source, parent, real
from sefgulaw.pair import Pair, State, state_of, working_state
from sefgulaw.query.nodes import Nodes, PackageNodes, read_nodes
from sefgulaw.query.world import package_of
from sefgulaw.requests import FAULTS_STATUS, Answer, BadWords, End, Tree
from sefgulaw.wire import Stopped

GOOD = b'{"name":'
MOST_LEFT_OUT = 5


@dataclass(frozen=True)
class Asked:
    """Two revisions; the second one may be `.`, the working tree."""

    old: str
    new: str


class Changes:
    """Compares revisions. The loader of the last old revision is kept."""

    def __init__(self, tree: Tree) -> None:
        self._tree = tree
        self._pair: Pair | None = None
        self._compared: Compared | None = None

    def close(self) -> None:
        """Ends the kept loader."""
        if self._pair is not None:
            self._pair.close()
        self._pair = self._compared = None

    def answer(self, asked: Asked) -> Answer:
        """Answers with the targets that differ."""
        base = self._tree.base
        if asked.old == WORKING:
            raise BadWords("the old revision is a commit, and the working tree can be the new one")
        try:
            commit = commit_of(base.root, asked.old)
            compared = self._at(commit)
            if asked.new == WORKING:
                state = working_state(base.root, compared.pair.old, base.options.ignore)
            else:
                revision = Revision.read(base.root, asked.new)
                state = state_of(revision, base.options.ignore)
            return compared.answer(state)
        except NoRevision as error:
            raise BadWords(str(error)) from None
        except (Stopped, BrokenLoader):
            self.close()
            raise

    def _at(self, commit: str) -> Compared:
        """Returns the comparison with an old revision, which is loaded where it is not kept."""
        base = self._tree.base
        if self._pair is not None and self._pair.old.commit == commit:
            assert self._compared is not None
            return self._compared
        self.close()
        old = Revision.read(base.root, commit)
        self._pair = Pair(base.root, base.options, old, base.progress)
        self._compared = Compared(self._pair)
        return self._compared


class Compared:
    """An old revision, and what the new one has otherwise."""

    def __init__(self, pair: Pair) -> None:
        self.pair = pair
        self._nodes = Nodes(pair.base)
        self._users = Users(self._nodes.of)
        self._old: dict[str, PackageNodes] = {}

    def answer(self, state: State) -> Answer:
        """Answers with the targets that a side has otherwise than the old revision."""
        pair = self.pair
        pair.go(state)
        base = pair.base
        names = base.names()
        for name in set(self._users.packages()).difference(names):
            self._users.take(name, None)
        for name in names:
            self._users.take(name, base.store.raw(name))
        messages = self._new_faults(names)
        paths = {encode(path) for path in pair.paths(state)}
        reasons = self._reasons(names, messages)
        sources(reasons, self._users, paths)
        needing(reasons, self._users, self._old_outputs)
        lines = self._lines(reasons, paths, state)
        faults = [pair.tree.message_line(message) for message in _each_once(messages)]
        packages = sorted({package_of(label)[2:] for label in reasons.found})
        notes = [*_left_out(state), *pair.tree.notes(packages), *self._old_faults(names, messages)]
        is_exact = not pair.tree.notes(packages) and not state.left_out
        end = End(
            FAULTS_STATUS if messages else 0,
            base.version,
            is_exact,
            pair.tree.all_notes(notes),
        )
        return Answer(end, iter([*lines, *faults]))

    # What is declared.

    def _before(self, name: str) -> PackageNodes | None:
        raw = self.pair.before.get(name)
        if raw is None or not raw.startswith(GOOD):
            return None
        if name not in self._old:
            self._old[name] = read_nodes(raw, name)
        return self._old[name]

    def _old_outputs(self, label: str) -> Iterable[str]:
        """Returns the files that a target made in the old revision, where its package differs."""
        nodes = self._old.get(package_of(label)[2:])
        if nodes is None or label not in nodes.rules:
            return ()
        return [it for it, maker in nodes.generated.items() if maker == label]

    def _reasons(self, names: list[str], messages: Mapping[str, list[Message]]) -> Reasons:
        reasons = Reasons()
        store = self.pair.base.store
        for name in sorted({*self.pair.before, *names}):
            if self.pair.before.get(name) == store.raw(name):
                continue
            old = self._before(name)
            now = self._nodes.of(name)
            if now is None and name in messages:
                place = messages[name][0]
                reason = f"fault {place.file}:{place.span.line}"
                for label in old.rules if old is not None else ():
                    reasons.add(label, reason, True)
                continue
            declared(reasons, old.rules if old else {}, now.rules if now else {})
        return reasons

    # Faults.

    def _new_faults(self, names: list[str]) -> dict[str, list[Message]]:
        """Returns the messages about packages with a fault that the old revision has not."""
        base, before = self.pair.base, self.pair.before
        worse = [
            name
            for name in names
            if is_faulty(base, name) and before.get(name) != base.store.raw(name)
        ]
        untold = base.untold_packages().keys() - self.pair.untold_before
        found: dict[str, list[Message]] = {}
        for message in self.pair.tree.messages(sorted({*worse, *untold})):
            for package in message.packages:
                found.setdefault(encode(os.fsencode(package)), []).append(message)
        return found

    def _old_faults(self, names: list[str], messages: Mapping[str, list[Message]]) -> list[str]:
        same = [it for it in names if is_faulty(self.pair.base, it) and it not in messages]
        if not same:
            return []
        if len(same) == 1:
            return [f"//{real(same[0])} has the same fault in both revisions"]
        return [f"{len(same):,} packages have the same faults in both revisions"]

    # Lines.

    def _lines(self, reasons: Reasons, paths: set[Path], state: State) -> list[bytes]:
        files: dict[str, list[str]] = {}
        moved = {
            path
            for path in paths
            if (decode(path) in state.files) != (decode(path) in self.pair.old_state.files)
        }
        lines = []
        for label in sorted(reasons.found):
            package = package_of(label)[2:]
            why = reasons.found[label]
            members: dict[str, object] = {"reasons": [shown(real(it)) for it in why]}
            own = [it for it in why if not it.startswith(("needs ", "source "))]
            if own and package not in files:
                files[package] = self._files(package, paths, moved)
            members["files"] = [shown(real(it)) for it in files[package]] if own else []
            named(members, "label", real(label))
            if self.pair.tree.exactness.reasons(package):
                members["exact"] = False
            lines.append(dumps(members))
        return lines

    def _files(self, package: str, paths: set[Path], moved: set[Path]) -> list[str]:
        """Returns the changed files that reach a package.

        They are its BUILD file, the modules that it loads, and files in it that came or went.
        """
        needs = self.pair.base.needs
        read = set(needs.load_order(needs.builds(Path(package))))
        read |= {Path(f"{package}/{it}".lstrip("/")) for it in ("BUILD", "BUILD.bazel")}
        found = paths & read
        for path in moved:
            if not is_source(path) and needs.nearest(parent(path)) == package:
                found.add(path)
        return sorted(found)


def _each_once(found: Mapping[str, list[Message]]) -> list[Message]:
    return list(dict.fromkeys(message for messages in found.values() for message in messages))


def _left_out(state: State) -> list[str]:
    """Returns what people are told of links and submodules, which are no files for git."""
    found = [f"{os.fsdecode(path)} is {what}, and is left out" for path, what in state.left_out]
    if len(found) > MOST_LEFT_OUT:
        rest = len(found) - MOST_LEFT_OUT
        return [*found[:MOST_LEFT_OUT], f"{rest:,} more links and submodules are left out"]
    return found
