"""The packages of a Bazel tree: told as they are, and rewritten only where that gives a fault.

It is decided again whenever a package is affected. So what loads as it is stays as it is, and what
is mended becomes so.
"""

from __future__ import annotations

import json
from collections.abc import Collection, Iterable, Iterator, Mapping, Sequence
from typing import Protocol

from sefgulaw.bench import Bench
from sefgulaw.bridge.decoding import decode
from sefgulaw.bridge.labels import main_label
from sefgulaw.bridge.modules import Modules
from sefgulaw.bridge.repository import Repository
from sefgulaw.bridge.rewriting import rewrite
from sefgulaw.bridge.scope import CannotRewrite, Known
from sefgulaw.bridge.stand_ins import files
from sefgulaw.bridge.state import State
from sefgulaw.bridge.trials import Trials, fault_of
from sefgulaw.mirror import Mirror
from sefgulaw.names import Path, decode as real_bytes, is_build, parent
from sefgulaw.needs import Needs
from sefgulaw.settings import StandIns
from sefgulaw.store import Fault, cut, name_of
from sefgulaw.telling import Text
from sefgulaw.text import load_labels
from sefgulaw.wire import Loader, Stopped

BRIDGED_FAULTS = frozenset((2, 3, 4, 5, 15, 16, 18, 25))
"""The faults that a package of Bazel can have for what the loader's language leaves out."""

MOST_ROUNDS = 8
MOST_AT_ONCE = 1024


class Told(Protocol):
    """What a bridge uses of a base."""

    root: bytes
    mirror: Mirror
    needs: Needs
    odd: set[Path]

    def readable(self, path: Path) -> bytes | None:
        """Returns a source's own bytes; None where it cannot be read."""

    def build_file(self, package: str) -> Path:
        """Returns the BUILD file of a package."""

    def start_loader(self) -> Loader:
        """Starts a loader that was told nothing."""


class Bridge:
    """Which packages are told rewritten, and the answers about them."""

    def __init__(self, base: Told, rules: Collection[str]) -> None:
        self._base, self._rules = base, frozenset(rules)
        self.is_on = False
        self.states: dict[str, State] = {}
        self._repository = Repository(base.root)
        self._odd: dict[str, set[str]] | None = None
        self._stand_ins: Mapping[Path, str] = {}
        self._modules = Modules(base.start_loader, base.mirror, base.needs)
        self._trials = Trials(Bench(base.start_loader, base.mirror.told, base.needs))

    def close(self) -> None:
        """Ends the loaders of its own."""
        self._modules.close()
        self._trials.close()

    def switch(self, wanted: StandIns) -> bool:
        """Turns stand-ins on or off, as the root's files say. Tells whether that is a change."""
        names = self._repository.names()
        on = wanted == "always" or (wanted == "auto" and names is not None)
        own = names or frozenset()
        changed = on != self.is_on or (on and own != self._modules.own)
        self.is_on, self._modules.own = on, own
        return changed

    def told(self, path: Path) -> Text | None:
        """Returns what is told of a path instead of its own text, if anything."""
        if not (self.states or self._stand_ins):
            return None
        stand_in = self._stand_ins.get(path)
        if stand_in is not None:
            return Text(stand_in)
        state = self.states.get(parent(path)) if is_build(path) else None
        if state is None or state.rewritten is None or state.path != path:
            return None
        return Text(state.rewritten.text)

    def drop(self, changed: Iterable[Path]) -> set[Path]:
        """Forgets what was rewritten in packages of which a BUILD file has changed.

        Returns the files that were told rewritten, which are to be told as they are.
        """
        names = {parent(path) for path in changed if is_build(path)} & self.states.keys()
        return {self.states.pop(name).path for name in names}

    def is_stand_in(self, path: Path) -> bool:
        """Tells whether a file is none of the tree's, and was told for the stand-ins."""
        return path in self._stand_ins

    def is_bridged(self, name: str) -> bool:
        """Tells whether a package's answer rests on stand-ins."""
        state = self.states.get(name)
        return state is not None and state.rewritten is not None

    def own_line(self, path: Path, line: int) -> int:
        """Returns the file's own line of a told line."""
        state = self.states.get(parent(path)) if is_build(path) else None
        if state is None or state.rewritten is None or state.path != path:
            return line
        return state.rewritten.own_line(line)

    # Loading.

    def load(self, names: Sequence[str]) -> Iterator[bytes]:
        """Asks for packages as `Mirror.load` does, and bridges those that need it."""
        if not self.is_on and not self.states:
            yield from self._base.mirror.load(names)
            return
        for at in range(0, len(names), MOST_AT_ONCE):
            group = names[at : at + MOST_AT_ONCE]
            items = self._as_they_are(group)
            todo = [name for name in group if self.is_on and _is_bridgeable(items[name])]
            self._modules.forget()
            self._odd = None
            for name in todo:
                self.states[name] = State(self._base.build_file(name))
            for _ in range(MOST_ROUNDS):
                if not todo:
                    break
                bridged = self._rewrite(todo)
                items.update(self._ask(bridged))
                todo = [name for name in bridged if self._leaves_out_more(name, items[name])]
            yield b'{"packages":[%s]}' % b",".join(self._shown(it, items[it]) for it in group)

    def _ask(self, names: Sequence[str]) -> dict[str, bytes]:
        return {
            name_of(item): item for answer in self._base.mirror.load(names) for item in cut(answer)
        }

    def _as_they_are(self, names: Sequence[str]) -> dict[str, bytes]:
        """Asks for packages that are told as they are."""
        states = [state for name in names if (state := self.states.pop(name, None)) is not None]
        self._tell([state.path for state in states if state.rewritten is not None])
        return self._ask(names)

    def _tell(self, paths: Sequence[Path]) -> None:
        if not paths:
            return
        if not self._stand_ins and any(self.told(path) for path in paths):
            self._stand_ins = files()
            paths = [*self._stand_ins, *paths]
        base = self._base
        told = base.mirror.told
        for path in base.mirror.sync(paths).changed:
            state = self.states.get(parent(path))
            own = state.labels if state is not None and state.path == path else ()
            base.needs.update(path, told.get(path), own)
        base.needs.affected(paths)

    def _rewrite(self, names: Sequence[str]) -> list[str]:
        """Tells packages rewritten. Returns those that could be."""
        found = []
        for name in names:
            state = self.states[name]
            content = self._base.readable(state.path)
            if content is None:
                continue
            text = content.decode("latin-1")
            state.labels = self._labels_of(text)
            self._base.needs.update(state.path, self._base.mirror.told[state.path], state.labels)
            try:
                state.rewritten = rewrite(text, self._known(name, state))
                state.labels = state.rewritten.labels
                found.append(name)
            except CannotRewrite as cannot:
                if state.rewritten is None:
                    state.cannot = cannot
        self._tell([self.states[name].path for name in found])
        return found

    def _labels_of(self, text: str) -> tuple[str, ...]:
        """Returns the labels that a text loads, as far as its lines look so."""
        found = load_labels(text.replace("\r\n", "\n").replace("\t", " "))
        return tuple(main_label(label, self._modules.own) for label in found)

    def _known(self, name: str, state: State) -> Known:
        def exports(label: str) -> Collection[str] | None:
            return None if label in state.without else self._modules.exports(label, name)

        return Known(exports, self._rules, self._odd_of(name), self._modules.own)

    def _odd_of(self, name: str) -> str:
        """Returns the characters that names of the package's files have and the loader has not."""
        if self._odd is None:
            self._odd = {}
            for path in self._base.odd:
                package = self._base.needs.nearest(parent(path)) or ""
                kept = self._odd.setdefault(package, set())
                kept.update(chr(it) for it in real_bytes(path) if it < 128 and not _is_plain(it))
        return "".join(sorted(self._odd.get(name, ())))

    def _leaves_out_more(self, name: str, item: bytes) -> bool:
        """Leaves out the loads that lead to a module in which the package has its fault."""
        fault = fault_of(item)
        if fault is None or not fault.path.endswith(".bzl") or fault.path in self._stand_ins:
            return False
        state = self.states[name]
        before = len(state.without)
        state.without |= self._modules.leading_to(fault.path, name)
        return len(state.without) > before

    # Answers.

    def shown(self, answer: bytes) -> bytes:
        """Returns an answer of the mirror as `load` gives it."""
        if not self.states:
            return answer
        items = [self._shown(name_of(item), item) for item in cut(answer)]
        return b'{"packages":[%s]}' % b",".join(items)

    def _shown(self, name: str, item: bytes) -> bytes:
        """Returns the item of a package with the file's own lines, and without stand-ins."""
        state = self.states.get(name)
        if state is None or state.rewritten is None:
            return item
        fault = fault_of(item)
        if fault is None:
            return decode(item) if item.startswith(b'{"name"') else item
        if fault.path == state.path:
            return _bad(name, fault.code, state.rewritten.own_line(fault.line), state.path)
        if fault.path in self._stand_ins:
            told = self._line_of(name, state, fault)
            return _bad(name, fault.code, state.rewritten.own_line(told), state.path)
        return item

    def _line_of(self, name: str, state: State, fault: Fault) -> int:
        """Finds the told line that leads to a fault in a stand-in."""
        lines = self._base.mirror.told[state.path].splitlines(True)
        try:
            return self._trials.line_of(name, state.path, lines, fault)
        except Stopped:
            return 0

    def faults(self, name: str, most: int) -> list[Fault]:
        """Returns the faults of a package that was told rewritten, with the file's own lines."""
        state = self.states[name]
        if state.rewritten is None:
            return []
        told = self._trials.faults(name, state.path, self._base.mirror.told[state.path], most)
        return [it._replace(line=self.own_line(it.path, it.line)) for it in told]

    def state_of_text(self, name: str, path: Path, text: str) -> State:
        """Returns how a package would be told with another text in its BUILD file.

        The characters of the text are its bytes. Nothing is told for it.
        """
        state = State(path)
        self._modules.forget()
        try:
            state.rewritten = rewrite(text, self._known(name, state))
        except CannotRewrite as cannot:
            state.cannot = cannot
        return state


def _bad(name: str, code: int, line: int, path: Path) -> bytes:
    members = {"fault": {"code": code, "line": line, "path": path}, "name": name}
    return json.dumps(members, separators=(",", ":")).encode("ascii")


def _is_bridgeable(item: bytes) -> bool:
    fault = fault_of(item)
    return fault is not None and fault.code in BRIDGED_FAULTS


def _is_plain(number: int) -> bool:
    return chr(number).isalnum() or chr(number) in "_-./"
