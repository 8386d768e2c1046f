"""Texts that nobody has saved yet, over the files of a tree.

They go to a bench of their own and never to the base. So no other client sees them, and no package
of the base runs again for them.
"""

from __future__ import annotations

import time
from collections.abc import Iterable, Sequence

from sefgulaw.base import Base
from sefgulaw.bench import Bench
from sefgulaw.bridge.messages import fault_in
from sefgulaw.bridge.tree import BRIDGED_FAULTS
from sefgulaw.bridge.trials import Trials
from sefgulaw.faults import cycle_message, fault_message, known_message, note_message
from sefgulaw.guilty import note_of
from sefgulaw.messages import Message
from sefgulaw.names import Path, is_build, is_source, parent, real
from sefgulaw.places import MOST_FAULTS, AnyFault, all_faults, read_fault
from sefgulaw.store import Cyclic, Fault, cut, name_of
from sefgulaw.telling import told_text
from sefgulaw.wire import MOST_NAMES, Load, Stopped

MOST_SECONDS = 5.0
FEW = 100
MANY = 10
"""With more faulty packages than these, the fault of a module is looked for once."""


class Overlay:
    """The unsaved texts of one client."""

    def __init__(self, base: Base) -> None:
        self._base = base
        self._texts: dict[Path, str] = {}
        self._own: dict[Path, str] = {}
        self._bench: Bench | None = None
        self._version = -1

    def takes(self, path: Path) -> bool:
        """Tells whether a path is that of a source of the tree."""
        return is_source(path) and path in self._base.told

    def put(self, path: Path, text: str | None) -> None:
        """Sets the text of a source, or takes it away, so that the file's own counts again."""
        if text is None:
            self._texts.pop(path, None)
        else:
            content = text.encode("utf-8", "surrogateescape")
            self._texts[path] = told_text(content)
            self._own[path] = content.decode("latin-1")
        if self._bench is not None:
            self._bench.overlay = self._present()
            self._bench.refresh()

    def text(self, path: Path) -> str | None:
        """Returns the unsaved text of a path, if there is one."""
        return self._texts.get(path)

    def module_messages(self, path: Path) -> Sequence[Message]:
        """Returns the messages about a .bzl file's own faults, whoever loads it."""
        bench = self._filled()
        try:
            return list(
                all_faults(bench, path, MOST_FAULTS, lambda it: known_message(self._base, it))
            )
        except Stopped as stop:
            return [note_message(note_of(path, stop, self._base.options.deadline))]

    def close(self) -> None:
        """Ends the bench."""
        if self._bench is not None:
            self._bench.close()
            self._bench = None

    def reached(self) -> set[str]:
        """Returns the packages that the texts could reach."""
        needs = self._base.needs
        found: set[str] = set()
        for path, text in self._texts.items():
            if self._base.told.get(path) != text:
                users = {path} | needs.loaders(path)
                found |= {parent(user) for user in users if is_build(user)}
        return {name for name in found if self._base.has_package(name)}

    def messages(self, names: Iterable[str]) -> dict[str, Sequence[Message]]:
        """Returns the messages about those of the packages that the texts could reach."""
        wanted = sorted(self.reached().intersection(names))
        if not wanted:
            return {}
        bench = self._filled()
        faults = self._faults(bench, wanted)
        until = time.monotonic() + MOST_SECONDS
        most = MOST_FAULTS if len(faults) <= FEW else 1
        found: dict[str, Sequence[Message]] = {name: [] for name in wanted}
        of_modules: dict[AnyFault, Sequence[Message]] = {}
        for name, fault in faults.items():
            found[name] = [self._plain(fault)]
            if isinstance(fault, Message):
                continue
            path = self._base.build_file(name)
            bridged = self._bridged(bench, name, path, fault, most)
            if bridged is not None:
                found[name] = bridged
            elif fault in of_modules:
                found[name] = of_modules[fault]
            elif time.monotonic() < until:
                located = all_faults(bench, path, most, lambda it: known_message(self._base, it))
                found[name] = list(located) or found[name]
                if len(faults) > MANY and found[name][0].file != real(path):
                    of_modules[fault] = found[name][:1]
        return found

    def _bridged(
        self, bench: Bench, name: str, path: Path, fault: AnyFault, most: int
    ) -> Sequence[Message] | None:
        """Returns the messages about a package that is told rewritten; None for any other one."""
        bridge = self._base.bridge
        is_own = path in self._texts
        if not bridge.is_on or not (is_own or bridge.is_bridged(name)):
            return None
        if is_own and not (isinstance(fault, Fault) and fault.code in BRIDGED_FAULTS):
            return None
        text = self._own[path] if is_own else self._base.content(path).decode("latin-1")
        state = bridge.state_of_text(name, path, text) if is_own else bridge.states[name]
        rules = self._base.options.rules
        if state.rewritten is None:
            if state.cannot is not None and state.cannot.is_syntax:
                return list(all_faults(bench, path, 1, lambda it: known_message(self._base, it)))
            return [fault_in(state, text, Fault(0, 1, path), rules)]
        bench.overlay[path] = state.rewritten.text
        faults = Trials(bench).faults(name, path, state.rewritten.text, most)
        own = [
            it._replace(line=state.rewritten.own_line(it.line)) if it.path == path else it
            for it in faults
        ]
        return [fault_in(state, text, it, rules) for it in own]

    def _filled(self) -> Bench:
        base = self._base
        if self._bench is None:
            texts = self._present()
            self._bench = Bench(base.start_loader, base.told, base.needs, overlay=texts)
        elif self._version != base.version:
            self._bench.overlay = self._present()
            self._bench.refresh()
        self._version = base.version
        return self._bench

    def _present(self) -> dict[Path, str]:
        """Returns the texts of files that are there."""
        return {path: text for path, text in self._texts.items() if self.takes(path)}

    def _faults(self, bench: Bench, names: Sequence[str]) -> dict[str, AnyFault | Message]:
        """Asks for packages. One that ends the loader gets the message about that."""
        found: dict[str, AnyFault | Message] = {}
        for at in range(0, len(names), MOST_NAMES):
            group = names[at : at + MOST_NAMES]
            try:
                items = cut(bench.ask(Load(group)))
            except Stopped as stop:
                if len(group) > 1:
                    for name in group:
                        found.update(self._faults(bench, [name]))
                    continue
                path = self._base.build_file(group[0])
                note = note_of(path, stop, self._base.options.deadline)
                found[group[0]] = note_message(note)
                continue
            for item in items:
                fault = read_fault(b'{"packages":[%s]}' % item)
                if fault is not None:
                    found[name_of(item)] = fault
        return found

    def _plain(self, fault: AnyFault | Message) -> Message:
        if isinstance(fault, Message):
            return fault
        if isinstance(fault, Cyclic):
            return cycle_message(self._base, fault)
        return known_message(self._base, fault) or fault_message(fault)
