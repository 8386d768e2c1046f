"""The places of faults, by a bench beside the base, and kept until a package is affected again."""

from __future__ import annotations

import time
from collections.abc import Iterable, Mapping, Sequence
from typing import NamedTuple

from sefgulaw.base import Base
from sefgulaw.bench import Bench
from sefgulaw.faults import bridged_messages, known_message, package_messages
from sefgulaw.messages import Message
from sefgulaw.names import real
from sefgulaw.places import MOST_FAULTS, AnyFault, all_faults
from sefgulaw.store import Item
from sefgulaw.telling import FAILING
from sefgulaw.wire import Loader, Stopped

MOST_SECONDS = 5.0
"""How long the places of one answer are looked for. The loader's own lines do for the rest."""

FEW = 100
"""With more faulty packages than these, the first fault of each is looked for and no others."""

DEADLINE = 3.0


class Located(NamedTuple):
    """The messages about faulty packages, by package.

    `missed` is for how many packages no place was looked for, and `only_first` says that no further
    faults were looked for in any of them.
    """

    messages: Mapping[str, Sequence[Message]]
    missed: int
    only_first: bool


class Locator:
    """Finds the places of the faults of a base's packages."""

    def __init__(self, base: Base) -> None:
        self._base = base
        self._kept: dict[str, tuple[tuple[int, int], Sequence[Message]]] = {}
        self._version = -1
        self._bench = Bench(self._start, base.told, base.needs, base.store.raw)

    def close(self) -> None:
        """Ends the bench."""
        self._bench.close()

    def _start(self) -> Loader:
        options = self._base.options
        deadline = min(DEADLINE, options.deadline or DEADLINE)
        return Loader.start([options.program], 1, deadline, (), options.allocator)

    def messages(self, names: Iterable[str]) -> Located:
        """Returns the messages about faulty packages."""
        until = time.monotonic() + MOST_SECONDS
        names = list(names)
        most = MOST_FAULTS if len(names) <= FEW else 1
        found: dict[str, Sequence[Message]] = {}
        shared: dict[Item, Sequence[Message]] = {}
        missed = 0
        for name in names:
            kept = self._kept.get(name)
            moment = (self._base.loaded_at(name), most)
            item = self._base.store.item(name)
            is_in_time = time.monotonic() < until
            if kept is not None and kept[0] == moment:
                found[name] = kept[1]
            elif item in shared and (most == 1 or not is_in_time):
                found[name] = shared[item]
            elif is_in_time:
                found[name] = self._located(name, most)
                self._kept[name] = (moment, found[name])
            else:
                found[name] = package_messages(self._base, name)
                missed += 1
            if self._is_of_module(name, found[name]):
                shared.setdefault(item, found[name][:1])
        return Located(found, missed, most == 1)

    def _is_of_module(self, name: str, messages: Sequence[Message]) -> bool:
        """Tells whether a package has its fault from a module that it loads.

        Then every package with this fault has it from there: the module itself is faulty.
        """
        return bool(messages) and messages[0].file != real(self._base.build_file(name))

    def _located(self, name: str, most: int) -> Sequence[Message]:
        base = self._base
        path = base.build_file(name)
        plain = package_messages(base, name)
        if path not in base.told or base.told[path] == FAILING:
            return plain
        state = base.bridge.states.get(name)
        if state is not None:
            if state.rewritten is not None:
                return bridged_messages(base, name, base.bridge.faults(name, most)) or plain
            if state.cannot is None or not state.cannot.is_syntax:
                return plain
            most = 1
        if self._version != base.version:
            self._version = base.version
            self._bench.refresh()
        try:
            return list(all_faults(self._bench, path, most, self._instead)) or plain
        except Stopped:
            return plain

    def _instead(self, fault: AnyFault) -> Message | None:
        """Gives the message about a cycle, or about a file that was not told as it is."""
        return known_message(self._base, fault)
