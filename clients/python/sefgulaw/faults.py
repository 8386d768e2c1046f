"""Messages about the faults of packages: each fault once, with all the packages that have it."""

from __future__ import annotations

from collections.abc import Iterable, Mapping, Sequence
from dataclasses import replace

from sefgulaw.base import Base
from sefgulaw.bridge.messages import fault_in
from sefgulaw.messages import CYCLE, FAULTS, Message, Related, first_line, place
from sefgulaw.names import Path, join, real
from sefgulaw.places import AnyFault
from sefgulaw.store import Cyclic, Fault, Good
from sefgulaw.telling import FAILING, Note
from sefgulaw.text import loads

NO_PACKAGE = 1
FAILED = 24
OF_TEXT = (2, 3)


def grouped(found: Mapping[str, Iterable[Message]]) -> list[Message]:
    """Returns messages in the order of their places, each once with its packages."""
    packages: dict[Message, list[str]] = {}
    for name, messages in found.items():
        for message in messages:
            packages.setdefault(message, []).append(real(name))
    whole = [replace(message, packages=tuple(names)) for message, names in packages.items()]
    return sorted(whole, key=lambda it: (it.file, it.span, str(it.code), it.text))


def is_faulty(base: Base, name: str) -> bool:
    """Tells whether a package's kept answer is a fault."""
    raw = base.store.raw(name)
    return raw is not None and not raw.startswith(b'{"name":')


def package_messages(base: Base, name: str) -> Sequence[Message]:
    """Returns the message about a faulty package as the loader tells it, without its packages."""
    item = base.store.item(name)
    if isinstance(item, Good):
        return []
    if isinstance(item, Cyclic):
        return [cycle_message(base, item)]
    known = known_message(base, item.fault)
    if known is not None:
        return [known]
    return bridged_messages(base, name, [item.fault]) or [fault_message(item.fault)]


def bridged_messages(base: Base, name: str, faults: Iterable[Fault]) -> Sequence[Message]:
    """Returns the messages about a package that was told rewritten, or should have been."""
    state = base.bridge.states.get(name)
    if state is None:
        return []
    text = base.content(state.path).decode("latin-1")
    is_syntax = state.cannot is not None and state.cannot.is_syntax
    return [
        fault_in(state, text, fault, base.options.rules)
        for fault in faults
        if not (is_syntax and fault.code in OF_TEXT)
    ]


def known_message(base: Base, fault: AnyFault) -> Message | None:
    """Returns the message about a fault that is known without its place in a file."""
    if isinstance(fault, Cyclic):
        return cycle_message(base, fault)
    note = base.mirror.notes.get(fault.path)
    if note and fault.code == FAILED and base.told.get(fault.path) == FAILING:
        return note_message(note)
    return None


def note_message(note: Note) -> Message:
    """Returns the message about a file that is not told as it is."""
    return Message(real(note.path), first_line(), note.text, note.code)


def fault_message(fault: Fault) -> Message:
    """Returns the message about a fault with the loader's own words and line."""
    if fault.code == NO_PACKAGE:
        name = real(fault.path)
        file = real(join(fault.path, "BUILD"))
        return Message(file, first_line(), f"no such package: //{name}", fault.code)
    words = FAULTS[fault.code].message if fault.code in FAULTS else "unknown fault"
    return Message(real(fault.path), place(fault.line), words, fault.code)


def cycle_message(base: Base, cycle: Cyclic) -> Message:
    """Returns the message about loads in a cycle, at the load in the file that is shown first."""
    shown = [real(label) for label in cycle.labels]
    words = " -> ".join([*shown, shown[0]])
    notes = []
    for at, label in enumerate(cycle.labels):
        path = _file_of(label)
        following = cycle.labels[(at + 1) % len(cycle.labels)]
        span = first_line()
        for load in loads(base.told.get(path, "")):
            package = base.needs.nearest(Path(path.rpartition("/")[0])) or ""
            if _absolute(load.label, package) == following:
                span = load.span
                break
        notes.append(Related(real(path), span, f"loads {real(following)}"))
    first = notes[0]
    text = f"{FAULTS[CYCLE].message}: {words}"
    return Message(first.file, first.span, text, CYCLE, tuple(notes[1:]))


def _file_of(label: str) -> Path:
    package, _, name = label[2:].partition(":")
    return join(package, name)


def _absolute(label: str, package: str) -> str:
    """Returns a label of a load in full, as the loader writes it."""
    if label.startswith("//"):
        where, colon, name = label[2:].partition(":")
        return f"//{where}:{name if colon else where.rpartition('/')[2]}"
    return f"//{package}:{label[1:] if label.startswith(':') else label}"
