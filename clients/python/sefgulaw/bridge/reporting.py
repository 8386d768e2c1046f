"""What stand-ins replaced in a tree, and what could not be replaced."""

from __future__ import annotations

from collections import Counter
from collections.abc import Iterator
from dataclasses import dataclass

from sefgulaw.base import Base
from sefgulaw.bridge.scope import Replaced
from sefgulaw.faults import is_faulty, package_messages
from sefgulaw.messages import Message, dumps, named
from sefgulaw.names import real

MOST_KINDS = 12


@dataclass(frozen=True)
class PackageReport:
    """One package: the file that is told, how it loads, what was replaced, and its fault."""

    name: str
    file: str
    state: str
    replaced: Replaced
    fault: Message | None


@dataclass(frozen=True)
class Report:
    """All packages of a tree, in the order of their names."""

    packages: tuple[PackageReport, ...]

    def count(self, state: str) -> int:
        """Returns how many packages load so."""
        return sum(it.state == state for it in self.packages)

    def rules(self) -> Counter[str]:
        """Returns how many targets of each kind stand-ins declare."""
        found: Counter[str] = Counter()
        for package in self.packages:
            found.update(package.replaced.rules)
        return found

    def foreign_loads(self) -> int:
        """Returns how many loads of other repositories were replaced."""
        loads = (label for it in self.packages for _, label in it.replaced.loads)
        return sum(label.startswith("@") for label in loads)


def report(base: Base) -> Report:
    """Loads all packages of a tree, which was refreshed, and says what was replaced."""
    base.load(base.names())
    found = []
    for name in base.names():
        state = base.bridge.states.get(name)
        rewritten = state.rewritten if state else None
        fault = next(iter(package_messages(base, name)), None)
        if is_faulty(base, name):
            how = "fault"
        else:
            how = "exact" if rewritten is None else "stand-ins"
        replaced = rewritten.replaced if rewritten else Replaced()
        found.append(PackageReport(name, real(base.build_file(name)), how, replaced, fault))
    return Report(tuple(found))


def text_lines(found: Report) -> Iterator[str]:
    """Yields a report for people: a summary, then what could not be replaced."""
    total = len(found.packages)
    loaded = found.count("stand-ins") + found.count("exact")
    kinds = found.rules().most_common()
    shown = [f"{kind} {number:,}" for kind, number in kinds[:MOST_KINDS]]
    if len(kinds) > MOST_KINDS:
        shown.append(f"and {len(kinds) - MOST_KINDS:,} other kinds")
    exact = f"{found.count('exact'):,} as they are"
    parts = [f"{loaded:,} of {total:,} packages load with stand-ins, {exact}"]
    parts += [", ".join(shown)] if shown else []
    loads = found.foreign_loads()
    parts.append(f"{loads:,} load{'' if loads == 1 else 's'} of other repositories")
    yield "; ".join(parts)
    values: Counter[str] = Counter()
    nameless: Counter[str] = Counter()
    for package in found.packages:
        values.update(name for _, name in package.replaced.values)
        nameless.update(name for _, name in package.replaced.nameless)
    if values:
        yield f"taken as empty, since nothing is known of them: {_counted(values)}"
    if nameless:
        yield f"called without a name, so what they declare is not known: {_counted(nameless)}"
    for package in found.packages:
        if package.fault is not None:
            place = f"{package.fault.file}:{package.fault.span.line}"
            yield f"not replaced: {place}: {package.fault.text} [{package.fault.code}]"


def _counted(found: Counter[str]) -> str:
    return ", ".join(f"{name} {number:,}" for name, number in found.most_common())


def json_lines(found: Report) -> Iterator[bytes]:
    """Yields a line of JSON for each package that does not load as it is."""
    for package in found.packages:
        if package.state == "exact":
            continue
        members: dict[str, object] = {"state": package.state}
        named(members, "file", package.file)
        named(members, "package", real(package.name))
        replaced = package.replaced
        members["loads"] = [{"label": label, "line": line} for line, label in replaced.loads]
        members["nameless"] = [{"line": line, "name": name} for line, name in replaced.nameless]
        members["rules"] = dict(sorted(replaced.rules.items()))
        members["values"] = [{"line": line, "name": name} for line, name in replaced.values]
        if package.fault is not None:
            fault = package.fault
            members["fault"] = {
                "code": fault.code,
                "file": fault.file,
                "line": fault.span.line,
                "message": fault.text,
            }
        yield dumps(members)
