"""Gives expressions of the query language their values."""

from __future__ import annotations

import re
from collections.abc import Callable, Collection, Sequence
from dataclasses import dataclass

from sefgulaw import graph
from sefgulaw.names import real
from sefgulaw.query.parsing import BadQuery, Call, Expression, Let, Operation, Word, Words
from sefgulaw.query.world import RULE_END, Users, World, package_of

Labels = Collection[str]
Names = dict[str, Labels]

LEFT_OUT = {"visible": "visible", "executables": "executables"}


def run(expression: Expression, world: World) -> Labels:
    """Returns the targets that an expression stands for.

    They are in the order of their path where the whole expression is a `somepath`.
    """
    return Run(world).value(expression, {})


@dataclass(frozen=True)
class Run:
    """One evaluation."""

    world: World

    def value(self, expression: Expression, names: Names) -> Labels:
        """Returns the value of an expression, in which `names` stand for values."""
        if isinstance(expression, Word):
            return self._word(expression, names)
        if isinstance(expression, Words):
            found: set[str] = set()
            for word in expression.words:
                found.update(self._word(word, names))
            return found
        if isinstance(expression, Let):
            value = self.value(expression.value, names)
            return self.value(expression.body, {**names, expression.name: value})
        if isinstance(expression, Operation):
            return self._operation(expression, names)
        return self._call(expression, names)

    def _word(self, word: Word, names: Names) -> Labels:
        if word.text.startswith("$"):
            if word.text[1:] not in names:
                raise BadQuery(f"nothing is named {word.text}", word.column)
            return names[word.text[1:]]
        return self.world.matching(word)

    def _operation(self, operation: Operation, names: Names) -> Labels:
        found = self.value(operation.first, names)
        for operator, right in operation.rest:
            other = self.value(right, names)
            if operator == "union":
                found = {*found, *other}
            elif operator == "except":
                found = set(found).difference(other)
            else:
                found = set(found).intersection(other)
        return found

    def _call(self, call: Call, names: Names) -> Labels:
        if call.name in LEFT_OUT:
            raise BadQuery(f"the function {call.name} is left out", call.column)
        form = FORMS.get(call.name)
        if form is None:
            raise BadQuery(f"there is no function {call.name}", call.column)
        least, most = len(form.needed.split()), len(form.needed.split()) + len(form.more.split())
        if form.is_open:
            most = max(len(call.arguments), least)
        if not least <= len(call.arguments) <= most:
            words = f"{least}" if least == most else f"{least} to {most}"
            plural = "" if words == "1" else "s"
            raise BadQuery(f"{call.name} takes {words} argument{plural}", call.column)
        return form.call(Arguments(self, call, names))


@dataclass(frozen=True)
class Arguments:
    """The arguments of a call, read as its function wants them."""

    run: Run
    call: Call
    names: Names

    @property
    def world(self) -> World:
        """The targets that are asked about."""
        return self.run.world

    def labels(self, at: int) -> Labels:
        """Returns the value of an argument."""
        return self.run.value(self.call.arguments[at], self.names)

    def word(self, at: int) -> Word:
        """Returns an argument that is a word."""
        argument = self.call.arguments[at]
        if not isinstance(argument, Word):
            raise BadQuery(f"argument {at + 1} of {self.call.name} is a word", self.call.column)
        return argument

    def number(self, at: int) -> int | None:
        """Returns an argument that is a whole number; None where it is left out."""
        if at >= len(self.call.arguments):
            return None
        word = self.word(at)
        if not word.text.isascii() or not word.text.isdecimal():
            raise BadQuery(f"argument {at + 1} of {self.call.name} is a number", word.column)
        return int(word.text)

    def pattern(self, at: int) -> re.Pattern[str]:
        """Returns an argument that is a regular expression."""
        word = self.word(at)
        try:
            return re.compile(word.text)
        except (re.error, RecursionError, OverflowError) as error:
            raise BadQuery(f"no regular expression: {error}", word.column) from None


def _step(world: World) -> graph.Step:
    return world.needs


def reached(world: World, roots: Labels, depth: int | None) -> dict[str, int]:
    """Returns what some targets need, and loads the packages that it comes to."""
    found = dict.fromkeys(roots, 0)
    level = list(found)
    distance = 0
    while level and (depth is None or distance < depth):
        distance += 1
        world.prepare(level)
        following = []
        for label in level:
            for other in world.needs(label):
                if other not in found:
                    found[other] = distance
                    following.append(other)
        level = following
    return found


def _deps(given: Arguments) -> Labels:
    return reached(given.world, given.labels(0), given.number(1)).keys()


def _reversed(users: Users, within: Labels, roots: Labels, depth: int | None) -> Labels:
    starts = [label for label in roots if label in within]
    return graph.reach(graph.stepping(users), starts, depth).keys()


def _rdeps(given: Arguments) -> Labels:
    roots = given.labels(1)
    depth = given.number(2)
    within, users = given.world.users(given.labels(0))
    return _reversed(users, within, roots, depth)


def _allrdeps(given: Arguments) -> Labels:
    roots = given.labels(0)
    depth = given.number(1)
    within, users = given.world.users(given.world.everything())
    return _reversed(users, within, roots, depth)


def _same_package_users(given: Arguments) -> Labels:
    roots = set(given.labels(0))
    beside = given.world.siblings({package_of(label) for label in roots})
    step = _step(given.world)
    return {
        label
        for label in beside
        if any(it in roots and package_of(it) == package_of(label) for it in step(label))
    }


def _allpaths(given: Arguments) -> Labels:
    starts, ends = given.labels(0), given.labels(1)
    reached(given.world, starts, None)
    return graph.between(_step(given.world), starts, ends)


def _somepath(given: Arguments) -> Labels:
    starts, ends = sorted(given.labels(0)), set(given.labels(1))
    reached(given.world, starts, None)
    return graph.path(_step(given.world), starts, ends)


def _kind(given: Arguments) -> Labels:
    pattern, labels = given.pattern(0), given.labels(1)
    given.world.prepare(labels)
    matches: dict[str, bool] = {}
    found = set()
    for label in labels:
        kind = given.world.kind(label)
        if kind not in matches:
            matches[kind] = bool(pattern.search(kind))
        if matches[kind]:
            found.add(label)
    return found


def value_text(value: str | Sequence[str]) -> str:
    """Returns an attribute's value as `attr` compares it."""
    if isinstance(value, str):
        return {"True": "1", "False": "0"}.get(value, real(value))
    return f"[{', '.join(map(real, value))}]"


def _attr(given: Arguments) -> Labels:
    name, pattern, labels = given.word(0).text, given.pattern(1), given.labels(2)
    given.world.prepare(labels)
    found = set()
    for label in labels:
        value = given.world.attribute(label, name)
        if value is not None and pattern.search(value_text(value)):
            found.add(label)
    return found


def _filter(given: Arguments) -> Labels:
    pattern = given.pattern(0)
    return {label for label in given.labels(1) if pattern.search(real(label))}


def _labels(given: Arguments) -> Labels:
    name, labels = given.word(0).text, given.labels(1)
    given.world.prepare(labels)
    return {other for label in labels for other in given.world.labels(label, name)}


def _tests(given: Arguments) -> Labels:
    waiting = list(given.labels(0))
    seen = set(waiting)
    found = set()
    given.world.prepare(waiting)
    while waiting:
        label = waiting.pop()
        kind = given.world.kind(label)
        if kind.endswith("_test" + RULE_END):
            found.add(label)
        if kind != "test_suite" + RULE_END:
            continue
        members = _members(given.world, label)
        waiting += [it for it in members if it not in seen]
        seen.update(members)
    return found


def _members(world: World, suite: str) -> list[str]:
    """Returns what a test suite stands for: its tests, or those beside it, as its tags let in."""
    named = world.labels(suite, "tests")
    world.prepare(named)
    tags = [it for it in _tags(world, suite) if it != "manual"]
    wanted = [it.removeprefix("+") for it in tags if not it.startswith("-")]
    barred = [it[1:] for it in tags if it.startswith("-")]
    found = []
    for label in named or world.tests_of(suite):
        has = set(_tags(world, label)) | {str(world.attribute(label, "size") or "medium")}
        is_suite = world.kind(label) == "test_suite" + RULE_END
        if is_suite or (has.issuperset(wanted) and has.isdisjoint(barred)):
            found.append(label)
    return found


def _tags(world: World, label: str) -> Sequence[str]:
    value = world.attribute(label, "tags")
    return [] if value is None or isinstance(value, str) else value


def _siblings(given: Arguments) -> Labels:
    return set(given.world.siblings({package_of(label) for label in given.labels(0)}))


def _some(given: Arguments) -> Labels:
    count = given.number(1)
    return sorted(given.labels(0))[: 1 if count is None else count]


def _build_files(given: Arguments) -> Labels:
    packages = {package_of(label) for label in given.labels(0)}
    return set(given.world.build_files(packages, True))


def _load_files(given: Arguments) -> Labels:
    packages = {package_of(label) for label in given.labels(0)}
    return set(given.world.build_files(packages, False))


def _users_of_files(given: Arguments) -> Labels:
    words = [given.word(at) for at in range(len(given.call.arguments))]
    return set(given.world.users_of(words))


@dataclass(frozen=True)
class Form:
    """A function: the names of its arguments, those that may be left out, and how it is called."""

    call: Callable[[Arguments], Labels]
    needed: str
    more: str = ""
    is_open: bool = False


FORMS = {
    "allpaths": Form(_allpaths, "from to"),
    "allrdeps": Form(_allrdeps, "targets", "depth"),
    "attr": Form(_attr, "name pattern targets"),
    "buildfiles": Form(_build_files, "targets"),
    "deps": Form(_deps, "targets", "depth"),
    "filter": Form(_filter, "pattern targets"),
    "kind": Form(_kind, "pattern targets"),
    "labels": Form(_labels, "name targets"),
    "loadfiles": Form(_load_files, "targets"),
    "rbuildfiles": Form(_users_of_files, "path", is_open=True),
    "rdeps": Form(_rdeps, "universe targets", "depth"),
    "same_pkg_direct_rdeps": Form(_same_package_users, "targets"),
    "siblings": Form(_siblings, "targets"),
    "some": Form(_some, "targets", "count"),
    "somepath": Form(_somepath, "from to"),
    "tests": Form(_tests, "targets"),
}
