"""A plain model of the loader for trees of a small kind: loads, globs, boundaries and cycles.

It computes each answer from the files alone, shares no code with the package and remembers nothing.
A module holds lines `load("LABEL", "NAME")` and `NAME = EXPRESSION`. A BUILD file may also hold
lines `target(glob("PATTERN"), EXPRESSION)`. An expression is names joined by `+`.
"""

from __future__ import annotations

import re
from typing import Mapping, Sequence

Files = Mapping[str, str]
Answer = tuple[object, ...]

LOAD = re.compile(r'load\("([^"]*)", "([^"]*)"\)')
ASSIGN = re.compile(r"(\w+) = ([\w+]+)")
TARGET = re.compile(r'target\(glob\("([^"]*)"\), ([\w+]+)\)')


class Fault(Exception):
    """The first fault that a package or a module has."""


def join(*parts: str) -> str:
    return "/".join(part for part in parts if part)


def split(path: str) -> tuple[str, str]:
    directory, _, name = path.rpartition("/")
    return directory, name


def build_of(files: Files, directory: str) -> str | None:
    for name in ("BUILD.bazel", "BUILD"):
        if join(directory, name) in files:
            return join(directory, name)
    return None


def packages(files: Files) -> list[str]:
    return sorted({split(path)[0] for path in files if split(path)[1] in ("BUILD", "BUILD.bazel")})


def crosses_boundary(files: Files, package: str, path: str) -> bool:
    """Tells whether a directory between a package and a path in it is a package."""
    directories = path.split("/")[:-1]
    return any(
        build_of(files, join(package, *directories[: count + 1]))
        for count in range(len(directories))
    )


def matches(pattern: Sequence[str], path: Sequence[str]) -> bool:
    if not pattern:
        return not path
    if pattern[0] == "**":
        return matches(pattern[1:], path) or (bool(path) and matches(pattern, path[1:]))
    one = re.escape(pattern[0]).replace(r"\*", "[^/]*")
    return bool(path and re.fullmatch(one, path[0])) and matches(pattern[1:], path[1:])


def glob(files: Files, package: str, pattern: str) -> list[str]:
    found = []
    for file in files:
        inside = file[len(package) + 1 :] if package else file
        if package and not file.startswith(package + "/"):
            continue
        if crosses_boundary(files, package, inside):
            continue
        if matches(pattern.split("/"), inside.split("/")):
            found.append(inside)
    return sorted(found)


def value_of(expression: str, names: Mapping[str, str], where: Answer) -> str:
    parts = expression.split("+")
    for part in parts:
        if part not in names and not part.islower():
            raise Fault((4, *where))
    return "".join(names.get(part, part) for part in parts)


def run(
    files: Files, path: str, package: str, opened: tuple[str, ...]
) -> tuple[dict[str, str], list[object]]:
    """Runs a file: the names that it binds itself, and its targets."""
    loaded: dict[str, str] = {}
    own: dict[str, str] = {}
    targets: list[object] = []
    for number, line in enumerate(files[path].split("\n"), 1):
        load, assign, target = LOAD.match(line), ASSIGN.match(line), TARGET.match(line)
        if load:
            exports = module(files, load[1], package, opened)
            if load[2] not in exports:
                raise Fault((18, path, number))
            loaded[load[2]] = exports[load[2]]
        elif assign:
            own[assign[1]] = value_of(assign[2], {**loaded, **own}, (path, number))
        elif target:
            found = glob(files, package, target[1])
            targets.append((found, value_of(target[2], {**loaded, **own}, (path, number))))
    return own, targets


def module(files: Files, label: str, package: str, opened: tuple[str, ...]) -> dict[str, str]:
    if label.startswith("//"):
        package, _, name = label[2:].partition(":")
    else:
        name = label.lstrip(":")
    key = f"//{package}:{name}"
    if key in opened:
        raise Fault((19, tuple(sorted(opened[opened.index(key) :]))))
    if build_of(files, package) is None:
        raise Fault((1, package))
    if crosses_boundary(files, package, name):
        raise Fault((17, join(package, name)))
    if join(package, name) not in files:
        raise Fault((16, join(package, name)))
    return run(files, join(package, name), package, (*opened, key))[0]


def answer(files: Files, package: str) -> Answer:
    """The answer about one package."""
    build = build_of(files, package)
    if build is None:
        return ("no package",)
    try:
        return ("targets", *run(files, build, package, ())[1])
    except Fault as fault:
        return ("fault", *fault.args)
