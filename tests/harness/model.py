"""A plain model of files, packages and globs: what edits, `under` and `glob` have to answer."""

import re
from collections.abc import Iterator, Mapping
from typing import Any

from harness.commands import Command

PATH = re.compile(r"(?!.*(?:^|/)\.{1,2}(?:/|$))[A-Za-z0-9_.-]+(?:/[A-Za-z0-9_.-]+)*\Z")
MAX_PATH = 255
MAX_EDITS = 256
BUILD_FILES = ("BUILD.bazel", "BUILD")

Answer = dict[str, Any]


class Files:
    """The texts of files by their paths, and the number of accepted edits."""

    def __init__(self) -> None:
        self.texts: dict[str, str] = {}
        self.version = 0

    def edit(self, command: Command) -> tuple[Answer, list[Command]]:
        """The answer to an edit or a batch, and its changes where it was accepted."""
        is_batch = command["op"] == "edit"
        changes: list[Command] = command["edits"] if is_batch else [command]
        if not 1 <= len(changes) <= MAX_EDITS:
            return {"refused": 10}, []
        after = dict(self.texts)
        for place, change in enumerate(changes):
            number = refusal(after, change)
            if number:
                at = {"edit": place} if is_batch else {}
                return {**at, "refused": number}, []
            make_change(after, change)
        self.texts, self.version = after, self.version + 1
        return {"ok": self.version}, changes


def refusal(files: Mapping[str, str], change: Command) -> int | None:
    """The first refusal of a change of these files, or None."""
    path = change["path"]
    if len(path) > MAX_PATH or not PATH.match(path):
        return 2
    if change["op"] == "del":
        return None if path in files else 4
    if any(it in files for it in above(path)) or any(it.startswith(path + "/") for it in files):
        return 3
    return None


def make_change(files: dict[str, str], change: Command) -> None:
    """Makes a change that is not refused."""
    if change["op"] == "put":
        files[change["path"]] = change["text"]
    else:
        del files[change["path"]]


def split(path: str) -> tuple[str, str]:
    """The directory of a path, and its last segment."""
    directory, _, name = path.rpartition("/")
    return directory, name


def path_in(directory: str, rest: str) -> str:
    """The path of what is in a directory."""
    return f"{directory}/{rest}" if directory else rest


def above(path: str) -> list[str]:
    """The proper directories of a path."""
    parts = path.split("/")
    return ["/".join(parts[:end]) for end in range(1, len(parts))]


def build_file(files: Mapping[str, str], directory: str) -> str | None:
    """The path of a directory's build file, or None where it is no package."""
    paths = (path_in(directory, name) for name in BUILD_FILES)
    return next((path for path in paths if path in files), None)


def packages_at(files: Mapping[str, str], directory: str) -> list[str]:
    """The names of the packages at and below a directory, in byte order."""
    holders = {split(path)[0] for path in files if split(path)[1] in BUILD_FILES}
    front = directory + "/"
    return sorted(it for it in holders if not directory or f"{it}/".startswith(front))


def segment_matches(pattern: str, name: str) -> bool:
    """Whether a segment matches: each `*` is for any bytes of it."""
    parts = ".*".join(re.escape(part) for part in pattern.split("*"))
    return re.fullmatch(parts, name) is not None


def matches(pattern: list[str], path: list[str]) -> bool:
    """Whether segments match: `**` is for any number of them, and another segment for one."""
    if not pattern:
        return not path
    if pattern[0] == "**":
        return any(matches(pattern[1:], path[taken:]) for taken in range(len(path) + 1))
    if not path or not segment_matches(pattern[0], path[0]):
        return False
    return matches(pattern[1:], path[1:])


def some_matches(patterns: list[str], path: str) -> bool:
    """Whether a path matches one of these patterns."""
    return any(matches(pattern.split("/"), path.split("/")) for pattern in patterns)


def rests_of(files: Mapping[str, str], package: str, directories: bool) -> Iterator[str]:
    """The paths below a package, and its directories where they are wanted."""
    front = path_in(package, "")
    rests = {path[len(front) :] for path in files if path.startswith(front)}
    yield from rests
    for way in {way for rest in rests for way in above(rest)} if directories else ():
        if way not in rests and not build_file(files, path_in(package, way)):
            yield way


def globbed(files: Mapping[str, str], package: str, call: Mapping[str, Any]) -> list[str]:
    """What a call of `glob` finds in a package: what an included pattern matches and no excluded
    one, and what is in no package below."""
    return sorted(
        rest
        for rest in rests_of(files, package, call["directories"])
        if some_matches(call["include"], rest)
        and not some_matches(call["exclude"], rest)
        and not any(build_file(files, path_in(package, way)) for way in above(rest))
    )
