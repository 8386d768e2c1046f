"""The crates of a repository, the functions of their sources, and the edits of these functions.

An edit is a file *.edit of crates/NAME/wrong-bodies and, of a few cheap crates, of
crates/NAME/must-fail, which the gate tries too. Its lines `file:`, `old:` and `new:` name a source
and replace a text of it that is there exactly once.
"""

import dataclasses
import glob
import os
import re
from collections.abc import Iterable

FOLDERS = ("wrong-bodies", "must-fail")
PARTS = ("src", "specs", "proofs")
FUNCTION = re.compile(r"( *)(?:pub(?:\([a-z ]+\))? )?(?:const )?(?:unsafe )?fn (\w+)")
OWNER = re.compile(r"impl (?:(.+?) for )?(.+?) (?:where .*)?\{$")
# A contract whose function has a body: what is between is no end of an item.
CONTRACT = re.compile(r"(?ms)^ +ensures\b(?:(?!^ *(?:\{\}|\})$).)*?^ *\{$")


@dataclasses.dataclass(frozen=True, order=True)
class FunctionId:
    """A function as an edit names it: its source, the type whose `impl` it is in, and its name.
    Where an edit changes no function, the type and the name are empty."""

    path: str
    owner: str
    name: str


@dataclasses.dataclass(frozen=True)
class Function:
    """A function of a source, from its attributes to its last line. Lines are counted from 1."""

    id: FunctionId
    first: int
    last: int


@dataclasses.dataclass(frozen=True)
class Edit:
    """An edit that can be made: the edited texts by their paths, the functions that it changes, and
    its places."""

    file: str
    texts: dict[str, str]
    functions: frozenset[FunctionId]
    places: frozenset[tuple[str, int]]


@dataclasses.dataclass(frozen=True)
class Crate:
    """A crate, by its name and its folder."""

    name: str
    folder: str

    def files(self, parts: Iterable[str], ending: str) -> list[str]:
        """All files of some folders of the crate whose names have this ending, in order."""
        patterns = [f"{self.folder}/{part}/**/*{ending}" for part in parts]
        return sorted(file for it in patterns for file in glob.glob(it, recursive=True))

    def sources(self) -> list[str]:
        """All sources of the crate, in order."""
        return self.files(["src"], ".rt")

    def edits(self) -> list[str]:
        """All edits of the crate, in order."""
        patterns = [f"{self.folder}/{it}/*.edit" for it in FOLDERS]
        return sorted(file for it in patterns for file in glob.glob(it))

    def path(self, file: str) -> str:
        """The path of a file below the crate's folder."""
        return os.path.relpath(file, self.folder)


@dataclasses.dataclass(frozen=True)
class Repository:
    """A repository of crates, by its folder."""

    root: str

    def crate(self, name: str) -> Crate:
        """A crate of this name."""
        return Crate(name, f"{self.root}/crates/{name}")

    def uses(self) -> dict[str, list[str]]:
        """The crates in the order of crates.txt, each with the repository's crates that its line
        names."""
        lines = [line.partition("#")[0] for line in read(f"{self.root}/crates.txt").split("\n")]
        parts = [line.partition(":") for line in lines]
        named = {name.split()[0]: uses.split() for name, _, uses in parts if name.strip()}
        return {name: [it for it in uses if it in named] for name, uses in named.items()}


def read(file: str) -> str:
    """The text of a file."""
    with open(file, encoding="utf-8") as it:
        return it.read()


def below(name: str, uses: dict[str, list[str]]) -> list[str]:
    """All crates that a crate uses, and that these use in turn, lowest first."""
    found: set[str] = set()
    left = [name]
    while left:
        further = set(uses[left.pop()]) - found
        found |= further
        left += further
    return [it for it in uses if it in found]


def item_around(lines: list[str], at: int) -> str:
    """The first line of the item around a line, or nothing."""
    depth = indent_of(lines[at])
    around = (line for line in reversed(lines[:at]) if line.strip() and indent_of(line) < depth)
    return next(around, "").strip()


def indent_of(line: str) -> int:
    """The number of spaces before the text of a line."""
    return len(line) - len(line.lstrip())


def without_parameters(head: str) -> str:
    """The head of an impl without the impl's own parameters."""
    depth = 0
    for at, letter in enumerate(head):
        depth += (letter == "<") - (letter == ">" and head[at - 1] != "-")
        if letter == ">" and depth == 0 and head.startswith("impl<"):
            return f"impl{head[at + 1 :]}"
    return head


def owner_of(lines: list[str], at: int) -> str:
    """The type whose impl is around a line, as the prover begins the names of its functions, or
    nothing."""
    found = OWNER.match(without_parameters(item_around(lines, at)))
    name = re.search(r"\w+", found[2]) if found else None
    return name[0] if name else ""


def end_of(lines: list[str], at: int, indent: str) -> int:
    """The last line of the function whose `fn` is in a line: the closing brace, or the end of a
    mere declaration."""
    is_body = lines[at].endswith("{")
    is_open = lines[at].count("{") - lines[at].count("}")
    while lines[at] not in (f"{indent}}}", f"{indent}{{}}"):
        if not is_body and not is_open and lines[at].endswith((";", "{}")):
            break
        at += 1
        is_body = is_body or lines[at] == f"{indent}{{"
        is_open += lines[at].count("{") - lines[at].count("}")
    return at


def functions(path: str, text: str) -> list[Function]:
    """The functions of a source that is in the layout of `rt fmt`."""
    lines, made = text.split("\n"), []
    for at, line in enumerate(lines):
        found = FUNCTION.match(line)
        if found:
            indent, first = found[1], at
            while first and lines[first - 1].startswith((f"{indent}#[", f"{indent}//")):
                first -= 1
            name = FunctionId(path, owner_of(lines, at), found[2])
            made.append(Function(name, first + 1, end_of(lines, at, indent) + 1))
    return made


def has_contracts(crate: Crate) -> bool:
    """Whether a function of the crate has a contract and a body that could be a wrong one."""
    return any(CONTRACT.search(read(file)) for file in crate.sources())


def read_edit(file: str, folder: str, texts: dict[str, str]) -> Edit | str:
    """Makes an edit on top of texts that were edited before, or tells why it can't be made. An edit
    of what is no function names none."""
    texts, path, old = dict(texts), "", ""
    hit: set[FunctionId] = set()
    places: set[tuple[str, int]] = set()
    for line in read(file).split("\n"):
        if line.startswith("file: "):
            path = line.removeprefix("file: ").strip()
        elif line.startswith("old: "):
            old = line.removeprefix("old: ")
        elif line.startswith("new:"):
            if not path.startswith("src/") or not old:
                return "it names no text of src/"
            text = texts.get(path) or read(f"{folder}/{path}")
            if text.count(old) != 1:
                return f"its old text stands {text.count(old)} times in {path}"
            number = text[: text.index(old)].count("\n") + 1
            around = [it.id for it in functions(path, text) if it.first <= number <= it.last]
            hit |= set(around[-1:]) or {FunctionId(path, "", "")}
            places.add((path, number))
            texts[path] = text.replace(old, line.removeprefix("new:").removeprefix(" "))
            old = ""
    return (
        Edit(file, texts, frozenset(hit), frozenset(places))
        if hit
        else "it has no old and new text"
    )


def is_of_no_function(edit: Edit | str) -> bool:
    """Whether an edit changes a constant or a type, on which more than one function may depend."""
    return isinstance(edit, Edit) and not all(it.name for it in edit.functions)


def module_of(path: str) -> list[str]:
    """The module of a source, below the crate and below its folder of proofs."""
    parts = path.removeprefix("src/").removesuffix(".rt").split("/")
    return [it for it in parts if it not in ("lib", "main")]


def module_of_type(crate: Crate, path: str, owner: str) -> list[str]:
    """The module where a type is declared, which is that of its functions, wherever they are
    written. It is the module of the source where there is no type or it is of another crate."""
    declared = re.compile(rf"(?m)^(?:pub(?:\([a-z ]+\))? )?(?:struct|enum) {owner}\b")
    found = [it for it in crate.sources() if owner and declared.search(read(it))]
    return module_of(crate.path(found[0]) if len(found) == 1 else path)
