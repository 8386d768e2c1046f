"""The declarations of a file of definitions or lemmas, and the names that it has in scope."""

import dataclasses
import re
from collections.abc import Iterator

NAME = r"[^\s(){}\[\],;.@]+"
HEAD = r"(?:(?:abbrev|unfoldable|pub) )*"
SIGNATURE = re.compile(rf"{HEAD}({NAME}) :(?: |$)")
KIND = re.compile(rf"{HEAD}(record|data|ruleset) ({NAME})")
CONSTRUCTOR = re.compile(rf"  (?:pub )?({NAME}) :(?: |$)")
USE = re.compile(r"(pub )?use ([\w.◌'-]+?)(?:\.\{(.*)\}| as (\S+))?$")
BLOCK = re.compile(r"(?:abbrev )?(?:mutual|module)\b")
TOKEN = re.compile(r"[^\s(){}\[\],;@|]+")


@dataclasses.dataclass
class Declaration:
    """A definition, a lemma or a rule set: its line, its text, and the names of its constructors.
    The kind is that of a record, a data type or a rule set."""

    name: str
    line: int
    is_public: bool
    kind: str
    text: list[str] = dataclasses.field(default_factory=list)
    constructors: list[str] = dataclasses.field(default_factory=list)

    def add(self, line: str, text: str) -> None:
        """Adds a line within the declaration, which may declare a constructor."""
        self.text.append(line)
        found = CONSTRUCTOR.match(text) if self.kind == "data" else None
        if found:
            self.constructors.append(found[1])

    def words(self) -> set[str]:
        """The words of its text."""
        return {word for line in self.text for word in words_of(line)}


@dataclasses.dataclass
class Import:
    """A name that a file imports: the module, the name there or nothing, and the name here."""

    module: str
    name: str
    here: str
    is_passed_on: bool


@dataclasses.dataclass
class Module:
    """What a file declares and imports."""

    declarations: list[Declaration]
    imports: list[Import]


def words_of(line: str) -> Iterator[str]:
    """The words of a line, without comments. One with a dot counts whole, and by its beginnings."""
    for word in TOKEN.findall(re.sub(r"(^|\s)--(\s.*|$)", "", line)):
        parts = word.split(".")
        for count in range(1, len(parts) + 1):
            yield ".".join(parts[:count])


def imports_in(line: str) -> Iterator[Import]:
    """The names that a line of a file imports."""
    found = USE.match(line.strip().removeprefix("ghost ").removesuffix(";"))
    if not found:
        return
    is_passed_on, module = bool(found[1]), found[2]
    if found[3] is not None:
        for item in found[3].split(","):
            name, _, here = item.strip().partition(" as ")
            yield Import(module, name, here or name, is_passed_on)
    elif found[4]:
        yield Import(module, "", found[4], is_passed_on)
    else:
        home, _, name = module.rpartition(".")
        yield Import(home, name, name, is_passed_on)


def indent_of(line: str) -> int:
    """The number of spaces before the text of a line."""
    return len(line) - len(line.lstrip(" "))


class Reader:
    """Reads the declarations of a file, block by block."""

    def __init__(self, text: str) -> None:
        self.lines = text.split("\n")
        self.declarations: list[Declaration] = []
        self.imports: list[Import] = []

    def read(self) -> Module:
        """Reads the file."""
        self.block(0, 0, [])
        return Module(self.declarations, self.imports)

    def block(self, at: int, indent: int, head: list[str]) -> int:
        """Reads the declarations at an indentation, and returns the first line behind them. The
        head of a module that has parameters belongs to each declaration in it."""
        present: Declaration | None = None
        while at < len(self.lines):
            line = self.lines[at]
            depth = indent_of(line)
            if line.strip() and depth < indent:
                return at
            text = line[indent:]
            if not line.strip() or depth > indent or text.startswith("--"):
                if present and line.strip():
                    present.add(line, text)
                at += 1
            elif text.startswith(("use ", "pub use ")):
                self.imports += imports_in(text)
                present, at = None, at + 1
            elif BLOCK.match(text):
                present = None
                at = self.inner(at, indent, head)
            else:
                present = self.declared(text, at, head) or present
                if present:
                    present.text.append(line)
                at += 1
        return at

    def inner(self, at: int, indent: int, head: list[str]) -> int:
        """Reads a block of declarations that know each other, or a module with parameters."""
        first = at
        if "module" in self.lines[at]:
            while not self.lines[at].rstrip().endswith("where"):
                at += 1
        more = head + self.lines[first : at + 1]
        at += 1
        inside = next((it for it in self.lines[at:] if it.strip()), "")
        return self.block(at, max(indent_of(inside), indent + 1), more)

    def declared(self, text: str, at: int, head: list[str]) -> Declaration | None:
        """The declaration that begins with a line, or nothing."""
        kind, found = KIND.match(text), SIGNATURE.match(text)
        if not kind and not found:
            return None
        name = kind[2] if kind else found[1] if found else ""
        is_public = bool(re.match(r"(?:(?:abbrev|unfoldable) )*pub ", text))
        made = Declaration(name, at + 1, is_public, kind[1] if kind else "", list(head))
        self.declarations.append(made)
        return self.declarations[-1]


def read_module(text: str) -> Module:
    """The declarations and imports of a file."""
    return Reader(text).read()
