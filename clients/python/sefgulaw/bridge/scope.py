"""What the names of a BUILD file of Bazel mean while it is rewritten."""

from __future__ import annotations

import ast
from collections import Counter
from collections.abc import Callable, Collection, Iterator
from dataclasses import dataclass, field
from typing import Literal

from sefgulaw.bridge.natives import QUIET, RULES, SELECTS, VALUES

UNIVERSAL = frozenset(
    """
    alias all any bool dict enumerate fail filegroup genrule glob len list max min package_name
    range repr reversed sorted str test_suite tuple type zip
    """.split()
)

OWN = "sefgulaw_"
"""What the names begin with that a rewritten text binds for itself."""

Meaning = Literal["local", "foreign", "rule", "quiet", "value", "select", "universal", "unbound"]


class CannotRewrite(Exception):
    """A form that has no counterpart in the loader's language; the text says which."""

    def __init__(self, why: str, line: int, is_syntax: bool = False) -> None:
        super().__init__(why)
        self.why, self.line, self.is_syntax = why, line, is_syntax


_FORMS = {
    "AnnAssign": "an annotation",
    "Assert": "an 'assert' statement",
    "Assign": "an assignment to several targets",
    "AsyncFunctionDef": "a function",
    "ClassDef": "a class",
    "Compare": "a chain of comparisons",
    "Delete": "a 'del' statement",
    "For": "a 'for' statement",
    "FunctionDef": "a function",
    "GeneratorExp": "a generator",
    "If": "an 'if' statement",
    "JoinedStr": "an f-string",
    "Lambda": "a lambda",
    "NamedExpr": "':='",
    "Set": "a set",
    "SetComp": "a set",
    "Starred": "'*' before a value",
    "While": "a 'while' statement",
    "With": "a 'with' statement",
}


_OPERATORS = {
    "BitAnd": "&",
    "BitXor": "^",
    "Div": "/",
    "Invert": "~",
    "LShift": "<<",
    "MatMult": "@",
    "Pow": "**",
    "RShift": ">>",
}


def form_of(node: ast.AST) -> str:
    """Returns what a form of Python is called."""
    name = type(node).__name__
    if isinstance(node, (ast.BinOp, ast.UnaryOp)):
        name = type(node.op).__name__
        return f"the operator '{_OPERATORS.get(name, name)}'"
    return _FORMS.get(name, f"the form '{name}'")


def nothing_known(_label: str) -> None:
    """Knows no module."""
    return None


@dataclass(frozen=True)
class Known:
    """What a package's rewriting depends on beside its own text.

    `exports` returns the names that the module of a load's label exports, and None where it is
    none or has a fault. `rules` are rules that the settings name. `odd` are the characters outside
    the loader's names that the package's files have in theirs. `own` are the names that stand for
    the tree itself in labels.
    """

    exports: Callable[[str], Collection[str] | None] = nothing_known
    rules: Collection[str] = ()
    odd: str = ""
    own: frozenset[str] = frozenset()


@dataclass
class Replaced:
    """What stand-ins were put in place of, line by line of the file."""

    rules: Counter[str] = field(default_factory=Counter)
    loads: list[tuple[int, str]] = field(default_factory=list)
    values: list[tuple[int, str]] = field(default_factory=list)
    nameless: list[tuple[int, str]] = field(default_factory=list)


class Scope:
    """The names of one file. A global that is bound twice gets another name the second time."""

    def __init__(self, known: Known) -> None:
        self.known = known
        self.replaced = Replaced()
        self.kinds: dict[str, str] = {}
        self.wants: dict[str, str] = {}
        self._globals: dict[str, str] = {}
        self._foreign: set[str] = set()
        self._inner: list[set[str]] = []
        self._count = 0

    def meaning(self, name: str) -> Meaning:
        """Returns what a name means where it stands."""
        if any(name in names for names in self._inner) or name in self._globals:
            return "local"
        if name in self._foreign:
            return "foreign"
        if name in SELECTS:
            return "select"
        if name in QUIET:
            return "quiet"
        if name in VALUES:
            return "value"
        if name in RULES or name in self.known.rules:
            return "rule"
        return "universal" if name in UNIVERSAL else "unbound"

    def told(self, name: str) -> str:
        """Returns the name that the loader is told for a name."""
        if any(name in names for names in self._inner):
            return name
        return self._globals.get(name, name)

    def bind(self, name: str) -> str:
        """Binds a global. Returns the name that it gets."""
        taken = name in self._globals or name in UNIVERSAL or name.startswith(("load", OWN))
        self._count += taken
        told = f"sefgulaw_{self._count}_{name}" if taken else name
        self._globals[name] = told
        self._foreign.discard(name)
        return told

    def bind_foreign(self, name: str) -> None:
        """Binds a name to something that the loader does not know."""
        self._globals.pop(name, None)
        self._foreign.add(name)

    def enter(self, names: set[str]) -> None:
        """Opens a comprehension that binds names."""
        self._inner.append(names)

    def leave(self) -> None:
        """Closes the innermost comprehension."""
        self._inner.pop()


def target_names(target: ast.expr) -> Iterator[str]:
    """Yields the names that an assignment or a clause binds."""
    if isinstance(target, ast.Name):
        yield target.id
    elif isinstance(target, (ast.Tuple, ast.List)):
        for element in target.elts:
            yield from target_names(element)


def dotted(node: ast.expr) -> tuple[str, str] | None:
    """Returns the name at the head and the whole text of `a.b.c`."""
    if isinstance(node, ast.Name):
        return node.id, node.id
    if isinstance(node, ast.Attribute):
        inner = dotted(node.value)
        return (inner[0], f"{inner[1]}.{node.attr}") if inner else None
    return None


def chain(node: ast.expr) -> tuple[str, str] | None:
    """Returns the name at the head of members, calls and indices, and the text of its members."""
    while isinstance(node, (ast.Call, ast.Subscript)):
        node = node.func if isinstance(node, ast.Call) else node.value
    found = dotted(node)
    if found is None and isinstance(node, ast.Attribute):
        return chain(node.value)
    return found
