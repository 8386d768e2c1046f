"""Expressions of Bazel's BUILD files written in the loader's language.

An expression keeps its value. What the loader does not know stands as an empty value of the kind
that its place asks for, and is noted.
"""

from __future__ import annotations

import ast
from collections.abc import Mapping

from sefgulaw.bridge import formats
from sefgulaw.bridge.kinds import kind_of
from sefgulaw.bridge.labels import ODD, looks_like_label
from sefgulaw.bridge.natives import VALUES
from sefgulaw.bridge.scope import CannotRewrite, Scope, chain, dotted, form_of, target_names
from sefgulaw.bridge.writing import literal, plain

IF, OR, AND, NOT, COMPARE, SUM, TERM, UNARY, ATOM = range(1, 10)

EMPTY = {"list": "[]", "string": '""', "dict": "{}", "any": "None"}
METHODS = frozenset(
    "append endswith extend get items join keys replace split startswith strip values".split()
)
EXTRA_METHODS = frozenset(
    """
    capitalize count elems endswith find format index lower lstrip partition removeprefix
    removesuffix replace rfind rpartition rsplit rstrip setdefault split splitlines startswith
    strip title update upper
    """.split()
)
_MOST_PLAIN = {"split": 1, "replace": 2, "strip": 0}

_SUMS: dict[type[ast.operator], str] = {ast.Add: "+", ast.Sub: "-"}
_TERMS: dict[type[ast.operator], str] = {ast.Mult: "*", ast.FloorDiv: "//", ast.Mod: "%"}
_COMPARES: dict[type[ast.cmpop], str] = {
    ast.Eq: "==",
    ast.NotEq: "!=",
    ast.Lt: "<",
    ast.LtE: "<=",
    ast.Gt: ">",
    ast.GtE: ">=",
    ast.In: "in",
    ast.NotIn: "not in",
}


class Emitter:
    """Writes expressions, and collects which helpers and which characters of names they need."""

    def __init__(self, scope: Scope) -> None:
        self.scope = scope
        self.helpers: set[str] = set()
        self.odd: set[str] = set(scope.known.odd)

    def helper(self, name: str) -> str:
        """Returns the told name of a helper, which is loaded then."""
        self.helpers.add(name)
        return f"sefgulaw_{name}"

    def unknown(self, node: ast.expr, name: str, want: str) -> str:
        """Writes the empty value for something that the loader does not know, and notes it."""
        self.scope.replaced.values.append((node.lineno, name))
        return EMPTY[want]

    def expr(self, node: ast.expr, want: str = "any", level: int = IF) -> str:
        """Writes an expression, in parentheses where its place needs them."""
        text, own = self._expr(node, want)
        return f"({text})" if own < level else text

    def value(self, node: ast.expr, want: str, level: int) -> str:
        """Writes an expression that is no part of a statement by itself."""
        return self.expr(node, want, level)

    def _expr(self, node: ast.expr, want: str) -> tuple[str, int]:
        if isinstance(node, ast.Constant):
            return self._constant(node)
        if isinstance(node, ast.Name):
            return self._name(node, want), ATOM
        if isinstance(node, ast.Call):
            return self.call(node, want)
        if isinstance(node, (ast.List, ast.Tuple, ast.Dict)):
            return self._display(node, want), ATOM
        if isinstance(node, (ast.ListComp, ast.DictComp)):
            return self._comprehension(node), ATOM
        if isinstance(node, ast.Attribute):
            return self._attribute(node, want), ATOM
        if isinstance(node, ast.Subscript):
            return self._subscript(node, want), ATOM
        return self._operation(node, want)

    def _constant(self, node: ast.Constant) -> tuple[str, int]:
        value = node.value
        if isinstance(value, str):
            self.odd.update(ODD.intersection(value) if len(value) < 256 else ())
            return literal(value), ATOM
        if value is None or isinstance(value, (bool, int)):
            return str(value), ATOM
        raise CannotRewrite(f"a value of type {type(value).__name__}", node.lineno)

    def _name(self, node: ast.Name, want: str) -> str:
        meaning = self.scope.meaning(node.id)
        if meaning in ("foreign", "rule", "quiet", "value", "select"):
            return self.unknown(node, node.id, want)
        return self.scope.told(node.id)

    def _attribute(self, node: ast.Attribute, want: str) -> str:
        head = chain(node)
        if head and self.scope.meaning(head[0]) == "foreign":
            return self.unknown(node, head[1], want)
        raise CannotRewrite(f"a member '.{node.attr}' that is not called", node.lineno)

    def _display(self, node: ast.List | ast.Tuple | ast.Dict, want: str) -> str:
        if isinstance(node, ast.Dict):
            entries = []
            for key, value in zip(node.keys, node.values):
                if key is None:
                    raise CannotRewrite("'**' in a dictionary", node.lineno)
                entries.append(f"{self._key(key)}: {self.expr(value)}")
            return "{" + ", ".join(entries) + "}"
        inner = "string" if want == "strings" else "any"
        kept = [it for it in node.elts if not self.drops(it)]
        parts = [self.expr(it, inner) for it in kept]
        if isinstance(node, ast.List):
            return f"[{', '.join(parts)}]"
        return f"({', '.join(parts)}{',' if len(parts) == 1 else ''})"

    def _key(self, node: ast.expr) -> str:
        """Writes a key of a dictionary. One that is not known is no other key of it."""
        head = chain(node)
        if head is None or self.scope.meaning(head[0]) != "foreign":
            return self.expr(node)
        self.scope.replaced.values.append((node.lineno, head[1]))
        return literal(f"{head[1]} {len(self.scope.replaced.values)}")

    def drops(self, node: ast.expr) -> bool:
        """Tells whether an element of a list is left out, since nothing is known of it."""
        head = chain(node)
        if head is None or self.scope.meaning(head[0]) != "foreign":
            return False
        self.scope.replaced.values.append((node.lineno, head[1]))
        return True

    def _comprehension(self, node: ast.ListComp | ast.DictComp) -> str:
        clauses, opened = [], 0
        for generator in node.generators:
            iterated = self.value(generator.iter, "list", OR)
            self.scope.enter(set(target_names(generator.target)))
            opened += 1
            clauses.append(f"for {self.target(generator.target, False)} in {iterated}")
            clauses += [f"if {self.value(test, 'any', OR)}" for test in generator.ifs]
        if isinstance(node, ast.ListComp):
            text = f"[{self.expr(node.elt)} {' '.join(clauses)}]"
        else:
            entry = f"{self.expr(node.key)}: {self.expr(node.value)}"
            text = "{" + f"{entry} {' '.join(clauses)}" + "}"
        for _ in range(opened):
            self.scope.leave()
        return text

    def target(self, node: ast.expr, binds: bool = True) -> str:
        """Writes what an assignment or a clause binds."""
        if isinstance(node, ast.Name):
            return self.scope.bind(node.id) if binds else node.id
        if isinstance(node, (ast.Tuple, ast.List)):
            parts = [self.target(it, binds) for it in node.elts]
            return f"({', '.join(parts)}{',' if len(parts) == 1 else ''})"
        if isinstance(node, ast.Subscript):
            return self._subscript(node, "any")
        raise CannotRewrite("an assignment to this", node.lineno)

    def _subscript(self, node: ast.Subscript, want: str) -> str:
        head = chain(node)
        if head and self.scope.meaning(head[0]) == "foreign":
            return self.unknown(node, head[1], want)
        value = self.expr(node.value, "any", ATOM)
        if not isinstance(node.slice, ast.Slice):
            return f"{value}[{self.expr(node.slice)}]"
        if node.slice.step is not None:
            raise CannotRewrite("a slice with a step", node.lineno)
        bounds = (node.slice.lower, node.slice.upper)
        first, last = (self.expr(it) if it else "" for it in bounds)
        return f"{value}[{first}:{last}]"

    # Operators.

    def _operation(self, node: ast.expr, want: str) -> tuple[str, int]:
        if isinstance(node, ast.BinOp):
            return self._binary(node, want)
        if isinstance(node, ast.IfExp):
            body, test = self.expr(node.body, want, OR), self.expr(node.test, "any", OR)
            return f"{body} if {test} else {self.expr(node.orelse, want, IF)}", IF
        if isinstance(node, ast.BoolOp):
            word, level = ("and", AND) if isinstance(node.op, ast.And) else ("or", OR)
            parts = [self.expr(it, want, level + (at > 0)) for at, it in enumerate(node.values)]
            return f" {word} ".join(parts), level
        if isinstance(node, ast.UnaryOp):
            if isinstance(node.op, ast.Not):
                return f"not {self.expr(node.operand, 'any', NOT)}", NOT
            if not isinstance(node.op, ast.Invert):
                sign = "-" if isinstance(node.op, ast.USub) else "+"
                return f"{sign}{self.expr(node.operand, 'any', UNARY)}", UNARY
        if isinstance(node, ast.Compare) and len(node.ops) == 1:
            comparison = _COMPARES.get(type(node.ops[0]))
            if comparison:
                right = "list" if "in" in comparison else "any"
                left = self.expr(node.left, "any", SUM)
                right_text = self.expr(node.comparators[0], right, SUM)
                return f"{left} {comparison} {right_text}", COMPARE
        raise CannotRewrite(form_of(node), node.lineno)

    def _binary(self, node: ast.BinOp, want: str) -> tuple[str, int]:
        kind = type(node.op)
        if kind is ast.Mod and self.kind(node.left) != "int":
            return self._percent(node)
        if kind is ast.BitOr:
            helper = self.helper("union")
            return (
                f"{helper}({self.expr(node.left, 'dict')}, {self.expr(node.right, 'dict')})",
                ATOM,
            )
        if kind in _SUMS:
            left = self.expr(node.left, self._beside(node.right, want), SUM)
            right = self.expr(node.right, self._beside(node.left, want), TERM)
            return f"{left} {_SUMS[kind]} {right}", SUM
        if kind in _TERMS:
            left = self.expr(node.left, "any", TERM)
            return f"{left} {_TERMS[kind]} {self.expr(node.right, 'any', UNARY)}", TERM
        raise CannotRewrite(form_of(node), node.lineno)

    def _beside(self, other: ast.expr, want: str) -> str:
        kind = self.kind(other)
        return kind if kind in ("list", "string", "dict") else want

    def kind(self, node: ast.expr) -> str:
        """Returns what kind of value an expression has, as far as its form tells."""
        return kind_of(node, self.scope)

    # Templates.

    def _percent(self, node: ast.BinOp) -> tuple[str, int]:
        template = node.left
        if not (isinstance(template, ast.Constant) and isinstance(template.value, str)):
            helper = self.helper("percent")
            return f"{helper}({self.expr(template)}, {self.expr(node.right)})", ATOM
        try:
            pieces = formats.percent(template.value)
        except formats.BadTemplate as bad:
            raise CannotRewrite(str(bad), node.lineno) from None
        fields = [it for it in pieces if isinstance(it, formats.Field)]
        if isinstance(node.right, ast.Tuple):
            if len(fields) != len(node.right.elts):
                raise CannotRewrite("a template that has other places than values", node.lineno)
            return self._filled(pieces, self._numbered(node.right.elts))
        value = self.expr(node.right, "string" if len(fields) == 1 else "any")
        if len(fields) == 1 and fields[0].key == 0:
            is_plain = self.kind(node.right) in ("string", "int")
            one = value if is_plain else f"{self.helper('single')}({value})"
            return self._filled(pieces, {0: one})
        places: dict[int | str, str] = {
            it.key: f"sefgulaw_it[{it.key if isinstance(it.key, int) else literal(it.key)}]"
            for it in fields
        }
        text, _ = self._filled(pieces, places)
        return f"[{text} for sefgulaw_it in [{value}]][0]", ATOM

    def _filled(
        self, pieces: list[formats.Piece], values: Mapping[int | str, str]
    ) -> tuple[str, int]:
        parts = []
        for piece in pieces:
            if isinstance(piece, str):
                self.odd.update(ODD.intersection(piece))
                parts.append(literal(piece))
            else:
                parts.append(f"{piece.function}({values[piece.key]})")
        if not parts:
            return '""', ATOM
        return " + ".join(parts), ATOM if len(parts) == 1 else SUM

    def _numbered(self, nodes: list[ast.expr]) -> dict[int | str, str]:
        return {at: self.expr(it, "string") for at, it in enumerate(nodes)}

    def _format(self, node: ast.Call, template: ast.expr) -> tuple[str, int]:
        if not (isinstance(template, ast.Constant) and isinstance(template.value, str)):
            args = ", ".join(self.expr(it, "string") for it in node.args)
            named = ", ".join(
                f"{literal(it.arg or '')}: {self.expr(it.value, 'string')}" for it in node.keywords
            )
            helper = self.helper("format")
            return f"{helper}({self.expr(template)}, [{args}], {{{named}}})", ATOM
        try:
            pieces = formats.braces(template.value)
        except formats.BadTemplate as bad:
            raise CannotRewrite(str(bad), node.lineno) from None
        values = self._numbered(node.args)
        for keyword in node.keywords:
            values[keyword.arg or ""] = self.expr(keyword.value, "string")
        if any(isinstance(it, formats.Field) and it.key not in values for it in pieces):
            raise CannotRewrite("a template that has other places than values", node.lineno)
        return self._filled(pieces, values)

    # Calls.

    def call(self, node: ast.Call, want: str) -> tuple[str, int]:
        """Writes a call that is not a statement."""
        if any(isinstance(it, ast.Starred) for it in node.args):
            raise CannotRewrite("'*' in a call", node.lineno)
        if any(it.arg is None for it in node.keywords):
            raise CannotRewrite("'**' in a call", node.lineno)
        head = dotted(node.func)
        if head is not None:
            name, whole = head
            meaning = self.scope.meaning(name)
            if meaning == "select" or (meaning == "foreign" and whole == "selects.with_or"):
                return self._select(node, want)
            if meaning in ("foreign", "rule", "quiet"):
                return self.unknown(node, whole, want), ATOM
            if meaning == "value" and name == whole:
                self.unknown(node, whole, want)
                return VALUES[name], ATOM
            if meaning == "universal" and name == "glob" and name == whole:
                return self._glob(node), ATOM
        deep = chain(node)
        if deep is not None and self.scope.meaning(deep[0]) == "foreign":
            return self.unknown(node, deep[1], want), ATOM
        if isinstance(node.func, ast.Attribute):
            return self._method(node, node.func)
        return f"{self.expr(node.func, 'any', ATOM)}({self._arguments(node)})", ATOM

    def _arguments(self, node: ast.Call) -> str:
        parts = [self.expr(it) for it in node.args]
        parts += [f"{it.arg} = {self.expr(it.value)}" for it in node.keywords]
        return ", ".join(parts)

    def _select(self, node: ast.Call, want: str) -> tuple[str, int]:
        if not node.args:
            raise CannotRewrite("'select' without a dictionary", node.lineno)
        branches = node.args[0]
        if isinstance(branches, ast.Dict):
            kind = self.kind(node)
            wanted = kind if kind in ("list", "string", "dict") else want
            entries = []
            for key, value in zip(branches.keys, branches.values):
                if key is None:
                    raise CannotRewrite("'**' in a dictionary", node.lineno)
                entries.append(f"{self._key(key)}: {self.expr(value, wanted)}")
            text = "{" + ", ".join(entries) + "}"
        else:
            text = self.expr(branches, "dict")
        return f"{self.helper('select')}({text})", ATOM

    def _glob(self, node: ast.Call) -> str:
        parts = [self.expr(it, "list") for it in node.args]
        for it in node.keywords:
            parts.append(f"{it.arg} = {self.expr(it.value, 'list')}")
        if not self.scope.known.odd and not _has_odd(node):
            return f"glob({', '.join(parts)})"
        return f"{self.helper('glob')}(sefgulaw_odd, {', '.join(parts)})"

    def _method(self, node: ast.Call, function: ast.Attribute) -> tuple[str, int]:
        name = function.attr
        if name == "format":
            return self._format(node, function.value)
        count = len(node.args)
        simple = name in METHODS and count <= _MOST_PLAIN.get(name, count)
        if name in ("endswith", "startswith"):
            simple = bool(node.args) and self.kind(node.args[0]) == "string"
        if simple or name not in EXTRA_METHODS:
            owner = self.expr(function.value, "any", ATOM)
            return f"{owner}.{name}({self._arguments(node)})", ATOM
        arguments = self._arguments(node)
        owner = self.expr(function.value)
        return f"{self.helper(name)}({owner}{', ' if arguments else ''}{arguments})", ATOM


def _has_odd(node: ast.expr) -> bool:
    """Tells whether strings of an expression have characters that the loader has not in names."""
    constants = (it.value for it in ast.walk(node) if isinstance(it, ast.Constant))
    return any(isinstance(it, str) and not ODD.isdisjoint(it) for it in constants)


def is_label_text(node: ast.expr) -> bool:
    """Tells whether the strings that stand in an expression are all labels, and there are some."""
    strings = [
        it.value
        for it in ast.walk(node)
        if isinstance(it, ast.Constant) and isinstance(it.value, str)
    ]
    if isinstance(node, ast.Dict):
        return False
    return bool(strings) and all(looks_like_label(plain(it)) for it in strings)
