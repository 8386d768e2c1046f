"""A BUILD file of Bazel as the loader can be told it.

Each statement becomes one line. `lines` has for each told line the file's own line, where its
statement begins, since the loader shows no other lines. Loads come first, behind a leading string.
A rule becomes a `filegroup` of its name. All its labels stand in `srcs`, each attribute's behind a
label that marks it. The first tag is the rule's kind, and the others are the other attributes.
"""

from __future__ import annotations

import ast
from dataclasses import dataclass, field

from sefgulaw.bridge.emit import ATOM, EMPTY, Emitter, is_label_text
from sefgulaw.bridge.labels import DEFS, encoded, main_label
from sefgulaw.bridge.natives import LABEL_LISTS, LABELS, NO_LABELS, RULES, want_of
from sefgulaw.bridge.scope import CannotRewrite, Known, Replaced, Scope, dotted, form_of
from sefgulaw.bridge.writing import constant_labels, constant_text, literal, quoted
from sefgulaw.text import Trouble, parse
from sefgulaw.wire import LONGEST_TEXT

KIND_TAG = "=="
"""What the first tag begins with, before the rule's kind."""


@dataclass(frozen=True)
class Rewritten:
    """A told text, the file's own line of each of its lines, and what stand-ins replaced.

    `labels` are those that the file itself loads.
    """

    text: str
    lines: tuple[int, ...]
    labels: tuple[str, ...] = ()
    replaced: Replaced = field(default_factory=Replaced)

    def own_line(self, told: int) -> int:
        """Returns the file's own line of a told one."""
        return self.lines[told - 1] if 0 < told <= len(self.lines) else told


def rewrite(text: str, known: Known) -> Rewritten:
    """Rewrites a BUILD file whose characters are its bytes. Raises `CannotRewrite`."""
    tree = parse(text)
    if isinstance(tree, Trouble):
        raise CannotRewrite(tree.message, tree.span.line, True)
    try:
        rewritten = _Rewriter(known).file(tree)
    except RecursionError:
        raise CannotRewrite("expressions that are too deep", 1) from None
    if len(rewritten.text) > LONGEST_TEXT:
        raise CannotRewrite("a text that is too large once it is rewritten", 1)
    return rewritten


class _Rewriter(Emitter):
    def __init__(self, known: Known) -> None:
        super().__init__(Scope(known))
        self.lines: list[tuple[str, int]] = []
        self.labels: list[str] = []
        self._declares = False
        self._is_rule = False

    def file(self, tree: ast.Module) -> Rewritten:
        """Rewrites the statements of a file."""
        body = list(tree.body)
        head: list[tuple[str, int]] = []
        if body and isinstance(body[0], ast.Expr) and _is_string(body[0].value):
            head.append((self.expr(body[0].value), body[0].lineno))
            body.pop(0)
        for statement in body:
            call = _load_call(statement)
            if call is not None:
                head += self._load(call)
        rest = [it for it in body if _load_call(it) is None]
        self._look_ahead(rest)
        for statement in rest:
            text = self._statement(statement)
            if text:
                self.lines.append((text, statement.lineno))
        lines = head + self._prelude() + self.lines
        told = "".join(line + "\n" for line, _ in lines)
        own_lines = tuple(own for _, own in lines)
        return Rewritten(told, own_lines, tuple(self.labels), self.scope.replaced)

    def _prelude(self) -> list[tuple[str, int]]:
        """The load of the helpers that are used, and the characters that they encode."""
        lines = []
        if self.helpers:
            names = ", ".join(f'sefgulaw_{it} = "{it}"' for it in sorted(self.helpers))
            lines.append((f'load("{DEFS}", {names})', 1))
        if self.helpers & {"encode", "labels", "glob"}:
            pairs = [f"({quoted(it)}, {quoted(encoded(it))})" for it in sorted(self.odd)]
            own = [quoted(f"@{it}//") for it in ("", "@", *sorted(self.scope.known.own))]
            lines.append((f"sefgulaw_odd = ([{', '.join(own)}], [{', '.join(pairs)}])", 1))
        return lines

    # Loads.

    def _load(self, call: ast.Call) -> list[tuple[str, int]]:
        items = [(it, it) for it in map(_text_of, call.args[1:])]
        items += [(it.arg or "", _text_of(it.value)) for it in call.keywords]
        label = _text_of(call.args[0]) if call.args else ""
        self.labels.append(main_label(label, self.scope.known.own))
        exports = self.scope.known.exports(label)
        kept = []
        for local, name in items:
            if exports is not None and name in exports:
                kept.append(f'{self.scope.bind(local)} = "{name}"')
            else:
                self.scope.bind_foreign(local)
        if len(kept) < len(items):
            self.scope.replaced.loads.append((call.lineno, label))
        if not kept:
            return []
        return [
            (
                f"load({literal(self.labels[-1])}, {', '.join(kept)})",
                call.lineno,
            )
        ]

    # Statements.

    def _look_ahead(self, statements: list[ast.stmt]) -> None:
        """Finds out what kinds of values globals have, and which kinds their uses ask for."""
        for statement in statements:
            if isinstance(statement, ast.Assign) and isinstance(statement.targets[0], ast.Name):
                kind = self.kind(statement.value)
                if kind != "any":
                    self.scope.kinds[statement.targets[0].id] = kind
        if any(isinstance(statement, ast.Assign) for statement in statements):
            for node in (node for statement in statements for node in ast.walk(statement)):
                self._note_wants(node)

    def _note_wants(self, node: ast.AST) -> None:
        wants = self.scope.wants
        if isinstance(node, ast.BinOp) and isinstance(node.op, ast.Add):
            for one, other in ((node.left, node.right), (node.right, node.left)):
                kind = self.kind(other)
                if isinstance(one, ast.Name) and kind in EMPTY and kind != "any":
                    wants.setdefault(one.id, kind)
        elif isinstance(node, ast.comprehension) and isinstance(node.iter, ast.Name):
            wants.setdefault(node.iter.id, "list")
        elif isinstance(node, ast.keyword) and isinstance(node.value, ast.Name):
            want = want_of(node.arg or "")
            if want != "any":
                wants.setdefault(node.value.id, want)

    def _statement(self, node: ast.stmt) -> str:
        if isinstance(node, ast.Expr):
            return self._expression(node.value)
        if isinstance(node, ast.Pass):
            return "pass"
        if isinstance(node, ast.Assign) and len(node.targets) == 1:
            target = node.targets[0]
            want = self.scope.wants.get(target.id, "any") if isinstance(target, ast.Name) else "any"
            if self._is_rule_call(node.value):
                value = self._expression(node.value)
            else:
                value = self.expr(node.value, want)
            return f"{self.target(target)} = {value or None}"
        if isinstance(node, ast.AugAssign):
            return self._augmented(node)
        raise CannotRewrite(form_of(node), node.lineno)

    def _is_rule_call(self, node: ast.expr) -> bool:
        """Tells whether the value of an assignment is that of a rule, which declares a target."""
        name = node.func if isinstance(node, ast.Call) else None
        return isinstance(name, ast.Name) and self.scope.meaning(name.id) == "rule"

    def _augmented(self, node: ast.AugAssign) -> str:
        if not isinstance(node.target, ast.Name):
            raise CannotRewrite("an augmented assignment to this", node.lineno)
        old = ast.Name(node.target.id, ast.Load(), lineno=node.lineno, col_offset=0)
        if isinstance(node.op, ast.Add):
            want = self.kind(old)
            before, added = self.expr(old), self.expr(node.value, want if want in EMPTY else "any")
            value = f"{self.helper('add')}({before}, {added})"
        else:
            sum_ = ast.BinOp(old, node.op, node.value, lineno=node.lineno, col_offset=0)
            value = self.expr(sum_)
        return f"{self.scope.bind(node.target.id)} = {value}"

    def _expression(self, node: ast.expr) -> str:
        if isinstance(node, ast.Call):
            return self._call_statement(node)
        if isinstance(node, (ast.ListComp, ast.List, ast.Tuple, ast.IfExp)):
            self._declares = True
            try:
                return self.expr(node)
            finally:
                self._declares = False
        return self.expr(node)

    def call(self, node: ast.Call, want: str) -> tuple[str, int]:
        """Writes a call. Where it is a part of a statement alone, it may declare a target."""
        head = dotted(node.func) if self._declares else None
        if head is not None and self.scope.meaning(head[0]) in ("foreign", "rule", "quiet"):
            return self._call_statement(node) or "None", ATOM
        return super().call(node, want)

    def value(self, node: ast.expr, want: str, level: int) -> str:
        """Writes an expression that declares nothing."""
        declares, self._declares = self._declares, False
        text = self.expr(node, want, level)
        self._declares = declares
        return text

    def drops(self, node: ast.expr) -> bool:
        """Tells whether an element of a list is left out, since nothing is known of it."""
        return not self._declares and super().drops(node)

    def _call_statement(self, node: ast.Call) -> str:
        head = dotted(node.func)
        meaning = self.scope.meaning(head[0]) if head else "unbound"
        if head is None or meaning not in ("foreign", "rule", "quiet", "value"):
            return self.expr(node)
        if meaning == "quiet" or meaning == "value":
            return ""
        if any(isinstance(it, ast.Starred) for it in node.args):
            raise CannotRewrite("'*' in a call", node.lineno)
        names = [it.arg for it in node.keywords]
        if None in names:
            raise CannotRewrite("'**' in a call", node.lineno)
        for name in names:
            if names.count(name) > 1:
                raise CannotRewrite(f"the argument '{name}' twice", node.lineno)
        if "name" not in names:
            self.scope.replaced.nameless.append((node.lineno, head[1]))
            return ""
        self.scope.replaced.rules[head[1]] += 1
        return self._declare(node, head[1])

    # Declarations.

    def _declare(self, node: ast.Call, kind: str) -> str:
        declares, self._declares = self._declares, False
        self._is_rule = kind in RULES
        sources: list[str] = []
        labels: list[str] = []
        tags = [quoted(KIND_TAG + kind)]
        words: list[str] = []
        for at, argument in enumerate(node.args):
            tags.append(self._other(str(at + 1), argument))
        for keyword in node.keywords:
            attribute, value = keyword.arg or "", keyword.value
            if attribute == "name":
                words.insert(0, f"name = {self._target_name(value)}")
            elif isinstance(value, ast.Constant) and value.value is None:
                continue
            elif attribute == "visibility":
                words.append(f"visibility = {self._visibility(value)}")
            elif _holds_labels(attribute, value):
                self._labels(attribute, value, sources, labels, tags)
            else:
                tags.append(self._other(attribute, value))
        if labels or not sources:
            sources.append(f"[{', '.join(labels)}]")
        words.append(f"srcs = {' + '.join(sources)}")
        words.append(f"tags = [{', '.join(tags)}]")
        self._declares = declares
        return f"filegroup({', '.join(words)})"

    def _target_name(self, value: ast.expr) -> str:
        if _is_string(value):
            return literal_name(_text_of(value))
        return f"{self.helper('encode')}(sefgulaw_odd, {self.expr(value, 'string')})"

    def _visibility(self, value: ast.expr) -> str:
        if constant_text(value) is not None and isinstance(value, ast.List):
            return constant_text(value) or "[]"
        return f"{self.helper('strings')}({self.expr(value, 'list')})"

    def _labels(
        self,
        attribute: str,
        value: ast.expr,
        sources: list[str],
        labels: list[str],
        tags: list[str],
    ) -> None:
        """Adds an attribute that holds labels. Literals that are no labels stand as they are."""
        is_rule = self._is_rule and (attribute in LABEL_LISTS or attribute in LABELS)
        found = constant_labels(attribute, value, self.scope.known.own, is_rule)
        if found is not None:
            labels += [quoted(it) for it in found]
        elif constant_text(value) is not None:
            tags.append(self._other(attribute, value))
        else:
            if labels:
                sources.append(f"[{', '.join(labels)}]")
                labels.clear()
            want = "string" if attribute in LABELS else "list"
            helper = self.helper("labels")
            sources.append(f"{helper}(sefgulaw_odd, {quoted(attribute)}, {self.expr(value, want)})")

    def _other(self, attribute: str, value: ast.expr) -> str:
        text = constant_text(value)
        if text is not None:
            return quoted(f"{attribute}={text}")
        odd = set(self.odd)
        written = self.expr(value, want_of(attribute))
        if attribute in NO_LABELS:
            self.odd = odd
        return f"{self.helper('other')}({quoted(attribute)}, {written})"


def literal_name(name: str) -> str:
    """Returns the literal of a target's name, encoded."""
    return quoted(encoded(name))


def _is_string(node: ast.expr) -> bool:
    return isinstance(node, ast.Constant) and isinstance(node.value, str)


def _text_of(node: ast.expr) -> str:
    if isinstance(node, ast.Constant) and isinstance(node.value, str):
        return node.value
    raise CannotRewrite("a load with something that is no string", node.lineno)


def _load_call(statement: ast.stmt) -> ast.Call | None:
    if isinstance(statement, ast.Expr) and isinstance(statement.value, ast.Call):
        function = statement.value.func
        if isinstance(function, ast.Name) and function.id == "load":
            return statement.value
    return None


def _holds_labels(attribute: str, value: ast.expr) -> bool:
    if isinstance(value, (ast.Dict, ast.DictComp)) or attribute in NO_LABELS:
        return False
    return attribute in LABEL_LISTS or attribute in LABELS or is_label_text(value)
