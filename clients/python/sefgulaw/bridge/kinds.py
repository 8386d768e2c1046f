"""What kind of value an expression has, as far as its form tells."""

from __future__ import annotations

import ast

from sefgulaw.bridge.scope import Scope

_LIST_FUNCTIONS = ("glob", "list", "range", "sorted", "reversed", "enumerate", "zip")
_LIST_METHODS = ("split", "keys", "values", "items", "rsplit", "splitlines")
_STRING_METHODS = ("format", "join", "lower", "replace", "strip", "upper")


def kind_of(node: ast.expr, scope: Scope) -> str:
    """Returns what kind of value an expression has, as far as its form tells."""
    if isinstance(node, (ast.List, ast.ListComp)):
        return "list"
    if isinstance(node, (ast.Dict, ast.DictComp)):
        return "dict"
    if isinstance(node, ast.Constant):
        return "string" if isinstance(node.value, str) else type(node.value).__name__
    if isinstance(node, ast.BinOp):
        left = kind_of(node.left, scope)
        return left if left != "any" else kind_of(node.right, scope)
    if isinstance(node, ast.Name):
        return scope.kinds.get(node.id, "any")
    if isinstance(node, ast.IfExp):
        return kind_of(node.body, scope)
    return _kind_of_call(node, scope) if isinstance(node, ast.Call) else "any"


def _kind_of_call(node: ast.Call, scope: Scope) -> str:
    if isinstance(node.func, ast.Name):
        if scope.meaning(node.func.id) == "select" and node.args:
            branches = node.args[0]
            values = branches.values if isinstance(branches, ast.Dict) else []
            kinds = [kind_of(it, scope) for it in values]
            return next((it for it in kinds if it not in ("any", "NoneType")), "any")
        if node.func.id in _LIST_FUNCTIONS:
            return "list"
        return "string" if node.func.id in ("str", "repr", "package_name") else "any"
    if isinstance(node.func, ast.Attribute):
        if node.func.attr in _LIST_METHODS:
            return "list"
        return "string" if node.func.attr in _STRING_METHODS else "any"
    return "any"
