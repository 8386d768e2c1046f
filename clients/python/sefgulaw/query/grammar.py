"""Reads expressions of the query language by the grammar of `query.lark`.

The library for grammars takes a quarter of a second to load, so this module is imported late.
"""

from __future__ import annotations

from functools import cache
from pathlib import Path
from typing import cast

from lark import Lark, Token, Transformer
from lark.exceptions import UnexpectedCharacters, UnexpectedInput, UnexpectedToken

from sefgulaw.query.parsing import (
    MOST_DEPTH,
    BadQuery,
    Call,
    Expression,
    Let,
    Operation,
    Word,
    Words,
)

_SAME = {"+": "union", "-": "except", "^": "intersect"}
_WORDS = {
    "COMMA": "','",
    "EQUAL": "'='",
    "IN": "'in'",
    "LPAR": "'('",
    "RPAR": "')'",
    "LET": "'let'",
    "SET": "'set('",
    "OPERATOR": "an operator",
    "NAME_OF_CALL": "a function",
    "VARIABLE": "a name and '='",
    "WORD_OR_QUOTED": "a word",
    "$END": "the end",
}
_ORDER = list(_WORDS)


def parse_by_grammar(text: str) -> Expression:
    """Returns the expression that a text is, or raises BadQuery."""
    try:
        found = _parser().parse(text)
    except UnexpectedCharacters as error:
        raise BadQuery(f"{text[_column(error) - 1]!r} begins nothing", _column(error)) from None
    except UnexpectedToken as error:
        raise BadQuery(_expected(error), _column(error)) from None
    return cast(Expression, found)


def _column(error: UnexpectedInput) -> int:
    return max(1, int(error.pos_in_stream or 0) + 1)


def _expected(error: UnexpectedToken) -> str:
    names = sorted(error.accepts or error.expected, key=_ORDER.index)
    read = "the end" if error.token.type == "$END" else repr(str(error.token))
    words = [_WORDS[name] for name in names]
    shown = words[0] if len(words) == 1 else f"{', '.join(words[:-1])} or {words[-1]}"
    return f"{shown} is expected, and not {read}"


@cache
def _parser() -> Lark:
    grammar = (Path(__file__).parent / "query.lark").read_text(encoding="ascii")
    return Lark(grammar, parser="lalr", transformer=_Builder(), maybe_placeholders=False)


def _deeper(*parts: Expression) -> int:
    depth = 1 + max((part.depth for part in parts), default=0)
    if depth > MOST_DEPTH:
        raise BadQuery("it is nested too deep")
    return depth


def _word(token: Token) -> Word:
    text = str(token)
    is_quoted = text[0] in "\"'"
    return Word(text[1:-1] if is_quoted else text, (token.start_pos or 0) + 1)


class _Builder(Transformer[Token, Expression]):
    """Makes expressions from the rules of the grammar, while it is parsed."""

    def word(self, parts: list[Token]) -> Expression:
        """A word alone."""
        return _word(parts[0])

    def words(self, parts: list[Token]) -> Expression:
        """The words of `set`, whose first part is its own name."""
        return Words(tuple(_word(it) for it in parts[1:]))

    def group(self, parts: list[Expression]) -> Expression:
        """An expression in brackets, which is no operand of a longer operation."""
        inner = parts[0]
        return Operation(inner, (), _deeper(inner))

    def call(self, parts: list[Expression]) -> Expression:
        """A function."""
        name = cast(Token, parts[0])
        arguments = parts[1:]
        column = (name.start_pos or 0) + 1
        return Call(str(name), tuple(arguments), column, _deeper(*arguments))

    def operation(self, parts: list[Expression]) -> Expression:
        """Two operands, of which the left one may be a longer operation."""
        left, right = parts[0], parts[2]
        operator = str(parts[1])
        pair = (_SAME.get(operator, operator), right)
        if isinstance(left, Operation) and left.rest:
            joined = cast("list[tuple[str, Expression]]", left.rest)
            joined.append(pair)
            return Operation(left.first, joined, max(left.depth, _deeper(right)))
        return Operation(left, [pair], _deeper(left, right))

    def let(self, parts: list[Expression]) -> Expression:
        """A name for a value. The parts are `let`, the name, its value, `in` and the rest."""
        value, body = parts[2], parts[4]
        return Let(str(parts[1]), value, body, _deeper(value, body))
