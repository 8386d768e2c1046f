"""What expressions of the query language are, and how a text is read as one."""

from __future__ import annotations

import re
from collections.abc import Sequence
from dataclasses import dataclass
from typing import Union

MOST_DEPTH = 100
MOST_LENGTH = 1 << 18

_PLAIN = r"[A-Za-z0-9_*/@.:$~\[\]!%-]"
_ALONE = re.compile(
    rf"[ \t\r\n]*((?!(?:union|except|intersect|in|let|set)(?!{_PLAIN}))(?![*-]){_PLAIN}+)[ \t\r\n]*"
)
"""A word without quotes and nothing else, as the grammar has it."""


@dataclass(frozen=True)
class Word:
    """A target pattern, a name with `$`, or the word of a function."""

    text: str
    column: int
    depth: int = 0


@dataclass(frozen=True)
class Words:
    """The patterns in the brackets of `set`."""

    words: Sequence[Word]
    depth: int = 0


@dataclass(frozen=True)
class Call:
    """A function with its arguments."""

    name: str
    arguments: Sequence[Expression]
    column: int
    depth: int


@dataclass(frozen=True)
class Operation:
    """Operands with `union`, `except` or `intersect` before each but the first."""

    first: Expression
    rest: Sequence[tuple[str, Expression]]
    depth: int


@dataclass(frozen=True)
class Let:
    """A name for the value of an expression in another expression."""

    name: str
    value: Expression
    body: Expression
    depth: int


Expression = Union[Word, Words, Call, Operation, Let]


class BadQuery(Exception):
    """An expression that cannot be read or has no value; its text is a sentence for a person."""

    def __init__(self, why: str, column: int | None = None) -> None:
        where = "" if column is None else f"column {column}: "
        super().__init__(f"the expression cannot be read: {where}{why}")


def parse(text: str) -> Expression:
    """Returns the expression that a text is, or raises BadQuery.

    The grammar is loaded for what is more than one word.
    """
    if len(text) > MOST_LENGTH:
        raise BadQuery(f"it has over {MOST_LENGTH:,} characters")
    alone = _ALONE.fullmatch(text)
    if alone is not None:
        return Word(alone[1], alone.start(1) + 1)
    if not text.strip():
        raise BadQuery("it is empty")
    from sefgulaw.query.grammar import parse_by_grammar

    return parse_by_grammar(text)
