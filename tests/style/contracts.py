"""Contracts: no line of a clause has over 100 columns."""

import re
from collections.abc import Iterator

from style.tree import Tree

MAX_COLUMNS = 100


def long_clauses(text: str) -> Iterator[str]:
    """The lines of clauses that are too long. A clause goes on until its braces are closed."""
    open_braces = 0
    for line in text.split("\n"):
        if open_braces or re.match(r"\s*(ensures|requires)\b", line):
            open_braces += line.count("{") - line.count("}")
            if len(line) > MAX_COLUMNS:
                yield line


def check(tree: Tree) -> Iterator[str]:
    """The long clauses of all sources of the crates."""
    for path, text in tree.matching(".rt", below="crates/"):
        for found in long_clauses(text):
            yield f"{path}:1: a clause of over 100 columns: {found.strip()[:60]}"
