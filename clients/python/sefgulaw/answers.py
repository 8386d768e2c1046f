"""Everything that can be asked of a tree, by the name of its method and its words.

The grammar of the query language takes a quarter of a second to load, so it is loaded when the
first query comes.
"""

from __future__ import annotations

from typing import TYPE_CHECKING

from sefgulaw.changed import Asked as ChangeAsked
from sefgulaw.changed import Changes
from sefgulaw.documents import METHODS as DOCUMENT_METHODS
from sefgulaw.documents import Documents
from sefgulaw.index import Indexer
from sefgulaw.lint import warnings
from sefgulaw.overlay import Overlay
from sefgulaw.placing import Placer
from sefgulaw.plain import Members
from sefgulaw.query.nodes import Nodes
from sefgulaw.requests import Answer, BadWords, QueryAsked, Question, Tree

if TYPE_CHECKING:
    from sefgulaw.query.answering import Queries

METHODS = ("check", "targets", "query", "changed", "index", *DOCUMENT_METHODS)


class Answers:
    """One tree with all that its answers are made of."""

    def __init__(self, tree: Tree) -> None:
        self.tree = tree
        self._placer = Placer(tree.base)
        self._nodes = Nodes(tree.base)
        self._indexer = Indexer(tree, self._placer, self._nodes)
        self._changes = Changes(tree)
        self._documents = Documents(tree, self._placer, self._nodes)
        self._opened: Queries | None = None

    def close(self) -> None:
        """Ends the loaders and the watch."""
        self._placer.close()
        self._indexer.close()
        self._changes.close()
        self.tree.close()

    @property
    def _queries(self) -> Queries:
        if self._opened is None:
            from sefgulaw.query.answering import Queries

            self._opened = Queries(self.tree, self._placer, self._nodes)
        return self._opened

    def answer(self, method: str, params: Members, overlay: Overlay | None = None) -> Answer:
        """Answers one request, with the unsaved texts of who asks."""
        if method == "query":
            return self._queries.answer(read_query(params))
        if method == "changed":
            return self._changes.answer(ChangeAsked(text(params, "old"), text(params, "new")))
        if method in DOCUMENT_METHODS:
            return self._documents.answer(method, params, overlay)
        question = read_question(params)
        if method == "check":
            checked = self.tree.check(question, overlay)
            return warnings(self.tree, question, checked) if params.get("names") else checked
        if method == "targets":
            return self.tree.targets(question)
        if method == "index":
            return self._indexer.answer(question)
        raise BadWords(f"there is no method {method}")


def text(params: Members, name: str, default: str | None = None) -> str:
    """Returns a word of a request that is a string."""
    found = params.get(name, default)
    if not isinstance(found, str):
        raise BadWords(f"{name} is a string")
    return found


def read_query(params: Members) -> QueryAsked:
    """Returns the query that a request's words are."""
    return QueryAsked(
        text(params, "expression"),
        text(params, "cwd", ""),
        text(params, "output", "label"),
        params.get("missing") is True,
    )


def read_question(params: Members) -> Question:
    """Returns the patterns that a request's words are."""
    patterns = params.get("patterns", [])
    if not isinstance(patterns, list) or not all(isinstance(it, str) for it in patterns):
        raise BadWords("patterns is a list of strings")
    return Question(tuple(patterns), text(params, "cwd", ""))
