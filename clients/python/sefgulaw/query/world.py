"""What the query language asks about targets, whoever knows them."""

from __future__ import annotations

from collections.abc import Collection, Iterable, Sequence
from typing import TYPE_CHECKING, Protocol, Union

if TYPE_CHECKING:
    from sefgulaw.query.parsing import Word

RULE_END = " rule"
SOURCE, GENERATED, MISSING = "source file", "generated file", "missing"

Value = Union[str, Sequence[str]]


class World(Protocol):
    """The targets of a tree, by label. Labels are encoded."""

    def matching(self, word: Word) -> Sequence[str]:
        """Returns the targets that a pattern asks for."""

    def prepare(self, labels: Collection[str]) -> None:
        """Makes known what the packages of some labels declare."""

    def needs(self, label: str) -> Sequence[str]:
        """Returns what a target needs."""

    def kind(self, label: str) -> str:
        """Returns the kind of a target, as `filegroup rule` or `source file`."""

    def attribute(self, label: str, name: str) -> Value | None:
        """Returns an attribute of a rule's target. None is one that its rule does not have."""

    def labels(self, label: str, name: str) -> Sequence[str]:
        """Returns the targets that an attribute of labels names, outputs among them."""

    def tests_of(self, label: str) -> Sequence[str]:
        """Returns what a test suite without `tests` stands for: the tests beside it."""

    def siblings(self, packages: Iterable[str]) -> Iterable[str]:
        """Returns all targets of some packages, files among them."""

    def build_files(self, packages: Iterable[str], also_builds: bool) -> Iterable[str]:
        """Returns the .bzl files that packages load, or with them all BUILD files."""

    def users_of(self, paths: Sequence[Word]) -> Iterable[str]:
        """Returns the BUILD files of the packages that read some files."""

    def everything(self) -> Sequence[str]:
        """Returns all targets of the tree."""

    def users(self, roots: Collection[str]) -> tuple[Collection[str], "Users"]:
        """Returns all that some targets need, and which of these need each."""


Users = dict[str, list[str]]


def package_of(label: str) -> str:
    """Returns the package of a label, with the repository where it is another one."""
    return label.partition(":")[0]
