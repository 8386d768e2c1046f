"""How one package of a Bazel tree is told."""

from __future__ import annotations

from dataclasses import dataclass, field

from sefgulaw.bridge.rewriting import Rewritten
from sefgulaw.bridge.scope import CannotRewrite
from sefgulaw.names import Path


@dataclass
class State:
    """A package that was told rewritten, or that could not be."""

    path: Path
    rewritten: Rewritten | None = None
    cannot: CannotRewrite | None = None
    labels: tuple[str, ...] = ()
    without: set[str] = field(default_factory=set)
