"""Trees of Bazel that are opened without the command."""

from __future__ import annotations

import os

from conftest import Root
from sefgulaw.base import Base, Options
from sefgulaw.settings import StandIns
from sefgulaw.store import Target


def opened(
    root: Root, loader: str, stand_ins: StandIns = "auto", rules: tuple[str, ...] = ()
) -> Base:
    base = Base.open(os.fsencode(root.path), Options(loader, stand_ins=stand_ins, rules=rules))
    base.refresh()
    base.load(base.names())
    return base


def all_targets(base: Base) -> list[Target]:
    return [target for name in base.names() for target in base.targets(name)]


def answers(base: Base) -> dict[str, bytes | None]:
    return {name: base.store.raw(name) for name in base.names()}
