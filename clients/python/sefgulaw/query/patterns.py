"""Target patterns as the query language has them.

They differ from the patterns of the other commands in two ways: `//a/b` is the target `//a/b:b`,
and `:*` stands for the files of a package, too.
"""

from __future__ import annotations

from collections.abc import Callable
from typing import NamedTuple

from sefgulaw.names import (
    BadLabel,
    Label,
    Path,
    Pattern,
    basename,
    encode,
    join,
    parent,
)

ALL, FILES_TOO = "all", ("*", "all-targets")


class Wanted(NamedTuple):
    """What a pattern asks for: one target, or all rules of packages, or their files as well."""

    package: Path
    below: bool = False
    target: Path | None = None
    files: bool = False


def read(text: str, at: str, is_package: Callable[[str], bool]) -> Wanted | BadLabel:
    """Reads a pattern that is written with real names in the (encoded) directory `at`."""
    if text.startswith("-"):
        return BadLabel(text, "a pattern of a query has no minus in front")
    where, colon, name = text.partition(":")
    below = where == "..." or where.endswith("/...")
    if below or name in (ALL, *FILES_TOO):
        pattern = Pattern.read(text, at)
        if isinstance(pattern, BadLabel):
            return pattern
        return Wanted(pattern.package, pattern.below, None, name in FILES_TOO)
    if text.startswith(("//", "@")) and not colon:
        label = Label.read(text, at)
        return label if isinstance(label, BadLabel) else Wanted(label.package, False, label.name)
    if not colon:
        return _relative(text, at, is_package)
    pattern = Pattern.read(text, at)
    if isinstance(pattern, BadLabel):
        return pattern
    return Wanted(pattern.package, False, pattern.target)


def _relative(text: str, at: str, is_package: Callable[[str], bool]) -> Wanted | BadLabel:
    """Reads a path that names a target of the nearest package above it, or the package's own."""
    head, _, last = text.rpartition("/")
    if last in ("", ".", "..") or text.startswith("/"):
        whole = Pattern.read(text, at)
        if isinstance(whole, BadLabel):
            return whole
        if not whole.package:
            return BadLabel(text, "a label has the name of a target")
        return Wanted(whole.package, False, Path(basename(whole.package)))
    above = Pattern.read(head or ".", at)
    if isinstance(above, BadLabel):
        return BadLabel(text, above.why)
    full = join(above.package, encode(last.encode("utf-8", "surrogateescape")))
    package = full
    while package and not is_package(package):
        package = parent(package)
    if package == full:
        return Wanted(full, False, Path(basename(full)))
    return Wanted(package, False, Path(full[len(package) + 1 :] if package else full))
