"""Layers: crates.txt has a heading for each layer, lowest first, as `# files, on base`, and below
it a line for each crate of the layer.

A crate uses crates above it in its own layer, and crates of the layers that its heading names, and
a heading names no layer for nothing. The first word of a crate's name is its layer, but for the
crates of `FIXED`, whose names or first words the public surface has. All that a crate uses is above
it, but for the crates of `EARLY`.
"""

import dataclasses
import re
from collections.abc import Iterator

from style.tree import Tree

LIST = "crates.txt"
LAYERS = ["base", "files", "syntax", "values", "evaluator", "engine", "functions", "loader"]
FIXED = {
    "files": ["labels", "filetree", "pattern", "pattern_tables"],
    "engine": ["keys", "node", "node_table", "round", "round_nodes", "board", "pool"],
    "loader": ["shelf", "sefgulaw_loader"],
}
# A layer with the crates of a later one that its crates use.
EARLY = {"syntax": ["values_semantics"]}

HEADING = re.compile(r"# ([a-z]+)(?:, on ([a-z]+(?: [a-z]+)*))?")


@dataclasses.dataclass(frozen=True)
class Row:
    """A line of a crate, with the layer that it is under, and what it uses."""

    number: int
    layer: str
    name: str
    uses: list[str]


@dataclasses.dataclass(frozen=True)
class Heading:
    """The heading of a layer, with the layers that it names."""

    number: int
    layer: str
    named: list[str]


def read_list(text: str) -> tuple[list[Heading], list[Row]]:
    """The headings and the crates of a list."""
    headings: list[Heading] = []
    rows: list[Row] = []
    for number, line in enumerate(text.split("\n"), 1):
        if found := HEADING.fullmatch(line):
            headings.append(Heading(number, found[1], (found[2] or "").split()))
        elif line.strip() and not line.startswith("#"):
            head, _, uses = line.partition(":")
            layer = headings[-1].layer if headings else ""
            rows.append(Row(number, layer, head.split()[0], uses.split()))
    return headings, rows


def check_comments(text: str) -> Iterator[str]:
    """The comments below the first heading that are no headings."""
    is_begun = False
    for number, line in enumerate(text.split("\n"), 1):
        is_heading = bool(HEADING.fullmatch(line))
        is_begun = is_begun or is_heading
        if is_begun and line.startswith("#") and not is_heading:
            yield f"{LIST}:{number}: a comment that is no heading: {line[:60]}"


def layer_of(name: str) -> str:
    """The layer that the name of a crate says."""
    return next((it for it, names in FIXED.items() if name in names), name.partition("_")[0])


def check_headings(headings: list[Heading], rows: list[Row]) -> Iterator[str]:
    """The headings that are no layers or come out of order, and those that name one for nothing."""
    homes = {row.name: row.layer for row in rows}
    left = LAYERS
    for it in headings:
        if it.layer in left:
            left = left[left.index(it.layer) + 1 :]
        else:
            yield f"{LIST}:{it.number}: no layer, or not in its place: {it.layer}"
        used = {homes.get(use) for row in rows if row.layer == it.layer for use in row.uses}
        for name in it.named:
            if name == it.layer or name not in used:
                yield f"{LIST}:{it.number}: the heading of {it.layer} names {name} for nothing"


def check_uses(row: Row, named: list[str], homes: dict[str, str], seen: set[str]) -> Iterator[str]:
    """The crates that a crate uses and that are not above it, or of no layer that it may use."""
    for used in [it for it in row.uses if it in homes]:
        if used not in seen and used not in EARLY.get(row.layer, []):
            yield f"{LIST}:{row.number}: {row.name} uses {used}, which is not above it"
        if homes[used] not in [row.layer, *named]:
            yield f"{LIST}:{row.number}: {row.name} uses {used}, whose layer its heading lacks"


def check(tree: Tree) -> Iterator[str]:
    """The comments and headings that are not as they should be, the crates that have no folder or
    are under another heading than their own, and those that use what they may not."""
    headings, rows = read_list(tree.text(LIST))
    yield from check_comments(tree.text(LIST))
    yield from check_headings(headings, rows)
    named = {it.layer: it.named for it in headings}
    homes = {row.name: row.layer for row in rows}
    seen: set[str] = set()
    for row in rows:
        if not tree.exists(f"crates/{row.name}"):
            yield f"{LIST}:{row.number}: there is no crate {row.name}"
        if row.layer != layer_of(row.name):
            under = f"under {row.layer}" if row.layer else "under no heading"
            yield f"{LIST}:{row.number}: {row.name} is {under}"
        yield from check_uses(row, named.get(row.layer, []), homes, seen)
        seen.add(row.name)
