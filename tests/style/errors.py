"""Errors of allocations: the error of one that failed is made from an error of the standard library
alone, and by its makers in the files of `MAKERS`. Nowhere else is `AllocError` a value."""

import re
from collections.abc import Iterator

from style.tree import Tree

# The files that may call each maker of `base_types::Memory`: those that know its reason.
MAKERS = {
    "no_number_left": {
        "crates/values_freeze/src/laying.rt",
        "crates/values_heap/src/heap.rt",
        "crates/values_heap/src/objects.rt",
        "crates/values_objects/src/own_objects.rt",
        "crates/node_table/src/flat.rt",
        "crates/node_table/src/table.rt",
        "crates/round/src/out_keys.rt",
        "crates/shelf/src/keeper/publishing.rt",
    },
    "over_the_heap_limit": {"crates/values_heap/src/heap.rt"},
    "object_not_there": {
        "crates/values_heap/src/objects.rt",
        "crates/values_objects/src/heap_object.rt",
        "crates/values_objects/src/pages.rt",
    },
    "told_by_library": {
        "crates/loader_commands/src/reading.rt",
        "crates/pool/src/workers.rt",
        "crates/shelf/src/history.rt",
        "crates/shelf/src/keeper/sending.rt",
    },
}
# `base_types` has the error itself, and `shelf` tells `left_right` of one by the error that this
# library takes.
HOMES = ("crates/base_types/src/memory.rt", "crates/shelf/src/store.rt")
# Where `AllocError` is a type and no value.
TYPES = re.compile(
    r"^\s*(ghost )?use .*;$|->[^{;]*|\bFrom<AllocError>|\w+: &?AllocError|IsOkUnless[^}]*"
    r"|Result<[^=;{]*>",
    re.M,
)


def made_errors(path: str, text: str) -> Iterator[str]:
    """The errors of an allocation that a source makes where none was told."""
    if path in HOMES:
        return
    code = re.sub(r"//.*", "", text)
    for name in re.findall(r"\bMemory::(\w+)\(", code):
        if name != "from" and path not in MAKERS.get(name, ()):
            yield f"Memory::{name}"
    yield from re.findall(r"(?<![<\w])AllocError\b(?!>)", TYPES.sub("", code))


def check(tree: Tree) -> Iterator[str]:
    """The errors that the crates' sources make."""
    for path, text in tree.matching(".rt", below="crates/"):
        for found in made_errors(path, text):
            yield f"{path}:1: an error of an allocation that nothing told: {found.strip()[:60]}"
