"""Imports of the crates: no module is imported from twice, and no definition for nothing."""

import re
from collections.abc import Iterator

from style.tree import Tree


def double_imports(text: str) -> set[str]:
    """The modules that a file imports from by more than one list of names."""
    heads = re.findall(r"^((?:ghost )?(?:pub )?use [^{}\n]+(?:\.|::))\{", text, re.M)
    return {at for at in heads if heads.count(at) > 1}


def idle_imports(text: str) -> Iterator[str]:
    """The definitions that a source imports for its contracts and names nowhere."""
    lines = text.split("\n")
    is_import = re.compile(r"\s*(ghost )?(pub )?use .*;$")
    rest = "\n".join(line for line in lines if not is_import.match(line))
    for names in re.findall(r"^ghost use .*\{(.*)\};$", text, re.M):
        for name in [at.strip().split(" as ")[-1] for at in names.split(",")]:
            if not is_named(name, rest):
                yield name


def is_named(name: str, text: str) -> bool:
    """Whether a text names a definition; an operator, by each of its parts."""
    if "◌" in name:
        return all(part in text for part in name.split("◌"))
    return bool(re.search(rf"(?<![\w.]){re.escape(name)}(?!\w)", text))


def check(tree: Tree) -> Iterator[str]:
    """The imports of the crates' sources, definitions and proofs that are one too many."""
    for path, text in tree.matching(".rt", ".antt", below="crates/"):
        for found in sorted(double_imports(text)):
            yield f"{path}:1: a module imported from twice: {found.strip()[:60]}"
        for found in idle_imports(text) if path.endswith(".rt") else []:
            yield f"{path}:1: an idle import: {found.strip()[:60]}"
