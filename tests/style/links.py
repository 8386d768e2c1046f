"""Links and paths: what a document links to is there, and so is each path of the repository that
it names as code."""

import os
import re
from collections.abc import Iterator

from style.tree import Tree

NAMED = re.compile(r"`((?:docs|crates|bench|tests|examples)/[\w./-]+)`")


def anchors(text: str) -> set[str]:
    """The names by which a page's headings are linked to."""
    heads = [line.lstrip("#").strip() for line in text.split("\n") if line.startswith("#")]
    return {re.sub(r"[^\w -]", "", head.lower()).replace(" ", "-") for head in heads}


def check_link(tree: Tree, path: str, number: int, target: str) -> Iterator[str]:
    """The fault of a link to a file or a heading."""
    name, _, anchor = target.partition("#")
    file = os.path.normpath(os.path.join(os.path.dirname(path), name)) if name else path
    if not tree.exists(file):
        yield f"{path}:{number}: a dead link to {target}"
    elif anchor and anchor not in anchors(tree.text(file)):
        yield f"{path}:{number}: no heading for {target}"


def check(tree: Tree) -> Iterator[str]:
    """The dead links and dead paths of all documents. What a build leaves need not be there."""
    for path, text in tree.documents():
        for number, line in enumerate(text.split("\n"), 1):
            for target in re.findall(r"\]\(([^)]+)\)", line):
                if not re.match(r"https?:", target):
                    yield from check_link(tree, path, number, target)
            for name in NAMED.findall(line):
                if "/out/" not in name and not tree.exists(name):
                    yield f"{path}:{number}: a dead path, {name}"
