"""The README's example: the session that it shows is the one that `make quick` and `make run` run.
"""

from collections.abc import Iterator

from style.tree import Tree

EXAMPLE = "examples/session.jsonl"


def check(tree: Tree) -> Iterator[str]:
    """Whether the README shows another session."""
    shown = [it for it in tree.text("README.md").split("\n") if it.startswith('{"op":')]
    if shown != tree.text(EXAMPLE).splitlines():
        yield f"README.md:1: its session is not that of {EXAMPLE}"
