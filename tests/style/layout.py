"""Layout: each crate is as `rt fmt` lays it out. The prover asks for this too, but only when it
comes to the crate."""

import os
import shutil
import subprocess
import tempfile
from collections.abc import Iterator

from style.tree import Tree


def check(tree: Tree) -> Iterator[str]:
    """Formats a copy of the crates, and compares."""
    files = [it for it in tree.paths if it.startswith("crates/")]
    more = [it for it in ("crates.txt", "HANDLES") if it in tree.paths]
    with tempfile.TemporaryDirectory() as room:
        os.mkdir(f"{room}/.git")
        for path in [*files, *more]:
            os.makedirs(os.path.dirname(f"{room}/{path}"), exist_ok=True)
            shutil.copyfile(os.path.join(tree.root, path), f"{room}/{path}")
        for name in sorted({it.split("/")[1] for it in files}):
            ran = subprocess.run(["rt", "fmt"], cwd=f"{room}/crates/{name}", capture_output=True)
            if ran.returncode:
                yield f"crates/{name}:1: `rt fmt` can't read it"
        for path in files:
            if differ(os.path.join(tree.root, path), f"{room}/{path}"):
                yield f"{path}:1: not in the layout of `rt fmt`"


def differ(one: str, other: str) -> bool:
    """Whether the bytes of two files differ."""
    with open(one, "rb") as first, open(other, "rb") as second:
        return first.read() != second.read()
