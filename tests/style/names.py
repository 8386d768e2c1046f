"""Names: those of files and types say what a thing is, not that something was done; and numbers and
flags of a variant have names.

The past participles of `PARTICIPLES` are fixed by the public surface, and so are the variants of
`UNNAMED`.
"""

import os
import re
from collections.abc import Iterator

from style.tree import Tree

# Past participles that do not end in "ed".
IRREGULAR = set(
    "told kept held shown written made found left given known seen heard sent built bound gone "
    "done taken fed led met ran went frozen broken chosen".split()
)
PARTICIPLES = set(
    "Refused Suspended Turned turned Held Made Left Told Replayed Frozen frozen".split()
)
UNNAMED = {"Glob", "At", "RefusedAt"}
NUMBERS = {"usize", "u8", "u32", "u64", "i64", "bool"}

TYPE = re.compile(r"(?m)^(?:pub(?:\([a-z]+\))? )?(?:struct|enum|type|trait) (\w+)")
ENUM = re.compile(r"^(?:pub )?enum \w+[^{]*\{\n(.*?)^\}", re.M | re.S)
VARIANT = re.compile(r"^    (\w+)\(([^)]*)\),", re.M)


def is_participle(name: str) -> bool:
    """Whether the last word of a name is a past participle that is not fixed."""
    words = re.findall(r"[A-Z]?[a-z]+", name)
    if name in PARTICIPLES or not words:
        return False
    return words[-1].lower() in IRREGULAR or words[-1].endswith("ed")


def check_names(path: str, text: str) -> Iterator[str]:
    """The names of a file and of its types that are past participles."""
    file = os.path.splitext(os.path.basename(path))[0]
    for name in [file, *TYPE.findall(text)]:
        if is_participle(name):
            yield f"{path}:1: {name} says that something was done"


def unnamed_fields(text: str) -> Iterator[str]:
    """The fields of variants of which several have no name, and one is a number or a flag."""
    for body in ENUM.findall(text):
        for name, fields in VARIANT.findall(body):
            kinds = {at.strip() for at in fields.split(",") if at.strip()}
            count = sum(1 for at in fields.split(",") if at.strip())
            if name not in UNNAMED and count > 1 and NUMBERS & kinds:
                yield fields


def check(tree: Tree) -> Iterator[str]:
    """The names of sources, definitions, proofs and programs that are not as they should be."""
    for path, text in tree.matching(".rt", ".rattle", ".antt", ".proof"):
        yield from check_names(path, text)
    for path, text in tree.matching(".rt", below="crates/"):
        for found in unnamed_fields(text):
            yield f"{path}:1: a field with no name: {found.strip()[:60]}"
