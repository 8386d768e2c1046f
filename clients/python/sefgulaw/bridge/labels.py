"""Labels of Bazel as the loader can hold them, and back.

`@repo//p:t` becomes `//__x40repo/p:t`. Bytes outside the loader's grammar of names are encoded.
"""

from __future__ import annotations

import functools
import re
from collections.abc import Collection

from sefgulaw.names import Path, encode

STAND_INS = Path("__x73")
"""The package of the stand-ins. No name on disk is encoded so, since `s` needs no encoding."""

DEFS = f"//{STAND_INS}:defs.bzl"
DEFS_FILE = Path(f"{STAND_INS}/defs.bzl")
LIST_MARK = f"//{STAND_INS}:"
"""What begins the label that stands before the labels of a list, and ends with the attribute."""

ONE_MARK = f"//{STAND_INS}/one:"
"""What begins the label that stands before the single label of an attribute."""

ODD = frozenset(" !#$%&()+,;<=>?@[]^`{|}~'\"")
"""The ASCII characters that Bazel has in names and the loader has not."""

_FOREIGN = re.compile(r"(@+[^/:]*)(?://(.*))?", re.S)
_ENCODED_FOREIGN = re.compile(r"//((?:__x40)+[^/:]*)(?:/([^:]*))?:(.*)", re.S)


def looks_like_label(text: str) -> bool:
    """Tells whether a string begins as labels do."""
    return text.startswith(("//", ":", "@"))


def encoded(text: str) -> str:
    """Encodes a name whose characters are bytes."""
    return encode(text.encode("latin-1"))


def main_label(text: str, own: Collection[str] = ()) -> str:
    """Returns a label without the mark of the tree's own repository, which has these names."""
    if not text.startswith("@"):
        return text
    repository, slashes, rest = text.partition("//")
    if slashes and (repository in ("@", "@@") or repository.lstrip("@") in own):
        return "//" + rest
    return text


@functools.lru_cache(1 << 16)
def told_label(text: str, own: frozenset[str] = frozenset()) -> str | None:
    """Returns a label as the loader is told it; None for what is no label."""
    label = any_label(text, own)
    return label if _is_sound(label) else None


def any_label(text: str, own: frozenset[str] = frozenset()) -> str:
    """Returns a label as the loader is told it. What is no label is none for the loader either."""
    text = main_label(text, own)
    foreign = _FOREIGN.fullmatch(text) if text.startswith("@") else None
    if foreign:
        repository, rest = encoded(foreign[1]), foreign[2] or ""
        package, colon, name = rest.partition(":")
        name = name if colon else package.rpartition("/")[2] or foreign[1].lstrip("@")
        where = f"{repository}/{encoded(package)}" if package else repository
        return f"//{where}:{_encoded_parts(name)}"
    if text.startswith("//"):
        package, colon, name = text[2:].partition(":")
        return f"//{encoded(package)}" + (f":{_encoded_parts(name)}" if colon else "")
    return _encoded_parts(text)


def _encoded_parts(text: str) -> str:
    """Encodes what stands between colons, since a label has them in one place alone."""
    return ":".join(encoded(part) for part in text.split(":"))


def _is_sound(label: str) -> bool:
    """Tells whether a label has the loader's form."""
    package, colon, name = label, "", ""
    if label.startswith("//"):
        package, colon, name = label[2:].partition(":")
    elif label.startswith(":"):
        package, colon, name = "", ":", label[1:]
    if len(package) + len(name) >= 255 or (colon and not name):
        return False
    parts = [*(package.split("/") if package else []), *(name.split("/") if name else [])]
    return bool(parts) and all(part not in ("", ".", "..") for part in parts) and ":" not in name


def shown_label(label: str) -> str:
    """Returns a label of the loader's with the repository that it stands for, if any."""
    found = _ENCODED_FOREIGN.fullmatch(label)
    if not found:
        return label
    repository = found[1].replace("__x40", "@")
    return f"{repository}//{found[2] or ''}:{found[3]}"
