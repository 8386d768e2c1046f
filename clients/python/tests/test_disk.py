"""What is found in a directory, and what is read."""

from __future__ import annotations

import os
import socket
from collections.abc import Callable

from conftest import Root
from sefgulaw.disk import Found, Ignore, Unreadable, look, read, walk

Make = Callable[..., Root]


def kinds(root: Root, *ignored: bytes) -> dict[bytes, str]:
    """Returns the kind of each file below a root."""
    found = list(walk(os.fsencode(root.path), Ignore(frozenset(ignored))))
    paths = [it.path for it in found]
    assert len(paths) == len(set(paths))
    return {it.path: it.kind for it in found}


def test_sources_and_other_files(tree: Make) -> None:
    root = tree({"BUILD": "", "a/BUILD.bazel": "", "a/x.bzl": "", "a/b/x.c": "", "a/BUILD.txt": ""})
    assert kinds(root) == {
        b"BUILD": "source",
        b"a/BUILD.bazel": "source",
        b"a/x.bzl": "source",
        b"a/b/x.c": "other",
        b"a/BUILD.txt": "other",
    }


def test_what_is_not_entered(tree: Make) -> None:
    files = {
        f"{name}/x": "" for name in (".git", ".hg", ".svn", "a/.git", ".dot", "b", "c/d", "cd")
    }
    assert set(kinds(tree(files), b"b", b"c/d")) == {b".dot/x", b"cd/x"}


def test_links(tree: Make) -> None:
    root = tree({"a/x.c": "", "a/BUILD": "", "real": ""})
    for name, to in {
        "a/up": "..",
        "a/self": ".",
        "b": "a",
        "bazel-out": "a",
        "a/bazel-in": "../c",
        "d.c": "a/x.c",
        "gone.c": "nowhere",
        "x.bzl": "nowhere",
        "y.bzl": "y.bzl",
        "z.bzl": "real",
    }.items():
        (root.path / name).symlink_to(to)
    root.write("c/y", "")
    assert kinds(root) == {
        b"a/x.c": "other",
        b"a/BUILD": "source",
        b"a/bazel-in/y": "other",
        b"b/x.c": "other",
        b"b/BUILD": "source",
        b"b/bazel-in/y": "other",
        b"c/y": "other",
        b"d.c": "other",
        b"real": "other",
        b"x.bzl": "refused",
        b"y.bzl": "refused",
        b"z.bzl": "source",
    }


def test_what_is_no_file(tree: Make) -> None:
    root = tree({"a/BUILD/x": ""})
    os.mkfifo(root.path / "BUILD")
    os.mkfifo(root.path / "pipe")
    with socket.socket(socket.AF_UNIX) as bound:
        bound.bind(os.path.relpath(root.path / "x.bzl"))
        assert kinds(root) == {
            b"BUILD": "refused",
            b"pipe": "other",
            b"x.bzl": "refused",
            b"a/BUILD/x": "other",
        }
    raw = os.fsencode(root.path)
    assert read(raw, b"BUILD") == Unreadable("not a file", "is a pipe, and no file")
    assert read(raw, b"nowhere") == Unreadable("dangling", "is a link to a file that is not there")


def test_a_root_that_is_not_there(tree: Make) -> None:
    root = tree({})
    root.path.rmdir()
    why = "cannot be listed: No such file or directory"
    assert list(walk(os.fsencode(root.path), Ignore())) == [Found(b"", "refused", None, why)]


def test_names_of_any_bytes(tree: Make) -> None:
    root = tree({})
    names = {b"\xff.c", b"a b", b"\n", b"\xc3\xa9", b"-", b"__x2b"}
    for name in names:
        root.write(name, "")
    assert set(kinds(root)) == names


def test_the_limit_of_a_text(tree: Make) -> None:
    root = tree({"a": b"x" * 262_144, "b": b"x" * 262_145, "c": b"x" * 1_000_000})
    raw = os.fsencode(root.path)
    assert read(raw, b"a") == b"x" * 262_144
    words = "has 262,145 bytes, and the loader takes 262,144"
    assert read(raw, b"b") == Unreadable("too large", words)
    words = "has 1,000,000 bytes, and the loader takes 262,144"
    assert read(raw, b"c") == Unreadable("too large", words)


def test_a_stamp_is_settled_after_a_while(tree: Make) -> None:
    root = tree({"BUILD": ""})
    raw = os.fsencode(root.path)
    found = look(raw, b"BUILD")
    assert found is not None and found.stamp is not None and not found.stamp.settled
    os.utime(root.path / "BUILD", (1, 1))
    again = look(raw, b"BUILD")
    assert again is not None and again.stamp is not None
    assert again.stamp.modified == 1_000_000_000 and not again.stamp.settled
    assert look(raw, b"") is None and look(raw, b"nowhere") is None
