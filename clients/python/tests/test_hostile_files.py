"""Hostile files: whatever lies in a tree, all else is answered, and nothing is left out."""

from __future__ import annotations

import os
import time
from collections.abc import Callable
from pathlib import Path

import pytest
from conftest import Done, Root, Runner
from trees import SMALL, SMALL_TARGETS

LIMIT = 262_144
Make = Callable[..., Root]
Direct = Callable[..., Done]
LIB = ["//lib:p filegroup"]


def one_fault(message: str, packages: int = 2) -> tuple[list[str], list[str]]:
    """Returns what `check` prints of one fault in one package."""
    return [message], [f"sefgulaw: 1 fault in 1 of {packages} packages"]


def test_a_plain_tree(tree: Make, direct: Direct) -> None:
    root = tree(SMALL)
    done = direct("targets", cwd=root)
    assert (done.status, done.lines, done.words) == (0, SMALL_TARGETS, [])
    done = direct("check", cwd=root)
    assert (done.status, done.lines) == (0, [])
    assert done.words == ["sefgulaw: no faults in 2 packages"]


def test_a_fault_sets_the_status(tree: Make, direct: Direct) -> None:
    root = tree({**SMALL, "a/BUILD": "x = y\n"})
    done = direct("targets", cwd=root)
    assert (done.status, done.lines) == (1, LIB)
    assert len(done.words) == 1 and done.words[0].startswith("a/BUILD:1:")
    assert done.words[0].endswith("[4]")
    assert direct("targets", "//lib", cwd=root) == Done(0, b"//lib:p filegroup\n", b"")


def test_bytes_over_127(tree: Make, direct: Direct) -> None:
    root = tree({**SMALL, "a/BUILD": b"x = 1\n# caf\xe9\n"})
    done = direct("check", cwd=root)
    assert (done.lines, done.words) == one_fault("a/BUILD:2:6: error: text is not ASCII [2]")
    assert done.status == 1


def test_line_ends_of_windows(tree: Make, direct: Direct) -> None:
    root = tree({**SMALL, "a/BUILD": b'filegroup(name = "l")\n\nx = 1\r\n'})
    done = direct("check", cwd=root)
    message = "a/BUILD:3:6: error: syntax error: carriage return [3]"
    assert (done.lines, done.words) == one_fault(message)
    assert direct("targets", cwd=root).lines == LIB


@pytest.mark.parametrize("name", [b"a b.c", b"c++.c", b"\xff.c", b"__x2b.c", b"a@2x.c"])
def test_odd_names_are_found_by_globs(tree: Make, direct: Direct, name: bytes) -> None:
    root = tree(SMALL)
    root.write(b"a/" + name, "")
    done = direct("targets", cwd=root)
    assert (done.status, done.lines, done.words) == (0, SMALL_TARGETS, [])
    done = direct("targets", "--output", "jsonl", "//a", cwd=root)
    shown = name.decode("utf-8", "replace")
    odd, plain = f"//a:{shown}", "//a:x.c"
    assert f'"{odd}"' in done.lines[0] and f'"{plain}"' in done.lines[0]
    assert (b'"attrs_bytes"' in done.out) == (name == b"\xff.c")
    assert done.status == 0


def test_a_name_that_is_not_utf8_beside_many_files(tree: Make, direct: Direct) -> None:
    root = tree({**SMALL, **{f"a/f{number}.c": "" for number in range(20)}})
    root.write(b"a/\xff.c", "")
    done = direct("targets", cwd=root)
    assert (done.status, done.lines, done.words) == (0, SMALL_TARGETS, [])


def test_a_package_with_an_odd_name(tree: Make, direct: Direct) -> None:
    root = tree({**SMALL, "c++/BUILD": 'filegroup(name = "s")\n'})
    done = direct("targets", "//c++", cwd=root)
    assert (done.status, done.lines, done.words) == (0, ["//c++:s filegroup"], [])
    root.write("c++/BUILD", "x = y\n")
    done = direct("check", cwd=root)
    assert done.lines[0].startswith("c++/BUILD:1:")


def test_a_pattern_that_sees_the_encoding_is_not_exact(tree: Make, direct: Direct) -> None:
    files = {"a/BUILD": 'filegroup(name = "l", srcs = glob(["*2b*"]))\n', "a/c++.c": ""}
    done = direct("targets", "--output", "jsonl", cwd=tree({**SMALL, **files}))
    assert done.status == 0
    assert '"exact":false' in done.lines[0] and '"exact"' not in done.lines[1]
    assert done.words == ["sefgulaw: //a is not exact: a/BUILD: pattern '*2b*' beside a/c++.c"]


def test_a_source_over_the_limit(tree: Make, direct: Direct) -> None:
    root = tree({**SMALL, "a/BUILD": "#" * (LIMIT + 57)})
    words = "a/BUILD:1:1: error: has 262,201 bytes, and the loader takes 262,144 [too large]"
    done = direct("check", cwd=root)
    assert (done.lines, done.words) == one_fault(words)
    root.write("a/BUILD", "#" * LIMIT)
    assert direct("check", cwd=root).status == 0


def test_a_large_build_bazel_beside_a_good_build(tree: Make, direct: Direct) -> None:
    root = tree({**SMALL, "a/BUILD.bazel": "#" * (LIMIT + 1)})
    done = direct("targets", cwd=root)
    words = "a/BUILD.bazel:1:1: error: has 262,145 bytes, and the loader takes 262,144 [too large]"
    assert (done.status, done.lines, done.words) == (1, LIB, [words])


def test_a_dangling_link(tree: Make, direct: Direct) -> None:
    root = tree(SMALL)
    (root.path / "d").mkdir()
    (root.path / "d" / "BUILD").symlink_to("nowhere")
    (root.path / "a" / ".#lock.c").symlink_to("somebody@somewhere")
    done = direct("check", cwd=root)
    words = "d/BUILD:1:1: error: is a link to a file that is not there [dangling]"
    assert (done.lines, done.words) == one_fault(words, 3)
    assert direct("targets", "//a", "//lib", cwd=root).lines == SMALL_TARGETS


def test_a_link_to_a_build_file(tree: Make, direct: Direct) -> None:
    root = tree(SMALL)
    (root.path / "d").mkdir()
    root.write("real", 'filegroup(name = "one")\n')
    (root.path / "d" / "BUILD").symlink_to("../real")
    assert direct("targets", "//d", cwd=root).lines == ["//d:one filegroup"]


def test_a_linked_directory_is_followed(tree: Make, direct: Direct) -> None:
    root = tree(SMALL)
    (root.path / "b").symlink_to("a")
    (root.path / "a" / "up").symlink_to("..")
    (root.path / "bazel-out").symlink_to("a")
    done = direct("targets", cwd=root)
    assert done.lines == ["//a:l filegroup", "//b:l filegroup", "//lib:p filegroup"]
    assert done.status == 0


def test_a_source_that_cannot_be_read(tree: Make, direct: Direct) -> None:
    root = tree(SMALL)
    (root.path / "a" / "BUILD").unlink()
    (root.path / "a" / "BUILD").symlink_to("/proc/self/mem")
    done = direct("check", cwd=root)
    words = "a/BUILD:1:1: error: cannot be read: Input/output error [unreadable]"
    assert (done.lines, done.words) == one_fault(words)


def test_a_pipe_and_a_directory_with_the_name_of_a_build_file(tree: Make, direct: Direct) -> None:
    root = tree({**SMALL, "e/BUILD/y": ""})
    (root.path / "f").mkdir()
    os.mkfifo(root.path / "f" / "BUILD")
    done = direct("check", cwd=root)
    words = "f/BUILD:1:1: error: is a pipe, and no file [not a file]"
    assert (done.lines, done.words) == one_fault(words, 3)


def test_a_path_that_is_too_long(tree: Make, direct: Direct) -> None:
    part = "d" * 100
    root = tree({**SMALL, f"a/{part}/{part}/{'f' * 60}.c": "", f"{part}/{part}/{part}/BUILD": ""})
    done = direct("check", cwd=root)
    long = f"{part}/{part}/{part}/BUILD"
    words = f"{long}:1:1: error: path is too long for the loader (308 bytes, at most 255)"
    assert done.lines == [f"{words} [path too long]"]
    assert done.words[0].startswith(f"sefgulaw: //a is not exact: a/{part}/{part}/fff")
    assert done.words[-1] == "sefgulaw: 1 fault in 1 of 3 packages"
    done = direct("targets", "--output", "jsonl", "//a", cwd=root)
    assert '"exact":false' in done.lines[0] and done.status == 0


def test_many_control_bytes_and_many_bytes_over_127(tree: Make, direct: Direct) -> None:
    files = {"a/BUILD": b"x = 1\n" + b"\x01" * 262_000, "b/BUILD": b"\n\n" + b"\xff" * 200_000}
    done = direct("check", cwd=tree({**SMALL, **files}))
    assert done.lines == [
        "a/BUILD:2:1: error: syntax error: control byte 1 [3]",
        "b/BUILD:3:1: error: text is not ASCII [2]",
    ]
    assert done.words == ["sefgulaw: 2 faults in 2 of 3 packages"]


def test_control_bytes_before_a_byte_over_127(tree: Make, direct: Direct) -> None:
    content = b"\n" + b"\x01" * 200_000 + b"\n\xff"
    done = direct("check", cwd=tree({**SMALL, "a/BUILD": content}))
    assert (done.lines, done.words) == one_fault("a/BUILD:3:1: error: text is not ASCII [2]")


def test_a_module_with_a_fault_under_three_packages(tree: Make, direct: Direct) -> None:
    users = {f"q{at}/BUILD": 'load("//lib:x.bzl", "T")\n' for at in (1, 2, 3)}
    done = direct("check", cwd=tree({**SMALL, **users, "lib/x.bzl": "T = [\n"}))
    assert len(done.lines) == 1
    assert (
        done.lines[0].startswith("lib/x.bzl:1:")
        and " [3] (in //lib, and 3 other pack" in done.lines[0]
    )
    assert done.words == ["sefgulaw: 1 fault in 4 of 5 packages"]


@pytest.mark.long
def test_a_module_with_a_fault_under_many_packages(tree: Make, direct: Direct) -> None:
    files = {f"q{at:04}/BUILD": 'load("//lib:x.bzl", "T")\nx = 1 +\n' for at in range(1500)}
    begun = time.monotonic()
    done = direct("check", cwd=tree({**SMALL, **files, "lib/x.bzl": "y = z\n"}))
    assert len(done.lines) == 1501
    files = {name: 'load("//lib:x.bzl", "T")\n' for name in files}
    done = direct("check", cwd=tree({**SMALL, **files, "lib/x.bzl": "y = z\n"}, name="other"))
    assert done.lines == [
        "lib/x.bzl:1:5: error: name is not bound: z [4] (in //lib, and 1,500 other packages)"
    ]
    assert done.words == ["sefgulaw: 1 fault in 1,501 of 1,502 packages"]
    assert time.monotonic() - begun < 30


def test_a_cycle_in_the_root(tree: Make, direct: Direct) -> None:
    text = 'load("//:c.bzl", "X")\n'
    done = direct("check", cwd=tree({**SMALL, "BUILD.bazel": text, "c.bzl": text}))
    assert done.lines == [
        "c.bzl:1:6: error: loads run in a cycle: //:c.bzl -> //:c.bzl [19]",
    ]
    assert done.words == ["sefgulaw: 1 fault in 1 of 3 packages"]


@pytest.mark.long
def test_many_packages_with_an_odd_name_each(tmp_path: Path, run: Runner) -> None:
    """Takes the least of three times, since something else may take the processors meanwhile."""
    took = {"plain.c": 60.0, "o d.c": 60.0}
    for name in took:
        root = Root(tmp_path / name)
        for at in range(3000):
            text = 'filegroup(name = "l", srcs = glob(["*.c"]))\n' + "#" * 3000
            root.write(f"d{at // 100}/p{at}/BUILD", text)
            root.write(f"d{at // 100}/p{at}/{name}", "")
    for _ in range(3):
        for name in took:
            begun = time.monotonic()
            done = run("check", "--no-daemon", cwd=tmp_path / name)
            took[name] = min(took[name], time.monotonic() - begun)
            assert done.words == ["sefgulaw: no faults in 3,000 packages"] and done.status == 0
    assert took["o d.c"] <= 1.5 * took["plain.c"] + 0.5
