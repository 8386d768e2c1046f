"""The command `index`: places, edges and modules, and what a change alters of its lines."""

from __future__ import annotations

import json
import re
from collections.abc import Callable
from pathlib import Path

import pytest
from conftest import Done, Root, Runner
from daemon_lines import Lines
from trees import generate

Make = Callable[..., Root]
Direct = Callable[..., Done]

FILES = {
    ".sefgulaw.toml": "",
    "app/BUILD": (
        'load("//lib:m.bzl", "pair")\n'
        'filegroup(\n    name = "core",\n    srcs = ["a.c", "//lib:base"],\n    data = [":g"],\n)\n'
        'pair("two")\n\n'
        '[filegroup(name = x) for x in ["l1", "l2"]]\n'
        'genrule(name = "g", outs = ["o.txt"], cmd = "c")\n'
    ),
    "lib/BUILD": 'alias(name = "base", actual = "x.c")\n',
    "lib/m.bzl": 'load(":n.bzl", "N")\n\ndef pair(name):\n    native.filegroup(name = name + N)\n',
    "lib/n.bzl": 'N = "_a"\n_hidden = 1\n',
    "lib/bad.bzl": "x = [\n",
}


def test_all_lines_of_a_small_tree(tree: Make, direct: Direct) -> None:
    root = tree(FILES)
    done = direct("index", cwd=root)
    assert (done.status, done.err) == (0, b"")
    found = [json.loads(it) for it in done.lines]
    assert all(list(it) == sorted(it) for it in found)
    spans = {
        it["label"]: (it["file"], it["first"], it["last"], it["kind"], it["made_by"])
        for it in found
        if it["type"] == "target"
    }
    assert spans == {
        "//app:core": ("app/BUILD", 2, 6, "filegroup", "rule"),
        "//app:g": ("app/BUILD", 10, 10, "genrule", "rule"),
        "//app:l1": ("app/BUILD", 9, 9, "filegroup", "macro"),
        "//app:l2": ("app/BUILD", 9, 9, "filegroup", "macro"),
        "//app:two_a": ("app/BUILD", 7, 7, "filegroup", "macro"),
        "//lib:base": ("lib/BUILD", 1, 1, "alias", "rule"),
    }
    assert [(it["from"], it["through"], it["to"]) for it in found if it["type"] == "edge"] == [
        ("//app:core", "srcs", "//app:a.c"),
        ("//app:core", "srcs", "//lib:base"),
        ("//app:core", "data", "//app:g"),
        ("//lib:base", "actual", "//lib:x.c"),
    ]
    assert [it for it in found if it["type"] == "module"] == [
        module("bad", [], [], faulty=True),
        module("m", ["pair"], ["//lib:n.bzl"]),
        module("n", ["N"], []),
    ]
    some = direct("index", "//lib", cwd=root)
    assert [it for it in done.lines if '"//app' not in it] == some.lines
    root.write("lib/BUILD", "x = y\n")
    done = direct("index", cwd=root)
    assert done.status == 1 and done.words == ["lib/BUILD:1:5: error: name is not bound: y [4]"]


def module(name: str, exports: list[str], loads: list[str], **more: bool) -> dict[str, object]:
    """Returns the line of a module."""
    label, file = f"//lib:{name}.bzl", f"lib/{name}.bzl"
    members = {"exports": exports, "file": file, "label": label, "loads": loads}
    return {**members, "type": "module", **more}


def compare(packages: int, folder: Path, run: Runner) -> None:
    """Looks at each span in the generated tree, and at the lines before and after a change."""
    root = Root(folder / "tree")
    root.path.mkdir()
    generate(packages, root.path)
    root.write(".sefgulaw.toml", "")
    lines = Lines(run, root)
    before, end = lines.ask("index", patterns=[])
    assert end["status"] == 0
    texts = {it: it.read_text().split("\n") for it in root.path.rglob("BUILD")}
    for it in before:
        if it["type"] == "target":
            part = "\n".join(texts[root.path / it["file"]][it["first"] - 1 : it["last"]])
            name = it["label"].partition(":")[2]
            is_literal = re.search(rf'name = "{re.escape(name)}"', part) is not None
            assert is_literal == (it["made_by"] == "rule"), it
            assert is_literal or part.startswith("unit("), it
    file = "d0/p0/BUILD"
    root.replace(file, (root.path / file).read_text() + 'filegroup(name = "added")\n')
    after, end = lines.ask("index", patterns=[])
    lines.close()
    keys = {json.dumps(it, sort_keys=True) for it in before}
    differing = keys ^ {json.dumps(it, sort_keys=True) for it in after}
    assert differing and all('"//d0/p0:added"' in it for it in differing)


def test_the_generated_tree(tmp_path: Path, run: Runner) -> None:
    compare(30, tmp_path, run)


@pytest.mark.long
@pytest.mark.timeout(900)
def test_the_generated_tree_of_5000_packages(tmp_path: Path, run: Runner) -> None:
    compare(5_000, tmp_path, run)
