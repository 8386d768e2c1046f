"""Which targets differ between revisions, by hand and beside a naive program."""

from __future__ import annotations

import json
import os
import random
import shutil
from collections.abc import Callable
from pathlib import Path
from typing import Any

import naive_changed
import pytest
from conftest import Done, Root, Runner
from daemon_lines import Lines
from git_trees import change, commit, export, git, random_files

Make = Callable[..., Root]
Direct = Callable[..., Done]

FILES = {
    ".gitignore": "ignored\n",
    ".sefgulaw.toml": "",
    "app/BUILD": (
        'filegroup(name = "core", srcs = ["a.c"])\n' 'filegroup(name = "bin", srcs = [":core"])\n'
    ),
    "app/a.c": "",
    "old/BUILD": 'filegroup(name = "tool")\n',
    "top/BUILD": (
        'genrule(name = "g", srcs = ["//app:bin"], outs = ["o"], cmd = "c")\n'
        'alias(name = "al", actual = ":o")\n'
    ),
}


@pytest.fixture
def committed(tree: Make) -> Root:
    """A small tree that is committed."""
    root = tree(FILES)
    commit(root)
    return root


def test_each_reason(committed: Root, direct: Direct) -> None:
    assert direct("changed", "HEAD", ".", cwd=committed) == Done(0, b"", b"")
    committed.write("app/a.c", "int a;\n")
    assert direct("changed", "HEAD", ".", cwd=committed).lines == [
        "//app:bin  needs //app:core",
        "//app:core  source app/a.c",
        "//top:al  needs //top:g",
        "//top:g  needs //app:bin",
    ]
    committed.write("app/a.c", "")
    committed.write("app/BUILD", FILES["app/BUILD"].replace('["a.c"]', '["a.c"], tags = ["x"]'))
    committed.write("old/BUILD", 'filegroup(name = "tool")\nx = [1\n')
    committed.write("new/BUILD", 'filegroup(name = "n")\n')
    committed.delete("top/BUILD")
    done = direct("changed", "HEAD", ".", cwd=committed)
    assert done.status == 1
    assert done.lines == [
        "//app:bin  needs //app:core",
        "//app:core  attributes tags  <- app/BUILD",
        "//new:n  new  <- new/BUILD",
        "//old:tool  fault old/BUILD:2  <- old/BUILD",
        "//top:al  gone  <- top/BUILD",
        "//top:g  gone  <- top/BUILD",
    ]
    assert done.words == ["old/BUILD:2:5: error: syntax error: '[' was never closed [3]"]
    commit(committed)
    committed.write("new/BUILD", 'alias(name = "n", actual = "//app:bin")\n')
    done = direct("changed", "HEAD", ".", "--output", "jsonl", cwd=committed)
    assert [json.loads(it) for it in done.lines] == [
        {
            "files": ["new/BUILD"],
            "label": "//new:n",
            "reasons": ["kind alias", "attributes actual"],
        }
    ]
    assert done.words == ["sefgulaw: //old has the same fault in both revisions"]
    done = direct("changed", "HEAD~1", "HEAD", cwd=committed)
    assert "//top:g  gone  <- top/BUILD" in done.lines and done.status == 1


def test_what_git_ignores_or_cannot_give_is_left_out(committed: Root, direct: Direct) -> None:
    committed.write("ignored/BUILD", 'filegroup(name = "x")\n')
    (committed.path / "app" / "link").symlink_to("a.c")
    git(committed.path, "add", "app/link")
    done = direct("changed", "HEAD", ".", cwd=committed)
    assert (done.status, done.out) == (0, b"")
    assert done.words == ["sefgulaw: app/link is a link, and is left out"]
    committed.write(b"app/c++ \xff.c", "")
    committed.write(
        "app/BUILD", FILES["app/BUILD"] + 'filegroup(name = "g", srcs = glob(["c*"]))\n'
    )
    done = direct("changed", "HEAD", ".", cwd=committed)
    new = b"//app:g  new, source app/c++ \xef\xbf\xbd.c  <- app/BUILD app/c++ \xef\xbf\xbd.c\n"
    assert done.out == new


def test_a_root_below_that_of_git(tree: Make, direct: Direct) -> None:
    outer = tree({f"sub/{name}": text for name, text in FILES.items()})
    commit(outer)
    outer.write("sub/app/a.c", "x")
    outer.write("beside/BUILD", 'filegroup(name = "x")\n')
    done = direct("changed", "HEAD", ".", cwd=outer.path / "sub")
    assert done.lines[1] == "//app:core  source app/a.c" and len(done.lines) == 4


@pytest.mark.parametrize(
    ("words", "said"),
    [
        (("nowhere", "."), "nowhere: there is no such revision"),
        (("HEAD", "nowhere"), "nowhere: there is no such revision"),
        (("--output=jsonl", "HEAD", "HEAD:app"), "HEAD:app: there is no such revision"),
        ((".", "HEAD"), "the old revision is a commit, and the working tree can be the new one"),
        (("", "."), ": there is no such revision"),
    ],
)
def test_wrong_revisions(
    committed: Root, direct: Direct, words: tuple[str, ...], said: str
) -> None:
    assert direct("changed", *words, cwd=committed) == Done(2, b"", f"sefgulaw: {said}\n".encode())


def test_no_git_and_no_repository(tree: Make, run: Runner, direct: Direct, tmp_path: Path) -> None:
    root = tree(FILES)
    done = direct("changed", "HEAD", ".", cwd=root)
    assert done.status == 2 and done.words[0].startswith(
        "sefgulaw: git rev-parse: not a git repository"
    )
    run.variables["PATH"] = str(tmp_path)
    done = direct("changed", "HEAD", ".", cwd=root)
    assert done.status == 2
    assert done.words == ["sefgulaw: git cannot be run: No such file or directory"]
    done = direct("changed", "HEAD", cwd=root)
    assert done.status == 2 and b"NEW" in done.err


def without_places(items: list[Any]) -> dict[str, list[str]]:
    """Returns the reasons of targets, those of faults without their places."""
    return {
        it["label"]: ["fault" if one.startswith("fault ") else one for one in it["reasons"]]
        for it in items
        if "label" in it
    }


def compare(seed: int, count: int, tree: Make, run: Runner, loader: str, folder: Path) -> None:
    """Compares random commits with what a naive program says."""
    chance = random.Random(seed)
    root = tree(random_files(chance))
    commits = [commit(root)]
    lines = Lines(run, root)
    trees = {commits[0]: export(root.path, commits[0], folder / "0")}
    for number in range(1, count + 1):
        for _ in range(chance.randrange(1, 4)):
            change(chance, root)
        items, end = lines.ask("changed", old=commits[-1], new=".")
        commits.append(commit(root))
        trees[commits[-1]] = export(root.path, commits[-1], folder / str(number))
        expected = naive_changed.compare(loader, trees[commits[-2]], trees[commits[-1]])
        assert without_places(items) == expected, (seed, number, end)
        old = chance.choice(commits)
        items, end = lines.ask("changed", old=old, new=commits[-1])
        expected = naive_changed.compare(loader, trees[old], trees[commits[-1]])
        assert without_places(items) == expected, (seed, number, old, end)
    lines.close()
    shutil.rmtree(folder)


def test_random_commits(tree: Make, run: Runner, loader: str, tmp_path: Path) -> None:
    compare(1, 4, tree, run, loader, tmp_path / "sides")


@pytest.mark.long
@pytest.mark.parametrize("seed", range(10, 20))
def test_many_random_commits(
    seed: int, tree: Make, run: Runner, loader: str, tmp_path: Path
) -> None:
    compare(seed, 20, tree, run, loader, tmp_path / "sides")


def test_a_change_without_a_commit(tree: Make, direct: Direct) -> None:
    root = tree(FILES)
    git(root.path, "init", "-q")
    done = direct("changed", "HEAD", ".", cwd=root)
    assert (done.status, done.words) == (2, ["sefgulaw: HEAD: there is no such revision"])
    assert os.listdir(root.path / ".git")
