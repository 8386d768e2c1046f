"""Neovim and Emacs with the set-up that docs/EDITORS.md shows, over the language server."""

from __future__ import annotations

import os
import random
import re
import subprocess
from collections.abc import Callable
from pathlib import Path

import naive
import pytest
from conftest import CHECKOUT, PACKAGE, Root, Runner
from editor import Editor, places
from fresh_root import system
from test_lsp import BUILD, FILES, MODULE
from trees import generate

pytestmark = pytest.mark.long
Make = Callable[..., Root]
EDITORS = PACKAGE / "tests" / "editors"


def shown(language: str) -> str:
    """Returns the set-up in a language that the page shows."""
    page = (CHECKOUT / "docs" / "EDITORS.md").read_text()
    found = re.search(rf"^```{language}\n(.*?)^```$", page, re.M | re.S)
    assert found
    return found[1]


def environment(run: Runner, folder: Path, **variables: str) -> dict[str, str]:
    """Returns the variables of an editor, with the command on its path."""
    script = folder / "bin" / "sefgulaw"
    script.parent.mkdir()
    script.write_text(f'#!/bin/sh\nexec {" ".join(run.words())} "$@"\n')
    script.chmod(0o755)
    own = system(TERM="dumb", HOME=str(folder), EDITORS=str(EDITORS), **variables)
    for name in ("SEFGULAW_LOADER", "PYTHONPATH", "XDG_RUNTIME_DIR"):
        own[name] = run.environment()[name]
    own["PATH"] = f"{script.parent}:{os.environ['PATH']}"
    return own


def neovim(run: Runner, root: Root, folder: Path, script: str, **variables: str) -> list[str]:
    """Runs neovim with the page's set-up, and returns what a script prints."""
    setup = folder / "init.lua"
    setup.write_text(shown("lua"))
    words = ["nvim", "--headless", "-u", "NONE", "-i", "NONE", "-n"]
    words += ["-c", f"luafile {setup}", "-c", f"luafile {EDITORS / script}"]
    done = subprocess.run(
        words,
        cwd=root.path,
        env=environment(run, folder, **variables),
        stdin=subprocess.DEVNULL,
        capture_output=True,
        text=True,
        timeout=280,
    )
    assert done.stdout, done.stderr
    return done.stdout.splitlines()


def test_neovim(tree: Make, run: Runner, tmp_path: Path) -> None:
    printed = neovim(run, tree(FILES), tmp_path, "tour.lua")
    assert printed == [
        "opened",
        "a name",
        "  2:1 name is not bound: filegrup",
        "a bracket",
        "  2:5 syntax error: '[' was never closed",
        "a macro",
        "  3:1 wrong arguments, or a key twice in one dictionary",
        "good again",
        "definition lib/BUILD:1",
        "loaded lib/x.bzl:3",
        "hover filegroup //lib:p",
        "users 1, a/BUILD:3",
        "completion BUILD p x.bzl",
        "a module",
        "  1:5 syntax error: '[' was never closed",
    ]


def test_emacs(tree: Make, run: Runner, tmp_path: Path) -> None:
    root = tree(FILES)
    (tmp_path / "init.el").write_text(shown("elisp"))
    words = ["emacs", "--batch", "--eval", "(package-initialize)"]
    words += ["-l", str(tmp_path / "init.el"), "-l", str(EDITORS / "drive.el")]
    done = subprocess.run(
        words,
        cwd=root.path,
        env=environment(run, tmp_path, TREE=str(root.path)),
        stdin=subprocess.DEVNULL,
        capture_output=True,
        text=True,
        timeout=280,
    )
    assert done.stdout.splitlines() == [
        'one ("4:sefgulaw [4]: name is not bound: filegrup")',
        'two ("4:sefgulaw [4]: name is not bound: filegrup"'
        " \"5:sefgulaw [3]: syntax error: '[' was never closed\")",
        "definition lib/BUILD:1",
        "three nil",
    ], done.stderr


@pytest.mark.timeout(900)
def test_neovim_at_5000_packages(tmp_path: Path, run: Runner) -> None:
    root = Root(tmp_path / "tree")
    root.path.mkdir()
    generate(5_000, root.path)
    root.write(".sefgulaw.toml", "")
    assert run("check", cwd=root).status == 0
    files = {"BUILD_FILE": "d0/p0/BUILD", "BZL_FILE": "lib/g0.bzl"}
    printed = neovim(run, root, tmp_path, "speed.lua", **files)
    print(printed)
    took = {line.split()[0]: float(line.split()[1]) for line in printed}
    assert set(took) == {"build", "completion", "bzl"}
    assert took["build"] <= 10 and took["completion"] <= 10 and took["bzl"] <= 50


@pytest.mark.timeout(900)
def test_random_edits_and_undos_end_as_a_fresh_start(tree: Make, run: Runner, loader: str) -> None:
    root = tree(FILES)
    chance = random.Random(7)
    texts = {"a/BUILD": [BUILD], "lib/x.bzl": [MODULE]}
    pieces = [
        "x = y\n",
        "filegrup()\n",
        'filegroup(name = "n")\n',
        "def f():\n    return 1\n",
        "[\n",
    ]
    with_server = Editor(run, root)
    with_server.start()
    for path in texts:
        with_server.open(path)
    for number in range(1_000):
        path = chance.choice(sorted(texts))
        known = texts[path]
        if len(known) > 1 and chance.random() < 0.5:
            known.pop()
        else:
            lines = known[-1].splitlines(True)
            lines.insert(chance.randrange(len(lines) + 1), chance.choice(pieces))
            known.append("".join(lines))
        with_server.change(path, known[-1])
        if number % 100 == 99:
            compare(with_server, root, run, {it: found[-1] for it, found in texts.items()}, loader)
    with_server.kill()


def compare(server: Editor, root: Root, run: Runner, texts: dict[str, str], loader: str) -> None:
    """Compares what an editor is shown with a fresh server, and with the loader about faults."""
    other = Editor(run, root)
    other.start()
    for path, text in texts.items():
        other.open(path, text)
    for one in (server, other):
        for path, text in texts.items():
            one.edit(path, text + "\n")
            one.edit(path, text)
        one.ask("workspace/symbol", query="")
    for path in texts:
        assert places(server.shown[path]) == places(other.shown[path]), path
    answers = naive.answers(loader, os.fsencode(root.path), texts)
    errors = [it for it in server.shown["a/BUILD"] if it["severity"] == 1]
    assert bool(errors) == (b'"fault"' in answers["a"])
    other.kill()
