"""Editors read the lines of `check` as they read a compiler's."""

from __future__ import annotations

import re
import subprocess
from collections.abc import Callable
from pathlib import Path

import pytest
from conftest import Done, Root
from fresh_root import system

Make = Callable[..., Root]
Direct = Callable[..., Done]

FILES = {
    "a/BUILD": 'filegroup(name = "l")\n\nfilegrup(name = "m")\nx = [1, 2\n',
    "b/BUILD": 'load("//c:m.bzl", "f")\nf(0)\n',
    "c/BUILD": "",
    "c/m.bzl": "def f(x):\n    return 1 // x\n",
}
PLACES = [("a/BUILD", 3, 1), ("a/BUILD", 4, 5), ("b/BUILD", 2, 1), ("c/m.bzl", 2, 5)]


@pytest.fixture
def printed(tree: Make, direct: Direct, tmp_path: Path) -> Path:
    """A file with what `check` prints of a tree, in the root of that tree."""
    root = tree(FILES)
    done = direct("check", cwd=root)
    assert done.status == 1
    file = root.path / "printed"
    file.write_bytes(done.out)
    return file


def edited(words: list[str], printed: Path) -> str:
    """Runs an editor in the directory of a file, and returns what it writes."""
    done = subprocess.run(
        words,
        cwd=printed.parent,
        env=system(TERM="dumb", HOME=str(printed.parent)),
        stdin=subprocess.DEVNULL,
        capture_output=True,
        text=True,
        timeout=120,
    )
    return done.stdout + done.stderr


@pytest.mark.long
@pytest.mark.parametrize("editor", ["vim", "nvim"])
def test_vim_finds_the_places(printed: Path, editor: str) -> None:
    parts = "bufname(v:val.bufnr).':'.v:val.lnum.':'.v:val.col"
    show = f'map(filter(getqflist(), "v:val.valid"), "{parts}")'
    words = [editor, "-u", "NONE", "-es", "-c", "cgetfile printed"]
    words += ["-c", f"call writefile({show}, 'found')", "-c", "qa!"]
    said = edited(words, printed)
    found = (printed.parent / "found").read_text()
    assert found.splitlines() == [f"{file}:{line}:{column}" for file, line, column in PLACES], said


@pytest.mark.long
def test_emacs_finds_the_places(printed: Path) -> None:
    program = """
(progn
  (require 'compile)
  (find-file "printed")
  (compilation-mode)
  (compilation--ensure-parse (point-max))
  (let ((at (point-min)) (before nil))
    (while at
      (let ((message (get-text-property at 'compilation-message)))
        (when (and message (not (eq message before)))
          (let ((loc (compilation--message->loc message)))
            (princ (format "%s:%d:%d\\n" (caar (compilation--loc->file-struct loc))
                           (compilation--loc->line loc) (compilation--loc->col loc)))))
        (setq before message at (next-single-property-change at 'compilation-message))))))
"""
    said = edited(["emacs", "-Q", "--batch", "--eval", program], printed)
    found = re.findall(r"^([^:\n]+):(\d+):(\d+)$", said, re.M)
    assert found == [(it[0], str(it[1]), str(it[2])) for it in PLACES], said
