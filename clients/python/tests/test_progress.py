"""The bar of a long first load, and completion."""

from __future__ import annotations

import subprocess
import sys
import time
from collections.abc import Callable
from pathlib import Path
from typing import cast

import pytest
from conftest import Root, Runner
from sefgulaw.cli.completion import script_of
from sefgulaw.cli.progress import Bar
from git_trees import commit, git
from trees import SMALL, SMALL_TARGETS

Make = Callable[..., Root]


def test_a_bar_shows_after_half_a_second(capsys: pytest.CaptureFixture[str]) -> None:
    bar = Bar(shown=True)
    bar.update(512, 22_693, "files")
    assert capsys.readouterr().err == ""
    time.sleep(0.6)
    bar.update(12_000, 22_693, "files")
    bar.update(1_024, 3_317, "packages")
    bar.close()
    shown = capsys.readouterr().err
    assert "reading 12,000 of 22,693 files |" in shown
    assert "loading 1,024 of 3,317 packages |" in shown
    assert shown.rpartition("\r")[0].endswith(" ") and shown.endswith("\r")
    bar.update(2_048, 3_317, "packages")
    assert capsys.readouterr().err == ""


def test_a_pipe_gets_no_bar(capsys: pytest.CaptureFixture[str]) -> None:
    bar = Bar(shown=False)
    time.sleep(0.6)
    bar.update(512, 22_693, "files")
    bar.close()
    assert capsys.readouterr().err == ""


def test_a_bar_without_its_library(
    capfd: pytest.CaptureFixture[str], monkeypatch: pytest.MonkeyPatch
) -> None:
    monkeypatch.setitem(cast("dict[str, object]", sys.modules), "tqdm", None)
    bar = Bar(shown=True)
    time.sleep(0.6)
    bar.update(1, 3, "files")
    bar.update(2, 3, "files")
    bar.close()
    words = "sefgulaw: there is no progress bar without the package python3-tqdm\n"
    assert capfd.readouterr().err == words


def in_shell(run: Runner, folder: Path, root: Root, words: list[str]) -> list[str]:
    """Returns what a shell prints that has the command on its path."""
    command = folder / "sefgulaw"
    command.write_text(f'#!/bin/sh\nexec {sys.executable} -m sefgulaw "$@"\n')
    command.chmod(0o755)
    environment = run.environment()
    environment["PATH"] = f"{folder}:{environment['PATH']}"
    done = subprocess.run(words, cwd=root.path, env=environment, capture_output=True, timeout=60)
    assert done.stderr == b""
    return [it.rstrip() for it in done.stdout.decode().splitlines() if it]


def completed(run: Runner, folder: Path, root: Root, line: str) -> list[str]:
    """Returns what bash offers for a line."""
    script = folder / "completion"
    script.write_text(script_of("bash"))
    program = (
        f'. {script}; COMP_LINE="$1"; COMP_POINT=${{#1}}; COMP_TYPE=9;'
        ' _python_argcomplete sefgulaw; printf "%s\\n" "${COMPREPLY[@]}"'
    )
    return in_shell(run, folder, root, ["bash", "-c", program, "bash", line])


def test_bash_completes_words_and_patterns(tree: Make, run: Runner, tmp_path: Path) -> None:
    root = tree({**SMALL, ".sefgulaw.toml": "", "a/b/x": "", ".dot/x": ""})
    assert completed(run, tmp_path, root, "sefgulaw ch") == ["check", "changed"]
    assert completed(run, tmp_path, root, "sefgulaw daemon st") == ["start", "stop", "status"]
    assert completed(run, tmp_path, root, "sefgulaw targets --out") == ["--output"]
    found = completed(run, tmp_path, root, "sefgulaw targets //")
    assert found == ["//a", "//a/", "//lib", "//lib/", "//..."]
    assert completed(run, tmp_path, root, "sefgulaw targets //a/") == ["//a/b/", "//a/..."]
    assert completed(run, tmp_path, root, "sefgulaw targets l") == ["lib", "lib/"]
    assert completed(run, tmp_path, root, "sefgulaw targets //a:") == []
    assert run("targets", cwd=root).lines == SMALL_TARGETS
    assert completed(run, tmp_path, root, "sefgulaw targets //a:") == ["l"]


def test_bash_completes_keys_and_files_of_events(tree: Make, run: Runner, tmp_path: Path) -> None:
    root = tree({**SMALL, ".sefgulaw.toml": "", "a/b/x": "", "ev.jsonl": ""})
    assert completed(run, tmp_path, root, "sefgulaw explain //l") == ["//lib", "//lib/"]
    assert completed(run, tmp_path, root, "sefgulaw explain //lib:") == ["x.bzl"]
    assert completed(run, tmp_path, root, "sefgulaw explain a") == ["a/"]
    assert completed(run, tmp_path, root, "sefgulaw explain a/B") == ["a/BUILD"]
    assert completed(run, tmp_path, root, "sefgulaw explain no/such") == []
    for words in ("explain", "daemon start"):
        assert completed(run, tmp_path, root, f"sefgulaw {words} --ev") == ["--events"]
        assert completed(run, tmp_path, root, f"sefgulaw {words} --events e") == ["ev.jsonl"]


def test_bash_completes_revisions(tree: Make, run: Runner, tmp_path: Path) -> None:
    root = tree(SMALL)
    assert completed(run, tmp_path, root, "sefgulaw changed HE") == []
    commit(root)
    git(root.path, "branch", "topic/one")
    git(root.path, "tag", "tall")
    assert completed(run, tmp_path, root, "sefgulaw changed t") == ["topic/one", "tall"]
    assert completed(run, tmp_path, root, "sefgulaw changed HEAD to") == ["topic/one"]
    assert completed(run, tmp_path, root, "sefgulaw changed HE") == ["HEAD"]


def test_scripts_of_the_other_shells() -> None:
    zsh, fish = script_of("zsh"), script_of("fish")
    assert zsh.startswith("#compdef sefgulaw\n") and "_ARGCOMPLETE=1" in zsh
    assert "complete --command sefgulaw" in fish and "_ARGCOMPLETE 1" in fish


@pytest.mark.long
def test_fish_completes(tree: Make, run: Runner, tmp_path: Path) -> None:
    root = tree({**SMALL, ".sefgulaw.toml": ""})
    for line, expected in (("sefgulaw che", "check"), ("sefgulaw targets //li", "//lib")):
        program = f"sefgulaw completion fish | source; complete -C '{line}'"
        found = in_shell(run, tmp_path, root, ["fish", "--no-config", "-c", program])
        assert found[0].split("\t")[0] == expected
