"""Hostile words and devices: bad labels, absent directories, full disks, readers that go."""

from __future__ import annotations

import os
import signal
import socket
import subprocess
import threading
import time
from collections.abc import Callable

import pytest
from conftest import Done, Root, Runner
from pytest import MonkeyPatch
from sefgulaw.daemon.place import Place
from trees import SMALL, SMALL_TARGETS

Make = Callable[..., Root]
Direct = Callable[..., Done]


def test_no_words(tree: Make, run: Runner) -> None:
    done = run(cwd=tree(SMALL))
    assert (done.status, done.out) == (2, b"")
    assert done.words[0].startswith("usage: sefgulaw ")


def test_an_unknown_word(tree: Make, run: Runner) -> None:
    done = run("chekc", cwd=tree(SMALL))
    assert (done.status, done.out) == (2, b"")
    assert "invalid choice: 'chekc'" in done.words[-1]


def test_a_tree_with_modules_of_the_library(tree: Make, run: Runner) -> None:
    modules = {f"{name}.py": "raise SystemExit(77)\n" for name in ("argparse", "asyncio", "json")}
    root = tree({**SMALL, **modules, ".sefgulaw.toml": ""})
    for words in (["targets", "--no-daemon"], ["targets"]):
        done = run(*words, cwd=root)
        assert (done.status, done.lines, done.err) == (0, SMALL_TARGETS, b"")


def test_no_loader(tree: Make, run: Runner) -> None:
    run.variables["SEFGULAW_LOADER"] = "/no/such"
    done = run("check", "--no-daemon", cwd=tree(SMALL))
    assert done == Done(3, b"", b"sefgulaw: /no/such: there is no such program\n")


def test_a_loader_that_is_none(tree: Make, run: Runner) -> None:
    run.variables["SEFGULAW_LOADER"] = "/bin/true"
    done = run("check", "--no-daemon", cwd=tree(SMALL))
    assert (done.status, done.out) == (3, b"")
    assert done.words == ["sefgulaw: the loader has ended: killed (status 0)"]


def test_a_directory_that_is_not_there(tree: Make, direct: Direct) -> None:
    root = tree(SMALL)
    done = direct("check", "-C", "nowhere", cwd=root)
    assert done == Done(2, b"", b"sefgulaw: nowhere: no such directory\n")
    done = direct("check", "-C", "a/BUILD", cwd=root)
    assert done == Done(2, b"", b"sefgulaw: a/BUILD: is not a directory\n")
    done = direct("check", "//nowhere/...", cwd=root)
    assert done == Done(2, b"", b'sefgulaw: "//nowhere/...": there is no directory nowhere\n')


@pytest.mark.parametrize("words", ["//a", "//a:l", "//a:all", "//a:*", "a", "a/", "a:l", "a/BUILD"])
def test_words_for_a_package(tree: Make, direct: Direct, words: str) -> None:
    assert direct("targets", words, cwd=tree(SMALL)) == Done(0, b"//a:l filegroup\n", b"")


def test_words_are_read_in_the_present_directory(tree: Make, direct: Direct) -> None:
    root = tree({**SMALL, ".sefgulaw.toml": ""})
    below = root.path / "a"
    for words in (":l", ".", "...", "BUILD", "../a"):
        assert direct("targets", words, cwd=below) == Done(0, b"//a:l filegroup\n", b"")


def test_patterns_that_take_away(tree: Make, direct: Direct) -> None:
    root = tree(SMALL)
    done = direct("targets", "//...", "-//a/...", cwd=root)
    assert done == Done(0, b"//lib:p filegroup\n", b"")
    done = direct("targets", "//...", "-//a:l", cwd=root)
    assert done == Done(0, b"//lib:p filegroup\n", b"")


@pytest.mark.parametrize(
    ("words", "why"),
    [
        ("//a//b", "a package name has no empty part"),
        ("//a:", "a pattern names a target after its colon"),
        ("@repo//a", "labels of other repositories are not read"),
        ("/a", "a pattern begins with two slashes or with none"),
        ("..", "the directory is not below the root"),
    ],
)
def test_a_label_that_is_none(tree: Make, direct: Direct, words: str, why: str) -> None:
    done = direct("targets", words, cwd=tree({**SMALL, ".sefgulaw.toml": ""}))
    assert done == Done(2, b"", f'sefgulaw: "{words}": {why}\n'.encode())


def test_a_package_and_a_target_that_are_not_there(tree: Make, direct: Direct) -> None:
    root = tree(SMALL)
    done = direct("targets", "//nope", cwd=root)
    words = b"nope/BUILD:1:1: error: no such package: //nope [1]\n"
    assert done == Done(1, b"", words)
    done = direct("targets", "//a:nope", cwd=root)
    assert done == Done(1, b"", b"a/BUILD:1:1: error: no such target: //a:nope [no target]\n")


def test_bad_settings(tree: Make, direct: Direct) -> None:
    root = tree({**SMALL, ".sefgulaw.toml": "workers = 0\n"})
    words = b"sefgulaw: .sefgulaw.toml: workers is a whole number from 1 to 16\n"
    assert direct("check", cwd=root) == Done(2, b"", words)
    root.write(".sefgulaw.toml", "colour = 1\n")
    words = b"sefgulaw: .sefgulaw.toml: there is no setting 'colour'\n"
    assert direct("check", cwd=root) == Done(2, b"", words)
    root.write(".sefgulaw.toml", "x = [\n")
    assert direct("check", cwd=root).status == 2


def test_ignored_directories(tree: Make, direct: Direct) -> None:
    files = {"third/x/BUILD": "x = y\n", "fourth/BUILD": "x = y\n", ".git/BUILD": "x = y\n"}
    settings = {".sefgulaw.toml": 'ignore = ["third/x"]\n', ".bazelignore": "# a word\nfourth\n"}
    root = tree({**SMALL, **files, **settings, ".dot/BUILD": ""})
    done = direct("check", cwd=root)
    assert done == Done(0, b"", b"sefgulaw: no faults in 3 packages\n")


WAYS = pytest.mark.parametrize("way", [["--no-daemon"], []], ids=["direct", "daemon"])


@WAYS
def test_a_reader_that_goes(tree: Make, run: Runner, way: list[str]) -> None:
    rules = "".join(f'filegroup(name = "t{at}")\n' for at in range(40))
    root = tree({f"p{at}/BUILD": rules for at in range(300)})
    process = run.start("targets", *way, cwd=root.path)
    assert process.stdout and process.stderr
    assert process.stdout.readline() == b"//p0:t0 filegroup\n"
    process.stdout.close()
    assert process.stderr.read() == b""
    assert process.wait(30) == -signal.SIGPIPE


@WAYS
def test_a_full_disk(tree: Make, run: Runner, way: list[str]) -> None:
    full = os.open("/dev/full", os.O_WRONLY)
    process = run.start("targets", *way, cwd=tree(SMALL).path, stdout=full)
    os.close(full)
    _, err = process.communicate(timeout=60)
    assert err == b"sefgulaw: standard output: No space left on device\n"
    assert process.returncode == 3


def test_standard_error_that_is_closed(tree: Make, run: Runner) -> None:
    words = ["/bin/sh", "-c", '"$@" 2>&-', "sh", *run.words("targets", "--no-daemon")]
    done = subprocess.run(
        words, cwd=tree(SMALL).path, env=run.environment(), stdout=subprocess.PIPE, timeout=60
    )
    assert done.stdout.decode().splitlines() == SMALL_TARGETS
    assert done.returncode == 0


@WAYS
def test_interrupted_during_a_request(tree: Make, run: Runner, way: list[str]) -> None:
    text = "def wait():\n    x = [0] * 65536\n    for i in range(65000):\n        y = x * 1\n"
    root = tree({**SMALL, "a/x.bzl": text + "wait()\n", "a/BUILD": 'load(":x.bzl", "wait")\n'})
    process = run.start("check", *way, cwd=root.path)
    time.sleep(1.5)
    process.send_signal(signal.SIGINT)
    out, err = process.communicate(timeout=60)
    assert (process.returncode, out, err) == (130, b"", b"")


class Stub(threading.Thread):
    """A daemon that answers one front end after the other with the same bytes, and goes."""

    def __init__(self, run: Runner, root: Root, answer: bytes, monkeypatch: MonkeyPatch) -> None:
        super().__init__(daemon=True)
        monkeypatch.setenv("XDG_RUNTIME_DIR", str(run.runtime))
        place = Place(os.fsencode(os.path.realpath(root.path)))
        place.make()
        self._answer = answer
        self._listening = socket.socket(socket.AF_UNIX)
        path, number = place.address()
        self._listening.bind(path)
        if number is not None:
            os.close(number)
        self._listening.listen(8)
        self.asked = 0
        self.start()

    def run(self) -> None:
        """Answers."""
        while True:
            found, _ = self._listening.accept()
            while b'"method":"targets"' not in found.recv(1 << 16):
                pass
            self.asked += 1
            found.sendall(self._answer)
            found.close()


HELLO = b'{"id":1,"end":{"exact":true,"notes":[],"status":0,"summary":"","version":0}}\n'
LABEL = b'{"id":2,"item":{"attrs":{},"kind":"filegroup","label":"//a:l"}}\n'


@pytest.mark.parametrize(
    ("answer", "asked"),
    [(b"", 5), (HELLO, 5), (HELLO + b"nonsense\n", 5), (HELLO + LABEL, 1)],
    ids=["nothing", "greeting", "nonsense", "half"],
)
def test_a_daemon_that_goes_during_its_answer(
    tree: Make, run: Runner, monkeypatch: MonkeyPatch, answer: bytes, asked: int
) -> None:
    root = tree({**SMALL, ".sefgulaw.toml": ""})
    stub = Stub(run, root, answer, monkeypatch)
    done = run("targets", cwd=root)
    words = b"sefgulaw: the daemon has ended before its answer did\n"
    assert done == Done(3, b"", words)
    assert stub.asked == asked
