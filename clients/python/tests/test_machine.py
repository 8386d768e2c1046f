"""Random changes of a tree: after each step a resident tree answers as a fresh loader does."""

from __future__ import annotations

import argparse
import contextlib
import json
import os
import shutil
import signal
import tempfile
from collections.abc import Callable
from pathlib import Path

import pytest
from conftest import Root
from hypothesis import HealthCheck, settings
from hypothesis import strategies as st
from hypothesis.stateful import RuleBasedStateMachine, invariant, rule, run_state_machine_as_test
from naive import answers
from sefgulaw.base import Base, Options
from sefgulaw.cli.asking import replies, where
from sefgulaw.names import encode
from sefgulaw.overlay import Overlay
from sefgulaw.requests import Question, Tree

DIRECTORIES = ["", "a", "a/b", "a/b/c", "d", "d/e"]
SOURCES = ["BUILD", "BUILD.bazel", "m.bzl", "n.bzl"]
OTHERS = ["x.c", "y.c", "o d.c", "c++.c", "\udcff.c"]
RULE = 'filegroup(name = "t{}", srcs = glob(["*.c", "**/*.h"]))\n'
TEXTS = [
    "",
    RULE.format(1),
    RULE.format(2) + 'filegroup(name = "u", srcs = glob(["**/*.c"]))\n',
    'load(":m.bzl", "M")\nfilegroup(name = "m", tags = M)\n',
    'load("//a:m.bzl", "M")\nfilegroup(name = "am", tags = M)\n',
    'load("//a/b:n.bzl", "make")\nmake("made")\n',
    'load("//d/e:n.bzl", "make")\nmake("made")\n',
    "x = y\n",
    "x = [\n",
    'load(":BUILD", "x")\n',
]
MODULES = [
    "",
    'M = ["m"]\n',
    'M = ["other"]\n',
    "def make(name):\n    native.filegroup(name = name, srcs = native.glob(['*.c']))\n",
    'load("//d:m.bzl", "M")\n',
    'load("//a:n.bzl", N = "make")\nM = ["n"]\nmake = N\n',
    'load(":n.bzl", "make")\nM = [str(make)]\n',
    "M = [\n",
    "# \udce9\nM = []\n",
]

WHOLE = {
    "a/BUILD": 'load(":m.bzl", "M")\n' + RULE.format(0) + 'filegroup(name = "m", tags = M)\n',
    "a/m.bzl": 'load("//d/e:n.bzl", "make")\nM = ["m", str(make)]\n',
    "a/b/BUILD": 'load("//a:m.bzl", "M")\nfilegroup(name = "am", tags = M)\n' + RULE.format(1),
    "a/b/x.c": "",
    "d/BUILD": 'load("//d/e:n.bzl", "make")\nmake("made")\n',
    "d/e/BUILD": RULE.format(2),
    "d/e/n.bzl": MODULES[3],
    "d/e/y.c": "",
}
"""A tree whose packages load each other's modules."""

directories = st.sampled_from(DIRECTORIES)
places = st.tuples(directories, st.sampled_from(SOURCES + OTHERS)).map("/".join)


class Machine(RuleBasedStateMachine):
    """A tree on disk that changes, beside somebody who keeps up with it."""

    loader = ""

    def __init__(self) -> None:
        super().__init__()
        self.above = Path(tempfile.mkdtemp(prefix="sefgulaw-"))
        self.root = Root(self.above / "tree")
        self.root.path.mkdir()
        self.root.write(".sefgulaw.toml", "")
        for name, text in WHOLE.items():
            self.root.write(name, text)
        self.open()

    def open(self) -> None:
        """Begins to keep up."""
        options = Options(self.loader)
        self.tree = Tree(Base.open_watched(os.fsencode(self.root.path), options, print))

    def answers(self) -> tuple[int, dict[str, bytes]]:
        """Returns the status, and the item about each package."""
        status = self.tree.check(Question()).end.status
        base = self.tree.base
        return status, {name: base.store.raw(name) or b"" for name in base.names()}

    def teardown(self) -> None:
        """Ends what was begun."""
        self.tree.close()
        shutil.rmtree(self.above)

    def full(self, name: str) -> bytes:
        """Returns the path of a file on disk."""
        return os.path.join(os.fsencode(self.root.path), os.fsencode(name).lstrip(b"/"))

    def clear(self, name: str) -> bool:
        """Makes room for a file. Tells whether there is room: no directory and no file above."""
        full = self.full(name)
        if os.path.isdir(full) and not os.path.islink(full):
            return False
        return self.make_directory(os.path.dirname(full))

    def make_directory(self, full: bytes) -> bool:
        """Makes a directory and those above it, if no file is in the way."""
        try:
            os.makedirs(full, exist_ok=True)
        except (FileExistsError, NotADirectoryError):
            return False
        return True

    def write(self, place: str, text: str, module: str) -> None:
        """Writes a file in its place."""
        if self.clear(place):
            content = module if place.endswith(".bzl") else text
            if os.path.islink(self.full(place)):
                os.unlink(self.full(place))
            with open(self.full(place), "wb") as file:
                file.write(os.fsencode(content))

    @rule(place=places, text=st.sampled_from(TEXTS), module=st.sampled_from(MODULES))
    def write_source(self, place: str, text: str, module: str) -> None:
        """Writes any file."""
        self.write(place, text, module)

    @rule(module=st.sampled_from(["a/m.bzl", "d/e/n.bzl"]), text=st.sampled_from(MODULES))
    def write_module(self, module: str, text: str) -> None:
        """Writes a module that others load."""
        self.write(module, "", text)

    @rule()
    def mend(self) -> None:
        """Writes the files of the whole tree again, as far as there is room."""
        for name, text in WHOLE.items():
            self.write(name, text, text)

    @rule(place=places)
    def delete(self, place: str) -> None:
        """Takes a file away."""
        if os.path.lexists(self.full(place)) and not os.path.isdir(self.full(place)):
            os.unlink(self.full(place))

    @rule(source=places, to=places)
    def rename(self, source: str, to: str) -> None:
        """Renames a file, over another one if there is one."""
        if os.path.lexists(self.full(source)) and self.clear(to):
            if not os.path.isdir(self.full(source)):
                os.replace(self.full(source), self.full(to))

    @rule(directory=directories)
    def move_out_or_in(self, directory: str) -> None:
        """Moves a directory out of the tree, or the one that was moved out back in."""
        full, outside = self.full(directory), os.fsencode(self.above / "outside")
        if not directory:
            return
        if os.path.isdir(outside) and not os.path.lexists(full):
            if self.make_directory(os.path.dirname(full)):
                os.rename(outside, full)
        elif os.path.isdir(full) and not os.path.lexists(outside):
            os.rename(full, outside)

    @rule(place=places, to=places)
    def link(self, place: str, to: str) -> None:
        """Makes a link, which may lead nowhere."""
        if self.clear(place) and place != to:
            if os.path.lexists(self.full(place)):
                os.unlink(self.full(place))
            os.symlink(self.full(to), self.full(place))

    @rule(directory=directories)
    def turn_into_a_file(self, directory: str) -> None:
        """A directory makes way for a file of its name."""
        if directory and os.path.isdir(self.full(directory)):
            shutil.rmtree(self.full(directory))
            with open(self.full(directory), "wb"):
                pass

    @rule(directory=directories)
    def turn_into_a_directory(self, directory: str) -> None:
        """A file makes way for a directory of its name."""
        if directory and os.path.isfile(self.full(directory)):
            os.unlink(self.full(directory))
            os.mkdir(self.full(directory))

    @rule(directory=directories)
    def grow_over_the_limit(self, directory: str) -> None:
        """A BUILD file grows over the limit."""
        if os.path.isfile(self.full(directory + "/BUILD")):
            with open(self.full(directory + "/BUILD"), "wb") as file:
                file.write(b"#" * 262_145)

    @rule(place=places, text=st.sampled_from(TEXTS), module=st.sampled_from(MODULES))
    def open_a_buffer(self, place: str, text: str, module: str) -> None:
        """An editor has a text that is not saved. The answers for others stay as they are."""
        path = encode(os.fsencode(place.lstrip("/")))
        content = (module if place.endswith(".bzl") else text).replace("\udce9", "\x80")
        overlay = Overlay(self.tree.base)
        self.tree.base.refresh()
        if overlay.takes(path):
            overlay.put(path, content)
            expected = answers(self.loader, os.fsencode(self.root.path), {path: content})
            reached = overlay.messages(self.tree.base.names())
            for name, messages in reached.items():
                assert bool(messages) == (b'{"fault":' in expected[name]), name
            status, kept = self.answers()
            for name in expected.keys() - reached.keys():
                assert expected[name] == kept[name]
        overlay.close()

    @rule()
    def kill_the_loader(self) -> None:
        """The loader is killed."""
        process = self.tree.base.mirror.pid
        if process is not None:
            os.kill(process, signal.SIGKILL)

    @invariant()
    def answers_as_a_fresh_loader(self) -> None:
        """The answers and the status are those of a naive program."""
        expected = answers(self.loader, os.fsencode(self.root.path))
        status, found = self.answers()
        assert found == expected
        assert status == int(any(b'{"fault":' in item for item in expected.values()))


class DaemonMachine(Machine):
    """The same with a daemon."""

    def open(self) -> None:
        """Begins to keep up: the first question starts the daemon."""
        os.environ["XDG_RUNTIME_DIR"] = str(self.above)
        os.environ["SEFGULAW_LOADER"] = self.loader

    def ask(self, method: str) -> tuple[int, list[bytes]]:
        """Asks the daemon for all packages."""
        found = argparse.Namespace(directory=str(self.root.path))
        answering = replies(where(found), method, {"patterns": ["//..."], "cwd": ""})
        assert answering is not None
        items: list[bytes] = []
        status = -1
        for reply in answering:
            if reply.item is not None:
                items.append(reply.item)
            elif reply.end is not None:
                status = reply.end["status"]
        return status, items

    def answers(self) -> tuple[int, dict[str, bytes]]:
        """Returns the status, and for each package an item of what the daemon says of it."""
        status, items = self.ask("targets")
        found: dict[str, bytes] = {}
        for item in items:
            members = json.loads(item)
            for name in [members["label"][2:].partition(":")[0]] if "label" in members else []:
                found[name] = found.get(name, b"") + item
        return status, found

    def process(self) -> int:
        """Returns the number of the daemon's process."""
        return int(next(self.above.glob("sefgulaw/*/pid")).read_text())

    def teardown(self) -> None:
        """Ends what was begun."""
        self.kill_the_daemon()
        shutil.rmtree(self.above)

    @rule()
    def open_a_buffer(self) -> None:
        """Nothing: the tests of the daemon open buffers."""

    @rule()
    def kill_the_daemon(self) -> None:
        """The daemon is killed."""
        with contextlib.suppress(ProcessLookupError):
            os.kill(self.process(), signal.SIGKILL)

    @rule()
    def kill_the_loader(self) -> None:
        """The loader is killed."""
        for file in Path(f"/proc/{self.process()}/task").glob("*/children"):
            for child in file.read_text().split():
                with contextlib.suppress(ProcessLookupError):
                    os.kill(int(child), signal.SIGKILL)

    @invariant()
    def answers_as_a_fresh_loader(self) -> None:
        """The targets and the status are those of a naive program."""
        expected = answers(self.loader, os.fsencode(self.root.path))
        status, found = self.answers()
        assert status == int(any(b'{"fault":' in item for item in expected.values()))
        good = {name: json.loads(item) for name, item in expected.items()}
        names = {
            name: [it["name"] for it in item.get("targets", [])] for name, item in good.items()
        }
        assert {name: raw.count(b'"kind"') for name, raw in found.items()} == {
            name: len(targets) for name, targets in names.items() if targets
        }
        for name, targets in names.items():
            for target in targets:
                assert f'"label":"//{name}:{target}"'.encode() in found[name]


def run_machine(kind: Callable[[], Machine], examples: int, steps: int) -> None:
    """Runs a machine so many times with so many steps each."""
    run_state_machine_as_test(  # type: ignore[no-untyped-call]
        kind,
        settings=settings(
            max_examples=examples,
            stateful_step_count=steps,
            deadline=None,
            derandomize=True,
            suppress_health_check=list(HealthCheck),
        ),
    )


def test_random_changes(loader: str) -> None:
    Machine.loader = loader
    run_machine(Machine, 14, 20)


@pytest.mark.long
def test_many_random_changes(loader: str) -> None:
    Machine.loader = loader
    run_machine(Machine, 70, 40)


@pytest.mark.long
def test_random_changes_beside_a_daemon(loader: str, monkeypatch: pytest.MonkeyPatch) -> None:
    monkeypatch.delenv("CI", raising=False)
    monkeypatch.setenv("XDG_RUNTIME_DIR", "")
    monkeypatch.setenv("SEFGULAW_LOADER", "")
    DaemonMachine.loader = loader
    run_machine(DaemonMachine, 15, 30)
