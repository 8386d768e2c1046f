"""Files that are looked at while the loader takes others, beside loaders that refuse and end."""

from __future__ import annotations

import os
import random
import sys
from collections.abc import Callable, Iterable, Sequence
from pathlib import Path as FilePath
from typing import cast

import pytest

from sefgulaw import batches
from sefgulaw.base import Base, Options
from sefgulaw.mirror import BrokenLoader, Mirror
from sefgulaw.names import Path
from sefgulaw.telling import FAILING, Absent, Text, Told
from sefgulaw.watch.poll import Poll
from sefgulaw.wire import Loader, NoLoader, Stopped
from test_kept_up import Files

ANSWERS = """import json, sys, time
for number, line in enumerate(sys.stdin):
    time.sleep(0.01)
    print(json.dumps({"number": number, "length": len(line)}), flush=True)
"""

COUNTS = """#!{python}
import json, sys
version = 0
for line in sys.stdin:
    members = json.loads(line)
    if members["op"] == "load":
        items = [json.dumps({{"name": name, "targets": []}}) for name in members["names"]]
        print('{{"packages":[%s]}}' % ",".join(it.replace(" ", "") for it in items), flush=True)
        continue
    version += 1
    print('{{"ok":%d}}' % version, flush=True)
"""


def test_an_answer_that_nobody_read_is_passed_over() -> None:
    loader = Loader.start([sys.executable, "-I", "-c", ANSWERS])
    loader.send_line(b"a\n")
    loader.send_line(b"bb\n")
    assert loader.receive() == b'{"number": 1, "length": 3}'
    assert loader.ask_line(b"ccc\n") == b'{"number": 2, "length": 4}'
    loader.send_line(b"dddd\n")
    assert loader.ask_line(b"e\n") == b'{"number": 4, "length": 2}'
    assert loader.answered == 5
    assert loader.close() == 0


class Ending(Files):
    """A loader that ends when a line is sent, or before it answers one, after so many lines."""

    def __init__(self, lines: int, at_send: bool, refused: Iterable[str]) -> None:
        super().__init__()
        self.lines, self.at_send = lines, at_send
        self.refused = set(refused)

    def send_line(self, line: bytes) -> None:
        """Takes a line, or ends."""
        if self.at_send:
            self.count()
        super().send_line(line)

    def receive(self) -> bytes:
        """Answers a line, or ends before it does."""
        line, self.line = self.line, None
        assert line is not None
        if not self.at_send:
            self.count()
        return self.ask(line)

    def ask_line(self, line: bytes) -> bytes:
        """Sends a line and answers it, or ends."""
        self.count()
        return self.ask(line)

    def ask(self, line: bytes) -> bytes:
        """Answers an edit, and refuses some paths."""
        for at, words in enumerate(line.split(b'"path":"')[1:]):
            if words.partition(b'"')[0].decode() in self.refused:
                return b'{"edit":%d,"refused":2}' % at
        return super().ask_line(line)

    def count(self) -> None:
        """Counts a line, and ends when it is the last one."""
        self.lines -= 1
        if self.lines < 0:
            raise Stopped("killed", -9)

    def kill(self) -> None:
        """Is called where a mirror has seen the end."""


def one_a_line(monkeypatch: pytest.MonkeyPatch, most: int = 1) -> None:
    """Has each line hold few changes."""
    monkeypatch.setattr(batches, "MOST_EDITS", most)


def mirror_of(texts: dict[str, str], starts: Callable[[], Files]) -> tuple[Mirror, list[Files]]:
    """Returns a mirror of some files with loaders as they are started."""
    loaders: list[Files] = []

    def start() -> Loader:
        loaders.append(starts())
        return cast(Loader, loaders[-1])

    def source(path: Path) -> Told:
        return Text(texts[path]) if path in texts else Absent()

    return Mirror(start, source, lambda names, stop: []), loaders


@pytest.mark.parametrize("at_send", [False, True])
@pytest.mark.parametrize("refused", [(), ("f03",), ("f00", "f11"), ("f05", "f06.bzl")])
def test_a_loader_that_ends_while_files_are_told(
    monkeypatch: pytest.MonkeyPatch, at_send: bool, refused: Sequence[str]
) -> None:
    one_a_line(monkeypatch, 2)
    names = [f"f{it:02}" for it in range(11)] + ["f06.bzl", "f11"]
    texts = {name: name if name.endswith(".bzl") else "" for name in names}
    for lines in range(16):
        ends = iter([lines])
        mirror, loaders = mirror_of(texts, lambda: Ending(next(ends, 1000), at_send, refused))
        seen: list[Path] = []
        synced = mirror.sync([Path(it) for it in [*names, "absent"]], seen.extend)
        expected = set(names).difference(refused)
        assert loaders[-1].paths == set(mirror.told) == expected
        assert synced.changed >= synced.noted == set(seen)
        assert synced.changed == expected
        assert len(seen) == len(set(seen))
        assert mirror.version > 0 and set(mirror.notes) == set(refused)


def test_a_loader_that_always_ends(monkeypatch: pytest.MonkeyPatch) -> None:
    one_a_line(monkeypatch)
    mirror, loaders = mirror_of({"a": "", "b": "", "c": ""}, lambda: Ending(1, False, ()))
    with pytest.raises(BrokenLoader):
        mirror.sync(map(Path, ["a", "b", "c"]))
    assert len(loaders) > 2


def test_a_file_that_is_refused_twice_is_told_as_a_failing_one(
    monkeypatch: pytest.MonkeyPatch,
) -> None:
    one_a_line(monkeypatch, 3)
    texts = {name: "x = 1\n" for name in ("a.bzl", "b.bzl", "c.bzl", "d.bzl")}

    class Choosy(Ending):
        """A loader that refuses one text."""

        def ask(self, line: bytes) -> bytes:
            at = line.find(b'"path":"b.bzl","text":"x')
            if at >= 0:
                return b'{"edit":%d,"refused":7}' % line.count(b'"path"', 0, at)
            return super().ask(line)

    mirror, _ = mirror_of(texts, lambda: Choosy(1000, False, ()))
    synced = mirror.sync(map(Path, texts), lambda paths: None)
    assert mirror.told == {**texts, "b.bzl": FAILING}
    assert mirror.notes[Path("b.bzl")].code == "refused"
    assert synced.changed == set(texts)


def test_the_first_files_are_looked_at_while_the_loader_takes_others(
    monkeypatch: pytest.MonkeyPatch,
) -> None:
    one_a_line(monkeypatch)
    events: list[str] = []

    class Telling(Files):
        """A loader that notes when it is told something."""

        def send_line(self, line: bytes) -> None:
            events.append("sent")
            super().send_line(line)

        def receive(self) -> bytes:
            events.append("answered")
            return super().receive()

    loader = Telling()

    def source(path: Path) -> Told:
        events.append(f"looked {path}")
        return Text("")

    mirror = Mirror(lambda: cast(Loader, loader), source, lambda names, stop: [])
    mirror.sync(map(Path, "ab"), lambda paths: events.append(f"noted {paths[0]}"))
    assert events == ["looked a", "looked b", "sent", "answered", "sent", "noted a", "answered"]


def program(tmp_path: FilePath) -> str:
    """Returns a program that takes each edit, and answers that packages have no targets."""
    path = tmp_path / "loader"
    path.write_text(COUNTS.format(python=sys.executable))
    path.chmod(0o755)
    return str(path)


def test_what_is_noted_early_is_what_is_noted_late(
    tmp_path: FilePath, monkeypatch: pytest.MonkeyPatch
) -> None:
    one_a_line(monkeypatch, 3)
    chance = random.Random(8)
    root = tmp_path / "tree"
    for number in range(40):
        directory = "/".join(chance.choice("ab") for _ in range(chance.randint(0, 3)))
        name = chance.choice(["BUILD", "x.bzl", "y.bzl", "x.c", "c++.c"])
        (root / directory).mkdir(parents=True, exist_ok=True)
        text = f'load("{chance.choice([":x.bzl", "//a:y.bzl", "//:x.bzl"])}", "X")\n'
        (root / directory / name).write_text(text)
    options = Options(program(tmp_path))

    def opened() -> Base:
        return Base(os.fsencode(root), options, Poll(os.fsencode(root), options.ignore))

    early, late = opened(), opened()
    sync = late.mirror.sync
    monkeypatch.setattr(late.mirror, "sync", lambda changed, note: sync(changed))
    for base in (early, late):
        base.refresh()
        base.load(base.names())
    assert early.told == late.told and early.names() == late.names()
    assert early.odd == late.odd and early.odd
    assert early.take_touched() == late.take_touched()
    for path in early.told:
        assert early.needs.loaders(path) == late.needs.loaders(path)
    for name in early.names():
        assert early.needs.closure(name) == late.needs.closure(name)
    assert early.names() and early.version == late.version
    early.close()
    late.close()


def test_a_program_that_is_no_loader_is_said_so() -> None:
    mirror = Mirror(
        lambda: Loader.start(["/nonexistent"]), lambda path: Text(""), lambda names, stop: []
    )
    with pytest.raises(NoLoader):
        mirror.sync([Path("a")])
