"""What is kept between questions, beside the same worked out anew."""

from __future__ import annotations

import json
import os
import random
import socket
from collections.abc import Callable, Iterator
from pathlib import Path as FilePath
from typing import Union, cast

import pytest

from sefgulaw.affected import Users
from sefgulaw.daemon.client import Client, Lost
from sefgulaw.disk import Found, Ignore, look, plain_file
from sefgulaw.mirror import Mirror
from sefgulaw.names import Path, basename, is_build, is_source
from sefgulaw.needs import Needs
from sefgulaw.query.grammar import parse_by_grammar
from sefgulaw.query.nodes import Nodes, PackageNodes, read_nodes
from sefgulaw.query.parsing import BadQuery, Expression, parse
from sefgulaw.telling import Absent, Text, Told
from sefgulaw.text import _LOAD, load_labels
from sefgulaw.watch import Changes, RootGone
from sefgulaw.watch.fallback import FallBack
from sefgulaw.watch.inotify import Inotify
from sefgulaw.wire import Loader

NAMES = ("x", "y", "z.c", "w.txt")
PACKAGES = ("", "a", "a/b", "a-b", "c")


def answer(chance: random.Random, package: str) -> bytes:
    """Returns an answer about a package with some targets at random."""
    targets = []
    for name in sorted(chance.sample(NAMES, chance.randint(0, 3))):
        kind = chance.choice(["filegroup", "genrule", "alias", "cc_library"])
        labels = [
            f'"//{chance.choice(PACKAGES)}:{chance.choice(NAMES)}"'
            for _ in range(chance.randint(0, 4))
        ]
        listed = f'[{",".join(labels)}]'
        members = {
            "filegroup": f'"srcs":{listed},"tags":["//c:x"]',
            "genrule": f'"outs":["{chance.choice(NAMES)}"],"srcs":{listed}',
            "alias": f'"actual":{(labels or [chr(34) * 2])[0]}',
            "cc_library": f'"copts":["-D//c:x"],"deps":{listed}',
        }[kind]
        targets.append(f'{{"attrs":{{{members}}},"kind":"{kind}","name":"{name}"}}')
    return f'{{"name":"{package}","targets":[{",".join(targets)}]}}'.encode()


class Tree:
    """Packages that change at random, of which some are gone or have a fault."""

    def __init__(self, seed: int) -> None:
        self.chance = random.Random(seed)
        self.raws: dict[str, bytes] = {}
        self._nodes: dict[bytes, PackageNodes] = {}

    def change(self) -> None:
        """Changes a package."""
        package = self.chance.choice(PACKAGES)
        turn = self.chance.random()
        if turn < 0.2:
            self.raws.pop(package, None)
        elif turn < 0.3:
            path = f'"path":"{package}/BUILD"'
            self.raws[package] = f'{{"fault":{{"code":3,{path}}},"name":"//c:x"}}'.encode()
        else:
            self.raws[package] = answer(self.chance, package)

    def read(self, package: str) -> PackageNodes | None:
        """Returns what a package declares, the same object as long as its answer is the same."""
        raw = self.raws.get(package)
        if raw is None or not raw.startswith(b'{"name":'):
            return None
        if raw not in self._nodes:
            self._nodes[raw] = read_nodes(raw, package)
        return self._nodes[raw]

    def all_nodes(self) -> Iterator[PackageNodes]:
        """Yields what the packages declare."""
        for package in self.raws:
            nodes = self.read(package)
            if nodes is not None:
                yield nodes


def test_users_are_those_of_the_present_packages() -> None:
    tree = Tree(1)
    users = Users(tree.read)
    labels = [f"//{package}:{name}" for package in PACKAGES for name in NAMES]
    seen = 0
    for _ in range(400):
        for _ in range(tree.chance.randint(1, 3)):
            tree.change()
        for package in set(users.packages()).difference(tree.raws):
            users.take(package, None)
        for package, raw in tree.raws.items():
            users.take(package, raw)
        for label in labels:
            expected = [
                rule
                for nodes in tree.all_nodes()
                for rule in nodes.rules
                if label in nodes.needs[rule]
            ]
            found = users.of(label)
            seen += len(found)
            assert sorted(found) == sorted(expected)
            assert users.declares(label) == any(it.declares(label) for it in tree.all_nodes())
            for nodes in tree.all_nodes():
                named = {it for labels in nodes.needs.values() for it in labels}
                assert nodes.outside == {it for it in named if not nodes.declares(it)}
            outputs = {
                output
                for nodes in tree.all_nodes()
                for output, maker in nodes.generated.items()
                if maker == label
            }
            assert set(users.outputs(label)) == outputs
    assert seen > 1000


def value(read: Callable[[str], Expression], text: str) -> Union[Expression, str]:
    """Returns the expression that a text is, or why it is none."""
    try:
        return read(text)
    except BadQuery as error:
        return str(error)


def test_a_word_alone_is_read_as_the_grammar_reads_it() -> None:
    chance = random.Random(2)
    words = ("union", "except", "intersect", "in", "let", "set", "//...", "a:b", "*", "-")
    characters = "abletinsuox_*/@.:$~[]!%- \t\n+^()='\""
    for _ in range(2000):
        text = "".join(chance.choice(characters) for _ in range(chance.randint(0, 5)))
        if chance.random() < 0.6:
            text = chance.choice(["", " "]) + chance.choice(words) + text[:2]
        if text.strip():
            assert value(parse, text) == value(parse_by_grammar, text), text


def test_loads_are_those_that_the_pattern_finds() -> None:
    chance = random.Random(3)
    pieces = ("load", "load(", '":x.bzl"', "(", ")", "\n", " ", "#", '"', "'''", ',"X"', "reload(")
    found = 0
    for _ in range(3000):
        text = "".join(chance.choice(pieces) for _ in range(chance.randint(0, 12)))
        expected = [match[1] for match in _LOAD.finditer(text)]
        found += len(expected)
        assert len(load_labels(text)) == len(expected), text
        if all("\\" not in it and it[:3] != "'''" for it in expected):
            assert load_labels(text) == [it[1:-1] for it in expected]
    assert found > 50


class SourcesBase:
    """What `Nodes` uses of a base to know source files."""

    def __init__(self) -> None:
        self.needs = Needs()


def test_a_source_is_known_anew_once_a_file_has_come_or_gone() -> None:
    base = SourcesBase()
    nodes = Nodes(base)  # type: ignore[arg-type]
    chance = random.Random(4)
    files = ("BUILD", "a/BUILD", "a/b/BUILD", "a/x.c", "a/b/x.c", "x.c", "a/b/c/x.c")
    labels = ("//:x.c", "//:a", "//a:x.c", "//a:b/x.c", "//a:b", "//a/b:x.c", "//a/b:c", "//a:b/c")
    told: set[str] = set()
    answers = set()
    for _ in range(500):
        path = chance.choice(files)
        turn = chance.random()
        if turn < 0.3:
            told ^= {path}
        base.needs.update(Path(path), "" if path in told else None)
        for label in labels:
            package, _, name = label[2:].partition(":")
            now = nodes.is_source(package, name)
            answers.add((label, now))
            assert nodes.is_source_label(label) == now
    assert len(answers) == 2 * len(labels)


def test_the_packages_of_needs_are_the_directories_with_a_build_file() -> None:
    needs = Needs()
    chance = random.Random(5)
    told: set[str] = set()
    for _ in range(2000):
        directory = chance.choice(["", "a/", "a/b/", "a/b/c/"])
        path = directory + chance.choice(["BUILD", "BUILD.bazel", "x.c"])
        told ^= {path}
        needs.update(Path(path), "" if path in told else None)
        packages = {it.rpartition("/")[0] for it in told if is_build(it)}
        for at in ("", "a", "a/b", "a/b/c"):
            assert needs.is_package(Path(at)) == (at in packages)
            above = [at[:end] for end in range(len(at), -1, -1) if at[end : end + 1] in ("", "/")]
            expected = next((it for it in [*above, ""] if it in packages), None)
            assert needs.nearest(Path(at)) == expected


@pytest.mark.parametrize(
    "path",
    ["BUILD", "a/BUILD", "a/XBUILD", "BUILD.bazel", "a/x.BUILD.bazel", "x.bzl", ".bzl", "BUILD/x"],
)
def test_what_a_source_is(path: str) -> None:
    is_built = basename(path) in ("BUILD", "BUILD.bazel")
    assert is_build(path) == is_built
    assert is_source(path) == (is_built or path.endswith(".bzl"))


class Files:
    """A loader that keeps paths alone, and refuses a file above another one."""

    def __init__(self) -> None:
        self.paths: set[str] = set()
        self.version = self.refusals = 0
        self.line: bytes | None = None

    def send_line(self, line: bytes) -> None:
        """Takes a line, whose answer `receive` gives."""
        assert self.line is None
        self.line = line

    def receive(self) -> bytes:
        """Returns the answer to the line."""
        line, self.line = self.line, None
        assert line is not None
        return self.ask_line(line)

    def ask_line(self, line: bytes) -> bytes:
        """Makes an edit whole, or names the change that is refused."""
        paths = set(self.paths)
        for at, change in enumerate(json.loads(line)["edits"]):
            path = change["path"]
            if change["op"] == "del":
                paths.discard(path)
                continue
            above = {path[:end] for end in range(len(path)) if path[end] == "/"}
            if above & paths or any(it.startswith(path + "/") for it in paths):
                self.refusals += 1
                return b'{"edit":%d,"refused":3}' % at
            paths.add(path)
        self.paths = paths
        self.version += 1
        return b'{"ok":%d}' % self.version


def test_files_make_way_for_new_ones_that_alone_were_looked_at() -> None:
    chance = random.Random(6)
    loader = Files()
    disk: set[str] = set()

    def source(path: Path) -> Told:
        return Text("") if path in disk else Absent()

    def start() -> Loader:
        return cast(Loader, loader)

    mirror = Mirror(start, source, lambda names, stop: [])
    made_way = 0
    for _ in range(500):
        new: set[str] = set()
        for _ in range(chance.randint(1, 4)):
            path = "/".join(chance.choice("abc") for _ in range(chance.randint(1, 4)))
            above = {path[:end] for end in range(len(path)) if path[end] == "/"}
            gone = {it for it in disk if it in above or it.startswith(path + "/")}
            disk -= gone
            new = (new - gone) | {path}
            disk.add(path)
        before: set[str] = set(mirror.told)
        synced = mirror.sync(Path(it) for it in sorted(new))
        assert not synced.again and loader.refusals == 0
        assert set(mirror.told) == loader.paths
        assert disk <= loader.paths
        made_way += len(before - loader.paths)
        mirror.sync(Path(it) for it in sorted(loader.paths - disk))
        assert set(mirror.told) == disk == loader.paths
        if chance.random() < 0.1:
            disk.clear()
            mirror.sync(Path(it) for it in sorted(loader.paths))
            assert not len(mirror._directories)
    assert made_way > 100


def test_lines_of_the_daemon_are_read_in_whatever_pieces_they_come() -> None:
    chance = random.Random(7)
    lines = [b'{"id":1,"item":{"n":%d}}\n' % at for at in range(200)]
    end = b'{"end":{"exact":true,"notes":[],"status":0,"summary":"","version":0},"id":1}\n'
    whole = b"".join(lines) + end
    for _ in range(20):
        mine, other = socket.socketpair()
        client = Client(mine)
        replies = client.ask("targets", {}, None)
        found = []
        at = 0
        while at < len(whole):
            size = chance.choice([1, 20, 300, 5000])
            piece, at = whole[at : at + size], at + size
            other.sendall(piece)
            for _ in range(piece.count(b"\n")):
                found.append(next(replies))
        assert [it.item for it in found[:-1]] == [b'{"n":%d}' % it for it in range(200)]
        assert found[-1].end is not None
        client.close()
        other.close()


def test_a_daemon_that_goes_in_the_middle_of_a_line_is_lost() -> None:
    mine, other = socket.socketpair()
    client = Client(mine)
    replies = client.ask("targets", {}, None)
    other.sendall(b'{"id":1,"item":{}}\n{"id":1,"it')
    assert next(replies).item == b"{}"
    other.close()
    with pytest.raises(Lost):
        next(replies)
    client.close()


def test_a_plain_file_is_what_a_look_finds(tmp_path: FilePath) -> None:
    for name in ("BUILD", "x.bzl", "x.c", "d/BUILD", "two/BUILD"):
        (tmp_path / name).parent.mkdir(exist_ok=True)
        (tmp_path / name).write_text("#")
    os.link(tmp_path / "two/BUILD", tmp_path / "two/x.bzl")
    os.symlink("x.c", tmp_path / "link.c")
    os.symlink("BUILD", tmp_path / "link.bzl")
    os.mkfifo(tmp_path / "y.bzl")
    os.mkfifo(tmp_path / "pipe")
    root = os.fsencode(tmp_path)
    plain: dict[bytes, Found] = {}
    for directory in (b"", b"d", b"two"):
        for entry in os.scandir(os.path.join(root, directory)):
            path = os.path.join(directory, entry.name)
            found = plain_file(path, entry.name, entry)
            if found is not None:
                plain[path] = found
    assert sorted(plain) == [b"BUILD", b"d/BUILD", b"x.bzl", b"x.c"]
    for path, found in plain.items():
        looked = look(root, path)
        assert looked is not None and looked[:2] == found[:2]
        assert looked.stamp is None or looked.stamp[:5] == (found.stamp or ())[:5]


def test_a_watch_is_opened_by_the_first_question_about_files(
    tmp_path: FilePath, monkeypatch: pytest.MonkeyPatch
) -> None:
    opened = []
    begin = Inotify.__init__

    def note(self: Inotify, root: bytes, ignore: Ignore) -> None:
        opened.append(root)
        begin(self, root, ignore)

    monkeypatch.setattr(Inotify, "__init__", note)
    watch = FallBack(os.fsencode(tmp_path), Ignore(), lambda words: None)
    assert watch.is_told and watch.overflows == watch.watches == 0
    (tmp_path / "BUILD").write_text("")
    assert not opened
    assert watch.drain() == Changes(frozenset([b"BUILD"]), True)
    (tmp_path / "x.bzl").write_text("")
    assert watch.drain() == Changes(frozenset([b"x.bzl"]), False)
    assert watch.watches == 1
    watch.close()


def test_a_watch_that_nobody_asked_is_closed_without_being_opened(tmp_path: FilePath) -> None:
    watch = FallBack(os.fsencode(tmp_path / "absent"), Ignore(), lambda words: None)
    watch.close()
    with pytest.raises(RootGone):
        watch.drain()
