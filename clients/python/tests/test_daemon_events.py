"""The events of a daemon: its loader writes them, and `explain` finds them."""

from __future__ import annotations

import json
import os
import signal
from collections.abc import Callable
from pathlib import Path

import pytest
from conftest import Done, Root, Runner
from daemon_lines import Lines
from git_trees import commit
from sefgulaw.daemon.place import Place

Make = Callable[..., Root]

FILES = {
    ".sefgulaw.toml": "",
    "m/BUILD": "",
    "m/x.bzl": 'V = ["t"]\n',
    "a/BUILD": 'load("//m:x.bzl", "V")\nfilegroup(name = "a", tags = V)\n',
    "b/BUILD": 'load("//m:x.bzl", "V")\nfilegroup(name = "b", tags = V)\n',
}
TARGETS = ["//a:a filegroup", "//b:b filegroup"]
REFUSED = "is not a regular file"


@pytest.fixture
def root(tree: Make) -> Root:
    """A small tree whose root is known."""
    made = tree(FILES)
    assert isinstance(made, Root)
    return made


@pytest.fixture
def place(root: Root, run: Runner, monkeypatch: pytest.MonkeyPatch) -> Place:
    """Where the small tree's daemon has its files."""
    monkeypatch.setenv("XDG_RUNTIME_DIR", str(run.runtime))
    return Place(os.fsencode(os.path.realpath(root.path)))


@pytest.fixture
def recorded(root: Root, run: Runner, tmp_path: Path) -> Path:
    """The file to which a daemon that has loaded the small tree writes events."""
    file = tmp_path / "ev.jsonl"
    assert run("daemon", "start", "--events", str(file), cwd=root) == Done(0, b"", b"")
    assert run("targets", cwd=root).lines == TARGETS
    return file


def events_in(file: Path) -> list[dict[str, object]]:
    """Returns the events of a file, whose lines are those of one loader."""
    told = [json.loads(line) for line in file.read_bytes().splitlines()]
    assert [it["line"] for it in told] == list(range(1, len(told) + 1))
    return told


def keys_in(file: Path, line: int) -> set[str]:
    """Returns the keys that a line read or ran."""
    runs = events_in(file)[line - 1]["runs"]
    assert isinstance(runs, list)
    return {run["key"] for run in runs}


def kill_loader(place: Place) -> None:
    """Ends the loader of a daemon that has one."""
    process = Path(place.file("pid")).read_text()
    children = Path(f"/proc/{process}/task").glob("*/children")
    found = " ".join(it.read_text() for it in children).split()
    assert len(found) == 1
    os.kill(int(found[0]), signal.SIGKILL)


def state_of(run: Runner, root: Root) -> dict[str, object]:
    """Returns what the daemon tells of itself."""
    peer = Lines(run, root)
    items, _ = peer.ask("status")
    peer.close()
    state = items[0]
    assert isinstance(state, dict)
    return state


def test_why_a_package_ran_in_a_daemon(root: Root, run: Runner, recorded: Path) -> None:
    root.write("m/x.bzl", 'V = ["u"]\n')
    assert run("targets", "//a", cwd=root).status == 0
    edit = len(events_in(recorded)) - 1
    assert events_in(recorded)[edit - 1]["paths"] == ["m/x.bzl"]
    done = run("explain", "//a", cwd=root)
    assert (done.status, done.err) == (0, b"")
    assert done.lines[0].startswith(f"package //a  ran at line {edit + 1}, version 2; last at ")
    assert done.lines[1:] == [
        "  module //m:x.bzl  changed at version 2",
        f"    file m/x.bzl  changed by the edit of line {edit}",
    ]
    assert run("explain", "//a:a", cwd=root) == done
    assert run("explain", "//a", cwd=root.path / "a") == done
    assert run("explain", "//a", "--events", str(recorded), cwd=root) == done
    assert "for the first time" in run("explain", "//a", "--line", "2", cwd=root).lines[0]
    assert run("explain", "//nowhere", cwd=root).status == 2
    said = b"sefgulaw: without a daemon explain takes --events FILE\n"
    assert run("explain", "//a", "--no-daemon", cwd=root) == Done(2, b"", said)


def test_names_are_shown_as_they_are(root: Root, run: Runner, recorded: Path) -> None:
    root.write("c++/BUILD", 'filegroup(name = "c")\n')
    assert run("check", "//c++", cwd=root).status == 0
    for word in ("//c++", "package //c__x2b__x2b"):
        assert run("explain", word, cwd=root).lines[0].startswith("package //c++  ran at ")
    assert run("explain", "c++/BUILD", cwd=root).lines[0].startswith("file c++/BUILD  changed by ")
    assert recorded.read_bytes().count(b'"package //c__x2b__x2b"') == 1


def test_the_daemon_shows_where_its_events_go(
    root: Root, run: Runner, place: Place, recorded: Path
) -> None:
    assert f", events to {recorded} (0.0 MB), " in run("daemon", "status", cwd=root).lines[0]
    state = state_of(run, root)
    assert (state["events"], state["events_fault"]) == (str(recorded), "")
    assert state["events_size"] == recorded.stat().st_size > 0
    assert f"events go to {recorded}" in Path(place.file("log")).read_text()


def test_a_daemon_without_events(root: Root, run: Runner, tmp_path: Path) -> None:
    shown = os.path.realpath(root.path)
    done = run("explain", "//a", cwd=root)
    assert (done.status, done.out) == (3, b"")
    assert done.words == [
        f"sefgulaw: no daemon runs for {shown}: name a file by --events FILE,"
        " or start a daemon by 'sefgulaw daemon start --events FILE'"
    ]
    assert run("targets", cwd=root).lines == TARGETS
    done = run("explain", "//a", cwd=root)
    assert (done.status, done.out) == (3, b"")
    assert done.words == [
        f"sefgulaw: the daemon of {shown} writes no events:"
        " start another one by 'sefgulaw daemon start --events FILE'"
    ]
    assert state_of(run, root)["events"] is None
    file = str(tmp_path / "ev")
    assert run("daemon", "start", "--events", file, cwd=root) == Done(0, b"", b"")
    assert state_of(run, root)["events"] == file
    assert run("check", cwd=root).status == 0
    assert run("explain", "//a", cwd=root).status == 0


def test_the_words_of_the_option(root: Root, run: Runner, recorded: Path) -> None:
    for word in ("stop", "status", "log"):
        done = run("daemon", word, "--events", "ev", cwd=root)
        assert (done.status, done.out) == (2, b"")
        assert done.words == [f"sefgulaw: --events goes with start, and not with {word}"]
    before = recorded.read_bytes()
    assert run("daemon", "start", cwd=root) == Done(0, b"", b"")
    assert run("daemon", "start", "--events", "../ev.jsonl", cwd=root) == Done(0, b"", b"")
    assert recorded.read_bytes() == before and not Path(f"{recorded}.1").exists()


def test_another_file_takes_over(
    root: Root, run: Runner, place: Place, recorded: Path, tmp_path: Path
) -> None:
    before, other = recorded.read_bytes(), tmp_path / "other"
    editor = Lines(run, root)
    _, end = editor.ask("text", file="m/x.bzl", text="W = unbound\n")
    assert end["status"] == 0
    assert run("daemon", "start", "--events", str(other), cwd=root) == Done(0, b"", b"")
    assert run("targets", cwd=root).lines == TARGETS
    assert recorded.read_bytes() == before and events_in(other)
    assert run("explain", "//a", cwd=root).status == 0
    editor.close()
    for name, why in (("/nowhere/ev", "No such file or directory"), ("/dev/null", REFUSED)):
        process = Path(place.file("pid")).read_text()
        done = run("daemon", "start", "--events", name, cwd=root)
        assert done == Done(3, b"", f"sefgulaw: {name}: {why}\n".encode())
        assert Path(place.file("pid")).read_text() == process
    assert state_of(run, root)["events"] == str(other)


def test_a_file_that_cannot_be_made(root: Root, run: Runner, place: Place, tmp_path: Path) -> None:
    os.mkfifo(tmp_path / "fifo")
    for name, why in (
        ("/nowhere/ev", "No such file or directory"),
        (str(tmp_path), "Is a directory"),
        (str(tmp_path / "fifo"), REFUSED),
        ("/dev/null", REFUSED),
    ):
        done = run("daemon", "start", "--events", name, cwd=root)
        assert done == Done(3, b"", f"sefgulaw: {name}: {why}\n".encode())
        assert run("daemon", "status", cwd=root).lines[0].endswith("no daemon runs")
    assert run("targets", cwd=root).lines == TARGETS
    assert state_of(run, root)["events"] is None


def test_a_loader_that_writes_no_events(root: Root, run: Runner, tmp_path: Path) -> None:
    program = tmp_path / "loader"
    program.write_text("#!/bin/sh\necho \"error: unexpected '$2'\" >&2\nexit 2\n")
    program.chmod(0o755)
    run.variables["SEFGULAW_LOADER"] = str(program)
    done = run("daemon", "start", "--events", str(tmp_path / "ev"), cwd=root)
    said = f"{tmp_path / 'ev'}: the loader cannot write events: error: unexpected '--events'"
    assert done == Done(3, b"", f"sefgulaw: {said}\n".encode())
    assert not (tmp_path / "ev").exists()


def test_two_daemons_and_one_file(tree: Make, run: Runner, root: Root, recorded: Path) -> None:
    other = tree(FILES, name="other")
    before = recorded.read_bytes()
    done = run("daemon", "start", "--events", str(recorded), cwd=other)
    said = f"sefgulaw: {recorded}: another daemon writes its events there\n"
    assert done == Done(3, b"", said.encode())
    assert recorded.read_bytes() == before
    assert run("daemon", "stop", cwd=root).status == 0
    assert run("daemon", "start", "--events", str(recorded), cwd=other).status == 0
    assert Path(f"{recorded}.1").read_bytes() == before


def test_a_loader_that_is_replaced_gets_a_file_of_its_own(
    root: Root, run: Runner, place: Place, recorded: Path
) -> None:
    first = recorded.read_bytes()
    kill_loader(place)
    root.write("a/BUILD", 'filegroup(name = "c")\n')
    assert run("targets", "//a", cwd=root).lines == ["//a:c filegroup"]
    assert Path(f"{recorded}.1").read_bytes() == first
    assert "for the first time" in run("explain", "//a", cwd=root).lines[0]
    second = recorded.read_bytes()
    assert second != first and events_in(recorded)[-1]["op"] == "load"
    kill_loader(place)
    assert run("targets", "//b", cwd=root).status == 0
    root.write("b/BUILD", "")
    assert run("targets", "//b", cwd=root).lines == []
    said = f"package //a: the events have no run of it; {recorded}.2 has those of the loader before"
    assert run("explain", "//a", cwd=root) == Done(2, b"", f"sefgulaw: {said}\n".encode())
    assert Path(f"{recorded}.2").read_bytes() == second
    assert Path(f"{recorded}.1").read_bytes() == first
    done = run("explain", "//a", "--events", f"{recorded}.1", cwd=root)
    assert done.status == 0 and "version 1; for the first time" in done.lines[0]
    assert run("explain", "//b", cwd=root).status == 0


def test_later_daemons_go_on_until_one_is_stopped(
    root: Root, run: Runner, place: Place, recorded: Path
) -> None:
    first = recorded.read_bytes()
    os.kill(int(Path(place.file("pid")).read_text()), signal.SIGKILL)
    assert run("targets", cwd=root).lines == TARGETS
    assert Path(f"{recorded}.1").read_bytes() == first and events_in(recorded)
    root.write(".sefgulaw.toml", 'ignore = ["b"]\n')
    assert run("targets", cwd=root).lines == TARGETS[:1]
    assert run("explain", "//a", cwd=root).status == 0
    assert Path(f"{recorded}.2").exists()
    assert run("daemon", "stop", cwd=root).status == 0
    assert run("targets", cwd=root).lines == TARGETS[:1]
    assert state_of(run, root)["events"] is None
    assert not Path(f"{recorded}.3").exists()


def test_what_is_stopped_without_a_daemon_is_forgotten_too(
    root: Root, run: Runner, place: Place, recorded: Path
) -> None:
    os.kill(int(Path(place.file("pid")).read_text()), signal.SIGKILL)
    assert run("daemon", "stop", cwd=root) == Done(0, b"", b"sefgulaw: no daemon runs\n")
    assert run("targets", cwd=root).lines == TARGETS
    assert state_of(run, root)["events"] is None and recorded.exists()


def test_a_later_daemon_whose_file_cannot_be_made_answers(
    root: Root, run: Runner, place: Place, tmp_path: Path
) -> None:
    (tmp_path / "room").mkdir()
    file = tmp_path / "room" / "ev"
    assert run("daemon", "start", "--events", str(file), cwd=root).status == 0
    assert run("targets", cwd=root).lines == TARGETS
    os.kill(int(Path(place.file("pid")).read_text()), signal.SIGKILL)
    (tmp_path / "room").rename(tmp_path / "away")
    assert run("targets", cwd=root).lines == TARGETS
    why = "No such file or directory"
    shown = f"events to {file} are not complete ({why})"
    assert shown in run("daemon", "status", cwd=root).lines[0]
    assert f"WARNING {file}: {why}" in Path(place.file("log")).read_text()
    done = run("explain", "//a", cwd=root)
    assert done == Done(3, b"", f"sefgulaw: {file}: {why}\n".encode() * 2)
    done = run("daemon", "start", "--events", str(file), cwd=root)
    assert done == Done(3, b"", f"sefgulaw: {file}: {why}\n".encode())
    (tmp_path / "away").rename(tmp_path / "room")
    assert run("daemon", "start", "--events", str(file), cwd=root).status == 0
    assert run("check", cwd=root).status == 0 and run("explain", "//a", cwd=root).words == []


FULL = """#!/bin/sh
case "$*" in
*--events*) test ! -e {mark} || exec {loader} run --events /dev/full ;;
esac
exec {loader} "$@"
"""


def test_a_full_disk(root: Root, run: Runner, place: Place, tmp_path: Path) -> None:
    program, file, mark = tmp_path / "loader", tmp_path / "ev", tmp_path / "full"
    program.write_text(FULL.format(mark=mark, loader=run.loader))
    program.chmod(0o755)
    run.variables["SEFGULAW_LOADER"] = str(program)
    assert run("daemon", "start", "--events", str(file), cwd=root).status == 0
    mark.touch()
    assert run("targets", cwd=root).lines == TARGETS
    why = "no events could be written after line 0"
    shown = f"events to {file} are not complete ({why})"
    assert shown in run("daemon", "status", cwd=root).lines[0]
    assert Path(place.file("log")).read_text().count(f"WARNING {file}: {why}") == 1
    done = run("explain", "//a", cwd=root)
    empty = f"sefgulaw: {file}: {why}\nsefgulaw: {file}: there are no events in it\n"
    assert done == Done(3, b"", empty.encode())
    mark.unlink()
    assert run("daemon", "start", "--events", str(file), cwd=root) == Done(0, b"", b"")
    root.write("b/BUILD", "")
    assert run("targets", cwd=root).lines == TARGETS[:1]
    assert run("explain", "//b", cwd=root).words == []
    assert not Path(f"{file}.1").exists()


def test_a_file_that_is_deleted(root: Root, run: Runner, recorded: Path) -> None:
    recorded.unlink()
    root.write("b/BUILD", "")
    assert run("targets", cwd=root).lines == TARGETS[:1]
    why = "it was deleted while events were written"
    done = run("explain", "//a", cwd=root)
    assert done.status == 3
    assert done.words == [
        f"sefgulaw: {recorded}: {why}",
        f"sefgulaw: {recorded}: No such file or directory",
    ]


def test_a_file_in_the_tree_is_pointed_out(root: Root, run: Runner) -> None:
    said = b"sefgulaw: ev.jsonl lies in the tree, where globs see it\n"
    assert run("daemon", "start", "--events", "ev.jsonl", cwd=root) == Done(0, b"", said)
    assert run("targets", cwd=root).lines == TARGETS
    before = (root.path / "ev.jsonl").read_bytes()
    assert run("targets", cwd=root).lines == TARGETS
    assert (root.path / "ev.jsonl").read_bytes() == before
    assert run("daemon", "stop", cwd=root).status == 0
    root.write(".sefgulaw.toml", 'ignore = ["out"]\n')
    root.write("out/x", "")
    assert run("daemon", "start", "--events", "out/ev", cwd=root) == Done(0, b"", b"")


def test_a_buffer_of_another_client_is_not_in_the_events(
    root: Root, run: Runner, recorded: Path
) -> None:
    for at in range(20):
        root.write(f"u{at}/BUILD", 'load("//m:x.bzl", "V")\nfilegroup(name = "u", tags = V)\n')
    assert run("check", cwd=root).status == 0
    before = recorded.read_bytes()
    editor = Lines(run, root)
    _, end = editor.ask("text", file="m/x.bzl", text='V = ["t"]\nW = unbound\n')
    assert end["status"] == 0
    items, end = editor.ask("check")
    assert end["status"] == 1 and len(items[0]["packages"]) == 22
    assert run("check", cwd=root).words == ["sefgulaw: no faults in 23 packages"]
    assert recorded.read_bytes() == before
    root.write("a/BUILD", 'filegroup(name = "new")\n')
    items, end = editor.ask("check")
    assert end["status"] == 1 and len(items[0]["packages"]) == 21
    assert run("check", cwd=root).status == 0
    editor.close()
    told = events_in(recorded)
    assert [it["op"] for it in told[before.count(b"\n") :]] == ["edit", "load"]
    assert keys_in(recorded, len(told)) == {"file a/BUILD", "lookup //a", "package //a"}
    assert b"unbound" not in recorded.read_bytes() and not Path(f"{recorded}.1").exists()


def test_experiments_and_comparisons_are_not_in_the_events(
    root: Root, run: Runner, recorded: Path
) -> None:
    commit(root)
    root.write("a/BUILD", 'x = [\nfilegroup(name = "a")\n')
    assert run("check", cwd=root).status == 1
    lines = [it["op"] for it in events_in(recorded)]
    assert run("check", "//a", cwd=root).status == 1
    assert run("query", "//b", "--output", "location", cwd=root).status == 0
    assert run("changed", "HEAD", ".", cwd=root).status == 1
    assert [it["op"] for it in events_in(recorded)] == lines
    assert lines[-2:] == ["edit", "load"] and not Path(f"{recorded}.1").exists()
