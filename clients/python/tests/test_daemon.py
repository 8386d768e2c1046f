"""The daemon: one for each tree, started when it is needed, ending by itself."""

from __future__ import annotations

import json
import os
import shutil
import signal
import socket
import subprocess
import time
from collections.abc import Callable
from pathlib import Path
from typing import IO

import pytest
from conftest import PACKAGE, Done, Root, Runner
from sefgulaw.base import Options
from sefgulaw.daemon.client import Client, connect, hello
from sefgulaw.daemon.keeper import Job, Keeper
from sefgulaw.daemon.place import Place
from sefgulaw.daemon.protocol import Params
from trees import SMALL, SMALL_TARGETS

Make = Callable[..., Root]
ALL: Params = {"patterns": ["//..."], "cwd": ""}


@pytest.fixture
def root(tree: Make) -> Root:
    """A small tree whose root is known."""
    made = tree({**SMALL, ".sefgulaw.toml": ""})
    assert isinstance(made, Root)
    return made


@pytest.fixture
def place(root: Root, run: Runner, monkeypatch: pytest.MonkeyPatch) -> Place:
    """Where the small tree's daemon has its files."""
    monkeypatch.setenv("XDG_RUNTIME_DIR", str(run.runtime))
    return Place(os.fsencode(os.path.realpath(root.path)))


def process_of(place: Place) -> int:
    """Returns the number of the daemon's process."""
    return int(Path(place.file("pid")).read_text())


def log_of(place: Place) -> str:
    """Returns what the daemons of a tree wrote into their log."""
    return Path(place.file("log")).read_text()


def wait_for(what: Callable[[], bool], seconds: float = 60.0) -> None:
    """Waits until something holds."""
    until = time.monotonic() + seconds
    while not what():
        assert time.monotonic() < until, "it does not happen"
        time.sleep(0.02)


def is_running(process: int) -> bool:
    """Tells whether a process runs, and is not only waited for."""
    try:
        state = Path(f"/proc/{process}/stat").read_text().rpartition(")")[2].split()[0]
    except FileNotFoundError:
        return False
    return state != "Z"


def connected(place: Place) -> Client:
    """Returns a connection with the running daemon."""
    found = connect(place)
    assert found is not None
    return Client(found)


def test_it_is_started_when_it_is_needed(root: Root, run: Runner, place: Place) -> None:
    assert run("targets", cwd=root) == Done(0, b"//a:l filegroup\n//lib:p filegroup\n", b"")
    first = process_of(place)
    assert run("check", cwd=root).words == ["sefgulaw: no faults in 2 packages"]
    assert process_of(place) == first and is_running(first)
    assert oct(os.stat(place.directory).st_mode & 0o777) == "0o700"


def test_each_answer_is_that_of_the_present_files(root: Root, run: Runner) -> None:
    assert run("targets", cwd=root).lines == SMALL_TARGETS
    root.write("a/BUILD", 'filegroup(name = "m")\n')
    assert run("targets", cwd=root).lines == ["//a:m filegroup", "//lib:p filegroup"]
    root.write("b/BUILD", "x = y\n")
    done = run("check", cwd=root)
    assert done.status == 1 and done.lines[0].startswith("b/BUILD:1:")
    root.delete("b")
    root.write("lib/x.bzl", 'T = ["u"]\n')
    assert '"tags":["u"]' in run("targets", "--output", "jsonl", "//lib", cwd=root).lines[0]
    assert run("check", cwd=root).status == 0


def test_twenty_front_ends_at_once_start_one(root: Root, run: Runner, place: Place) -> None:
    started = [run.start("targets", cwd=root.path) for _ in range(20)]
    for process in started:
        out, err = process.communicate(timeout=60)
        assert (process.returncode, err) == (0, b"")
        assert out.decode().splitlines() == SMALL_TARGETS
    assert log_of(place).count(" serves ") == 1


def test_it_is_killed(root: Root, run: Runner, place: Place) -> None:
    for _ in range(3):
        assert run("targets", cwd=root).lines == SMALL_TARGETS
        os.kill(process_of(place), signal.SIGKILL)
        assert os.path.exists(place.file("socket"))
    assert run("targets", cwd=root).lines == SMALL_TARGETS
    assert log_of(place).count(" serves ") == 4


def test_it_ends_when_nobody_asks(root: Root, run: Runner, place: Place) -> None:
    root.write(".sefgulaw.toml", "idle_minutes = 0.02\n")
    assert run("targets", cwd=root).lines == SMALL_TARGETS
    process = process_of(place)
    wait_for(lambda: not is_running(process))
    assert sorted(os.listdir(place.directory)) == ["lock", "log"]
    assert run("targets", cwd=root).lines == SMALL_TARGETS


def test_it_ends_with_its_tree(root: Root, run: Runner, place: Place) -> None:
    assert run("targets", cwd=root).lines == SMALL_TARGETS
    process = process_of(place)
    shutil.rmtree(root.path)
    wait_for(lambda: not is_running(process))
    assert not os.path.exists(place.file("socket"))


def test_another_version_takes_over(root: Root, run: Runner, place: Place, tmp_path: Path) -> None:
    assert run("targets", cwd=root).lines == SMALL_TARGETS
    old = process_of(place)
    shutil.copytree(PACKAGE / "sefgulaw", tmp_path / "new" / "sefgulaw")
    about = tmp_path / "new" / "sefgulaw" / "__init__.py"
    about.write_text(about.read_text().replace('__version__ = "', '__version__ = "1000.'))
    run.variables["PYTHONPATH"] = str(tmp_path / "new")
    assert run("targets", cwd=root).lines == SMALL_TARGETS
    new = process_of(place)
    assert new != old
    wait_for(lambda: not is_running(old))
    assert is_running(new)
    assert run("targets", cwd=root).lines == SMALL_TARGETS
    assert process_of(place) == new


def test_another_loader_takes_over(root: Root, run: Runner, place: Place, tmp_path: Path) -> None:
    assert run("targets", cwd=root).lines == SMALL_TARGETS
    old = process_of(place)
    other = tmp_path / "other-loader"
    shutil.copy(run.loader, other)
    assert run("targets", "--loader", str(other), cwd=root).lines == SMALL_TARGETS
    assert process_of(place) != old


def test_a_loader_that_is_not_there_is_not_passed_over(root: Root, run: Runner) -> None:
    assert run("targets", "//a", cwd=root).lines == ["//a:l filegroup"]
    missing = Done(3, b"", b"sefgulaw: /no/such: there is no such program\n")
    assert run("targets", "//a", "--loader", "/no/such", cwd=root) == missing
    run.variables["SEFGULAW_LOADER"] = "/no/such"
    assert run("targets", "//a", cwd=root) == missing


def test_other_settings_are_obeyed_at_once(root: Root, run: Runner) -> None:
    assert run("targets", cwd=root).lines == SMALL_TARGETS
    root.write(".sefgulaw.toml", 'ignore = ["lib"]\n')
    assert run("targets", cwd=root).lines == ["//a:l filegroup"]
    root.write(".sefgulaw.toml", "ignore = 1\n")
    done = run("targets", cwd=root)
    assert (done.status, done.out) == (2, b"")
    assert done.words == ["sefgulaw: .sefgulaw.toml: ignore is a list of strings"]


def test_none_is_started_in_ci(root: Root, run: Runner, place: Place) -> None:
    run.variables["CI"] = "true"
    assert run("targets", cwd=root).lines == SMALL_TARGETS
    assert not os.path.exists(place.file("socket"))
    assert run("daemon", "start", cwd=root).status == 0
    assert run("targets", cwd=root).lines == SMALL_TARGETS
    assert log_of(place).count("targets: status 0") == 1


def test_start_stop_status_and_log(root: Root, run: Runner, place: Place) -> None:
    shown = f"{os.path.realpath(root.path)}: "
    assert run("daemon", "status", cwd=root).lines == [shown + "no daemon runs"]
    assert run("daemon", "start", cwd=root) == Done(0, b"", b"")
    assert run("targets", cwd=root).lines == SMALL_TARGETS
    words = run("daemon", "status", cwd=root).lines[0]
    assert words.startswith(shown + "2 packages, 6 files, version 1, watched (3 watches), 0 cli")
    assert words.endswith(", stops after 60 minutes")
    assert run("daemon", "stop", cwd=root) == Done(0, b"", b"")
    assert run("daemon", "stop", cwd=root) == Done(0, b"", b"sefgulaw: no daemon runs\n")
    log = run("daemon", "log", cwd=root).lines
    assert " serves " in log[0] and log[-1].endswith(" ms") or "ends: " in log[-1]


def test_the_loader_is_killed_between_two_questions(root: Root, run: Runner, place: Place) -> None:
    assert run("targets", cwd=root).lines == SMALL_TARGETS
    children = Path(f"/proc/{process_of(place)}/task")
    found = " ".join(it.read_text() for it in children.glob("*/children")).split()
    assert len(found) == 1
    os.kill(int(found[0]), signal.SIGKILL)
    root.write("a/BUILD", 'filegroup(name = "m")\n')
    assert run("targets", cwd=root).lines == ["//a:m filegroup", "//lib:p filegroup"]
    assert "1 restart" in run("daemon", "status", cwd=root).lines[0]


@pytest.mark.long
def test_a_reader_that_is_slow_waits_alone(root: Root, run: Runner, place: Place) -> None:
    rules = "".join(f'filegroup(name = "a_target_with_a_long_name_{at}")\n' for at in range(300))
    for at in range(300):
        root.write(f"p{at}/BUILD", rules)
    assert run("targets", "//a", cwd=root).lines == ["//a:l filegroup"]
    slow = connect(place)
    assert slow is not None
    slow.setsockopt(socket.SOL_SOCKET, socket.SO_RCVBUF, 4096)
    slow.sendall(b'{"id":1,"method":"targets","params":{"patterns":["//..."],"cwd":""}}\n')
    assert slow.recv(1) == b"{"
    client = connected(place)
    wanted: Params = {"patterns": ["//a"], "cwd": ""}
    took = []
    for _ in range(5):
        begun = time.monotonic()
        replies = list(client.ask("targets", wanted, None))
        took.append(time.monotonic() - begun)
        assert len(replies) == 2
    assert sorted(took)[2] < 0.1
    got = 0
    while got < 7_000_000:
        part = slow.recv(1 << 20)
        assert part, "the answer ends too early"
        got += len(part)
    slow.close()
    client.close()


def test_lines_that_are_no_requests(root: Root, run: Runner, place: Place) -> None:
    assert run("targets", cwd=root).lines == SMALL_TARGETS
    found = connect(place)
    assert found is not None
    stream = found.makefile("rb")
    for line in (b"nonsense\n", b"[]\n", b"{}\n", b'{"id":"x","method":"check"}\n'):
        found.sendall(line)
        assert b'"status":2' in stream.readline()
    found.sendall(b'{"id":7,"method":"dance"}\n')
    assert b"there is no method dance" in stream.readline()
    found.sendall(b'{"id":8,"method":"check","params":{"patterns":5}}\n')
    assert b"patterns is a list of strings" in stream.readline()
    found.sendall(b'{"id":9,"method":"check","params":{"patterns":["//a//b"]}}\n')
    assert b"a package name has no empty part" in stream.readline()
    found.close()
    assert run("targets", cwd=root).lines == SMALL_TARGETS


def test_an_answer_is_of_one_version_and_says_which(root: Root, run: Runner, place: Place) -> None:
    assert run("targets", cwd=root).lines == SMALL_TARGETS
    client = connected(place)
    versions = []
    for at in range(3):
        root.write("a/BUILD", f'filegroup(name = "l{at}")\n')
        end = list(client.ask("check", ALL, hello(run.loader)))[-1].end
        assert end is not None and end["status"] == 0
        versions.append(end["version"])
    assert versions == sorted(set(versions)) and len(versions) == 3
    client.close()


def test_a_kept_answer_that_is_wrong_is_found(
    root: Root, loader: str, caplog: pytest.LogCaptureFixture
) -> None:
    keeper = Keeper(os.fsencode(root.path), Options(loader))
    try:
        assert len(list(keeper.answer(Job(), "targets", {}).lines)) == 2
        assert keeper.compare() == 0 and caplog.text == ""
        wrong = (keeper.tree.base.store.raw("a") or b"").replace(b'"l"', b'"wrong"')
        keeper.tree.base.store.put(b'{"packages":[%s]}' % wrong)
        assert keeper.compare() == 1
        assert "//a was kept as " in caplog.text and "wrong" in caplog.text
        assert b'"//a:l"' in next(keeper.answer(Job(), "targets", {}).lines)
        assert keeper.state()["differences"] == 1
    finally:
        keeper.close()


def exchange(stream: IO[bytes], found: socket.socket, line: dict[str, object]) -> list[bytes]:
    """Sends a request, and returns the lines of its answer."""
    found.sendall(json.dumps(line).encode() + b"\n")
    lines = [stream.readline()]
    while b'"end":' not in lines[-1]:
        lines.append(stream.readline())
    return lines


def version_of(status: Done) -> str:
    """Returns the version that `status` shows: it grows with each edit that the base is told."""
    return status.lines[0].partition("version ")[2].partition(",")[0]


def test_texts_that_are_not_saved_are_seen_by_their_client_alone(
    root: Root, run: Runner, place: Place
) -> None:
    for at in range(300):
        root.write(f"u{at}/BUILD", 'load("//lib:x.bzl", "T")\nfilegroup(name = "u", tags = T)\n')
    assert run("check", cwd=root).status == 0
    found = connect(place)
    assert found is not None
    stream = found.makefile("rb")
    text: dict[str, object] = {"file": "lib/x.bzl", "text": 'T = ["t"]\nx = y\n'}
    assert b'"status":0' in exchange(stream, found, {"id": 1, "method": "text", "params": text})[0]
    lines = exchange(stream, found, {"id": 2, "method": "check"})
    assert len(lines) == 2 and b'"file":"lib/x.bzl"' in lines[0] and b'"line":2' in lines[0]
    assert lines[0].count(b'"u') == 300 and b"1 fault in 301 of 302 packages" in lines[1]
    version = version_of(run("daemon", "status", cwd=root))
    assert run("check", cwd=root).words == ["sefgulaw: no faults in 302 packages"]
    build: dict[str, object] = {"file": "a/BUILD", "text": "x = [\n"}
    exchange(stream, found, {"id": 4, "method": "text", "params": build})
    close = {"id": 5, "method": "close", "params": {"file": "lib/x.bzl"}}
    assert b'"status":0' in exchange(stream, found, close)[0]
    lines = exchange(stream, found, {"id": 6, "method": "check"})
    assert len(lines) == 2 and b'"file":"a/BUILD"' in lines[0] and b'"code":3' in lines[0]
    nowhere = {"id": 7, "method": "text", "params": {"file": "nowhere/BUILD", "text": ""}}
    assert b"there is no such BUILD or .bzl file" in exchange(stream, found, nowhere)[0]
    found.close()
    assert run("check", cwd=root).status == 0
    assert version_of(run("daemon", "status", cwd=root)) == version


def test_a_request_is_cancelled(root: Root, run: Runner, place: Place) -> None:
    assert run("targets", cwd=root).lines == SMALL_TARGETS
    found = connect(place)
    assert found is not None
    stream = found.makefile("rb")
    found.sendall(b'{"id":1,"method":"watch","params":{"patterns":[],"cwd":""}}\n')
    for _ in range(3):
        assert stream.readline().startswith(b'{"id":1,"item":')
    found.sendall(b'{"cancel":1}\n')
    last = stream.readline()
    assert last.startswith(b'{"id":1,"end":{') and b'"status":130' in last
    found.close()


def test_a_directory_that_cannot_be_made(root: Root, run: Runner, tmp_path: Path) -> None:
    (tmp_path / "file").write_text("")
    run.variables.update(XDG_RUNTIME_DIR="/nowhere", HOME=str(tmp_path / "file"))
    done = run("targets", cwd=root)
    assert (done.status, done.out) == (3, b"")
    assert done.words[0].startswith("sefgulaw: the daemon does not start: ")
    assert run("targets", "--no-daemon", cwd=root).lines == SMALL_TARGETS


@pytest.mark.long
def test_it_is_stopped_while_much_changes(root: Root, run: Runner, place: Place) -> None:
    for at in range(1000):
        root.write(f"many/x{at}.bzl", "")
    assert run("targets", cwd=root).lines == SMALL_TARGETS
    os.kill(process_of(place), signal.SIGSTOP)
    for turn in range(40):
        for at in range(1000):
            os.utime(root.path / f"many/x{at}.bzl", (turn, turn))
    root.write("a/BUILD", 'filegroup(name = "m")\n')
    os.kill(process_of(place), signal.SIGCONT)
    assert run("targets", cwd=root).lines == ["//a:m filegroup", "//lib:p filegroup"]
    assert log_of(place).count("the queue of events was too short") == 1
    root.write("a/BUILD", 'filegroup(name = "n")\n')
    assert run("targets", "//a", cwd=root).lines == ["//a:n filegroup"]
    assert log_of(place).count("the queue of events was too short") == 1


def test_two_trees_have_two(tree: Make, run: Runner, root: Root) -> None:
    other = tree({"b/BUILD": 'filegroup(name = "b")\n', ".sefgulaw.toml": ""}, name="other")
    assert run("targets", cwd=root).lines == SMALL_TARGETS
    assert run("targets", cwd=other).lines == ["//b:b filegroup"]
    assert run("targets", "-C", str(root.path), cwd=other).lines == SMALL_TARGETS
    assert len(list(run.runtime.rglob("pid"))) == 2


def test_an_interrupted_front_end_leaves_the_daemon(root: Root, run: Runner, place: Place) -> None:
    process = run.start("watch", cwd=root.path)
    assert process.stdout
    for _ in range(3):
        assert process.stdout.readline()
    process.send_signal(signal.SIGINT)
    out, err = process.communicate(timeout=60)
    assert (process.returncode, out, err) == (130, b"", b"")
    assert is_running(process_of(place))
    wait_for(lambda: ", 0 clients, " in run("daemon", "status", cwd=root).lines[0])


def test_no_python_path_is_needed(root: Root, run: Runner, place: Place) -> None:
    code = f"import sys; sys.path.insert(0, {str(PACKAGE)!r}); from sefgulaw.cli import main"
    code += "; sys.exit(main(['targets']))"
    environment = {k: v for k, v in run.environment().items() if k != "PYTHONPATH"}
    words = [run.words()[0], "-I", "-c", code]
    done = subprocess.run(words, cwd=root.path, env=environment, capture_output=True, timeout=60)
    assert done.stdout.decode().splitlines() == SMALL_TARGETS
    assert is_running(process_of(place))
