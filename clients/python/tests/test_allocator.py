"""The allocator that the loader is started with: a library that is put before the C library."""

from __future__ import annotations

import os
import re
import shutil
import sys
from collections.abc import Callable, Iterator
from pathlib import Path

import pytest
from conftest import Root, Runner, running

from sefgulaw import allocator
from sefgulaw.allocator import CHOICES, LIBRARY, Allocator, Choice, NoAllocator, find_allocator
from sefgulaw.settings import Settings, read_settings
from sefgulaw.wire import Loader, Stopped

Make = Callable[..., Root]

TELLS = """#!{python}
# A loader that knows no fault. It tells what was put before it, and with which number of workers.
import json, os, sys
if sys.argv[1] == "run":
    with open("{told}", "a") as told:
        print(sys.argv[sys.argv.index("--workers") + 1], os.environ.get("LD_PRELOAD"), file=told)
version = 0
for line in sys.stdin:
    members = json.loads(line)
    if members["op"] == "load":
        items = ['{{"name":"%s","targets":[]}}' % name for name in members["names"]]
        print('{{"packages":[%s]}}' % ",".join(items), flush=True)
    else:
        version += 1
        print('{{"ok":%d}}' % version, flush=True)
"""


@pytest.fixture(autouse=True)
def nothing_said(monkeypatch: pytest.MonkeyPatch) -> None:
    """No variable of this process says anything of allocators or libraries."""
    for name in ("LD_PRELOAD", "LD_LIBRARY_PATH", allocator.VARIABLE):
        monkeypatch.delenv(name, raising=False)


@pytest.fixture
def none_usual(monkeypatch: pytest.MonkeyPatch) -> None:
    """The system has no libraries in its usual places."""
    monkeypatch.setattr(allocator, "_USUAL", ())


def library(folder: Path, name: str = LIBRARY) -> str:
    """Makes a shared library that can be put before a program, and does nothing there."""
    mapped = Path("/proc/self/maps").read_text()
    found = re.search(r"/\S*/libm\.so\.6$", mapped, re.M)
    assert found
    folder.mkdir(parents=True, exist_ok=True)
    shutil.copy(found[0], folder / name)
    return str(folder / name)


def auto(program: str = sys.executable) -> str | None:
    """Returns the library that a loader gets where nobody asks for one."""
    return find_allocator(None, "auto", program).library


# Where it is looked for.


def test_it_is_used_where_nobody_asks_for_one(
    tmp_path: Path, monkeypatch: pytest.MonkeyPatch
) -> None:
    file = library(tmp_path)
    monkeypatch.setenv("LD_LIBRARY_PATH", str(tmp_path))
    assert auto() == file
    found = find_allocator(None, "auto", sys.executable)
    assert found.environment() == {**os.environ, "LD_PRELOAD": file}


@pytest.mark.usefixtures("none_usual")
def test_where_it_is_not_found_nothing_changes(
    tmp_path: Path, monkeypatch: pytest.MonkeyPatch
) -> None:
    # The present directory, for which an empty entry would stand, may be a tree of somebody else.
    library(tmp_path / "tree")
    monkeypatch.chdir(tmp_path / "tree")
    monkeypatch.setenv("LD_LIBRARY_PATH", f"{tmp_path}::/nonexistent")
    found = find_allocator(None, "auto", sys.executable)
    assert found.library is None and found.environment() is None


def test_the_usual_places(tmp_path: Path, monkeypatch: pytest.MonkeyPatch) -> None:
    monkeypatch.setattr(allocator, "_USUAL", (f"{tmp_path}/local", f"{tmp_path}/lib"))
    machine = sys.implementation._multiarch
    for place in ("lib", "lib64", f"lib/{machine}", "local", f"local/{machine}"):
        file = library(tmp_path / place)
        assert auto() == file
    file = library(tmp_path / "given")
    monkeypatch.setenv("LD_LIBRARY_PATH", f"/nonexistent:{tmp_path}/given")
    assert auto() == file


@pytest.mark.usefixtures("none_usual")
def test_what_does_not_fit_is_passed_over(tmp_path: Path, monkeypatch: pytest.MonkeyPatch) -> None:
    places = [tmp_path / name for name in ("text", "folder", "other", "a b", "good")]
    monkeypatch.setenv("LD_LIBRARY_PATH", ":".join(map(str, places)))
    text, folder, other, spaced, good = places
    text.mkdir()
    (text / LIBRARY).write_text("GROUP ( libjemalloc.so )\n")
    (folder / LIBRARY).mkdir(parents=True)
    file = Path(library(other))
    head = bytearray(file.read_bytes())
    head[18] ^= 1
    file.write_bytes(head)
    library(spaced)
    assert auto() is None and auto(program=str(file)) == str(file)
    assert auto(program="/nonexistent") == str(file)
    library(good)
    assert auto() == str(good / LIBRARY)


# What the user says.


def test_what_the_user_puts_before_the_c_library_stays(
    tmp_path: Path, monkeypatch: pytest.MonkeyPatch
) -> None:
    file = library(tmp_path)
    monkeypatch.setenv("LD_LIBRARY_PATH", str(tmp_path))
    monkeypatch.setenv("LD_PRELOAD", "/a.so libb.so")
    found = find_allocator(None, "auto", sys.executable).environment()
    assert found == {**os.environ, "LD_PRELOAD": f"/a.so libb.so:{file}"}
    for own in ("/a.so:/x/libtcmalloc.so.4", LIBRARY, file, "libmimalloc.so.2 /a.so"):
        monkeypatch.setenv("LD_PRELOAD", own)
        assert find_allocator(None, "auto", sys.executable).environment() is None
    monkeypatch.setenv("LD_PRELOAD", "libmimalloc.so.2")
    found = find_allocator("jemalloc", "auto", sys.executable).environment()
    assert found == {**os.environ, "LD_PRELOAD": f"libmimalloc.so.2:{file}"}
    monkeypatch.setenv("LD_PRELOAD", f"/a.so:{file}")
    assert find_allocator("jemalloc", "auto", sys.executable).environment() is None


def test_a_word_goes_before_the_variable_and_that_before_the_settings(
    tmp_path: Path, monkeypatch: pytest.MonkeyPatch
) -> None:
    jemalloc, other = library(tmp_path), library(tmp_path, "libother.so.1")
    monkeypatch.setenv("LD_LIBRARY_PATH", str(tmp_path))

    def found(given: str | None, setting: Choice) -> str | None:
        return find_allocator(given, setting, sys.executable).library

    assert (found(None, "jemalloc"), found(None, "system")) == (jemalloc, None)
    monkeypatch.setenv(allocator.VARIABLE, "libother.so.1")
    assert (found(None, "jemalloc"), found("", "jemalloc")) == (other, other)
    assert (found("jemalloc", "system"), found("system", "jemalloc")) == (jemalloc, None)
    assert (found("auto", "system"), found(other, "system")) == (jemalloc, other)
    monkeypatch.chdir(tmp_path)
    assert found("./libother.so.1", "system") == other
    monkeypatch.setenv(allocator.VARIABLE, "")
    assert found(None, "jemalloc") == jemalloc


@pytest.mark.usefixtures("none_usual")
def test_a_library_that_is_asked_for_and_missing(tmp_path: Path) -> None:
    (tmp_path / "text.so").write_text("")
    missing = "there is no such library for an allocator"
    for name, why in {
        "jemalloc": f"jemalloc: {missing}; Debian has it in libjemalloc2",
        "libother.so.1": f"libother.so.1: {missing}",
        "/nonexistent/x.so": f"/nonexistent/x.so: {missing}",
        str(tmp_path): f"{tmp_path}: {missing}",
        f"{tmp_path}/text.so": f"{tmp_path}/text.so: is no shared library for {sys.executable}",
        library(tmp_path / "a b"): "LD_PRELOAD takes no path with a space or a colon",
    }.items():
        with pytest.raises(NoAllocator) as error:
            find_allocator(name, "auto", sys.executable)
        assert str(error.value).endswith(why)


def test_a_tree_names_no_file_that_is_run(tree: Make) -> None:
    root = tree({})
    assert read_settings(os.fsencode(root.path)).allocator == "auto"
    for choice in CHOICES:
        root.write(".sefgulaw.toml", f'allocator = "{choice}"\n')
        assert read_settings(os.fsencode(root.path)) == Settings(allocator=choice)


# The loader's process.


def mapped(loader: Loader) -> str:
    """Returns what is mapped into a loader that has answered."""
    return Path(f"/proc/{loader.pid}/maps").read_text()


def test_the_loader_runs_with_it(tmp_path: Path) -> None:
    file = library(tmp_path)
    words = [sys.executable, "-I", "-c", "import sys\nfor _ in sys.stdin: print(1, flush=True)"]
    for chosen in (Allocator(), Allocator(file)):
        loader = Loader.start(words, allocator=chosen)
        assert loader.ask_line(b"x\n") == b"1"
        assert (file in mapped(loader)) is (chosen.library == file)
        assert loader.close() == 0


def test_a_line_of_the_system_is_no_word_of_the_loader(monkeypatch: pytest.MonkeyPatch) -> None:
    monkeypatch.setenv("LD_PRELOAD", "/nonexistent/own.so")
    for code, words in (("", ""), ("print('stop: memory', file=sys.stderr)", "stop: memory")):
        loader = Loader.start([sys.executable, "-I", "-c", f"import sys\n{code}\nsys.exit(3)"])
        with pytest.raises(Stopped) as stop:
            loader.ask_line(b"x\n")
        assert (stop.value.words, stop.value.status) == (words, 3)


def test_the_built_loader_runs_with_jemalloc(loader: str) -> None:
    found = find_allocator("jemalloc", "auto", loader)
    started = Loader.start([loader], 2, allocator=found)
    assert started.ask_line(b'{"op":"put","path":"a/BUILD","text":""}\n') == b'{"ok":1}'
    answer = started.ask_line(b'{"op":"load","names":["a"]}\n')
    assert answer == b'{"packages":[{"name":"a","targets":[]}]}'
    assert LIBRARY in mapped(started)
    assert started.close() == 0


# The command.


@pytest.fixture
def told(tmp_path: Path) -> Path:
    """The file in which the loader of the tests below tells how it was started."""
    return tmp_path / "told"


@pytest.fixture
def run(tmp_path: Path, told: Path) -> Iterator[Runner]:
    """Runs the command with a loader that tells how it was started."""
    program = tmp_path / "loader"
    program.write_text(TELLS.format(python=sys.executable, told=told))
    program.chmod(0o755)
    yield from running(str(program), tmp_path)


@pytest.fixture
def root(tree: Make) -> Root:
    return tree({".sefgulaw.toml": "", "a/BUILD": ""})


def lines_of(told: Path) -> list[str]:
    """Returns how loaders were started since this was asked last."""
    lines = told.read_text().splitlines() if told.exists() else []
    told.unlink(missing_ok=True)
    return lines


def test_the_words_of_the_command(root: Root, run: Runner, told: Path, tmp_path: Path) -> None:
    file, other = library(tmp_path / "lib"), library(tmp_path, "other.so")
    run.variables["LD_LIBRARY_PATH"] = str(tmp_path / "lib")
    for words, line in (
        (["--no-daemon"], f"1 {file}"),
        (["--workers", "2"], f"2 {file}"),
        (["--workers", "2", "--allocator", "system"], "2 None"),
        (["--allocator", "jemalloc"], f"1 {file}"),
        (["--allocator", os.path.relpath(other, root.path)], f"1 {other}"),
    ):
        assert run("check", *words, cwd=root).status == 0
        assert lines_of(told) == [line]
    root.write(".sefgulaw.toml", 'allocator = "system"\nworkers = 3\n')
    assert run("check", "--no-daemon", cwd=root).status == 0
    assert lines_of(told) == ["3 None"]


def test_a_missing_library_is_told(root: Root, run: Runner, told: Path) -> None:
    words = b"libno.so.1: there is no such library for an allocator\n"
    done = run("check", "--allocator", "libno.so.1", cwd=root)
    assert (done.status, done.out, done.err) == (3, b"", b"sefgulaw: " + words)
    assert run("check", "--allocator", "", cwd=root).status == 2
    run.variables["SEFGULAW_ALLOCATOR"] = "libno.so.1"
    for more in ((), ("--no-daemon",)):
        done = run("targets", *more, cwd=root)
        assert (done.status, done.out, done.err) == (3, b"", b"sefgulaw: " + words)
    run.variables.clear()
    root.write(".sefgulaw.toml", 'allocator = "/x/own.so"\n')
    done = run("check", cwd=root)
    words = b"sefgulaw: .sefgulaw.toml: allocator is one of auto, jemalloc, system\n"
    assert (done.status, done.err) == (2, words)
    assert lines_of(told) == []


def test_the_daemon_tells_its_allocator(
    root: Root, run: Runner, told: Path, tmp_path: Path
) -> None:
    other = library(tmp_path, "other.so")
    run.variables["SEFGULAW_ALLOCATOR"] = os.path.relpath(other, root.path)
    assert run("targets", cwd=root).status == 0
    run.variables.clear()
    assert ", allocator other.so, " in run("daemon", "status", cwd=root).lines[0]
    assert lines_of(told) == [f"1 {other}"]
    assert run("daemon", "stop", cwd=root).status == 0
    run.variables["SEFGULAW_ALLOCATOR"] = "system"
    assert run("targets", cwd=root).status == 0
    assert "allocator" not in run("daemon", "status", cwd=root).lines[0]
    assert lines_of(told) == ["1 None"]
