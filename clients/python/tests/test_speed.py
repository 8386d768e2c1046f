"""How long answers take at 5,000 packages, on a machine that is otherwise idle."""

from __future__ import annotations

import os
import pty
import shutil
import statistics
import subprocess
import sys
import time
from collections.abc import Callable, Iterator
from pathlib import Path

import pytest
from conftest import PACKAGE, Done, Root, Runner
from test_watch_command import Watching
from trees import generate, workload

pytestmark = pytest.mark.long
PACKAGES = 5_000
TIMES = 20


@pytest.fixture(scope="module")
def large(tmp_path_factory: pytest.TempPathFactory) -> Iterator[Root]:
    """The generated tree, which each test leaves as it was."""
    root = Root(tmp_path_factory.mktemp("large") / "tree")
    root.path.mkdir()
    generate(PACKAGES, root.path)
    root.write(".sefgulaw.toml", "")
    yield root
    shutil.rmtree(root.path)


@pytest.fixture
def warm(large: Root, run: Runner) -> Iterator[Callable[..., Done]]:
    """Asks a daemon that has loaded everything."""
    assert run("check", cwd=large).words == ["sefgulaw: no faults in 5,001 packages"]

    def ask(*words: str) -> Done:
        return run(*words, cwd=large)

    yield ask
    run("daemon", "stop", cwd=large)
    large.replace("d0/p0/BUILD", workload().build(0, PACKAGES))


def shell_times(run: Runner, root: Root, before: Callable[[int], None]) -> list[float]:
    """Returns how long a question about one package takes from a shell, in milliseconds.

    The command is started by a script as the installed one is.
    """
    script = run.runtime / "script.py"
    script.write_text(
        f"import sys\nsys.path.insert(0, {str(PACKAGE)!r})\n"
        "from sefgulaw.cli import main\nsys.exit(main(sys.argv[1:]))\n"
    )
    words = [sys.executable, "-I", str(script), "targets", "//d0/p0"]
    took = []
    for at in range(TIMES):
        before(at)
        begun = time.monotonic()
        done = subprocess.run(words, cwd=root.path, env=run.environment(), capture_output=True)
        took.append(1000 * (time.monotonic() - begun))
        assert done.returncode == 0 and len(done.stdout.splitlines()) == 9
    return took


def test_a_question_to_a_warm_daemon(
    large: Root, run: Runner, warm: Callable[..., Done], record_property: Callable[..., None]
) -> None:
    unchanged = statistics.median(shell_times(run, large, lambda at: None))

    def change(at: int) -> None:
        large.replace("d0/p0/BUILD", workload().build(0, PACKAGES, at + 1))

    changed = statistics.median(shell_times(run, large, change))
    print(f"from a shell: {unchanged:.1f} ms, after a change {changed:.1f} ms")
    assert unchanged <= 60 and changed <= 65


def test_from_a_write_to_the_printed_answer(
    large: Root, run: Runner, warm: Callable[..., Done]
) -> None:
    watching = Watching(run.start("watch", cwd=large.path))
    watching.update(60)
    took = []
    for at in range(TIMES):
        time.sleep(0.1)
        aside = large.path.parent / "aside"
        aside.write_text(workload().build(0, PACKAGES, at + 1))
        begun = time.monotonic()
        os.replace(aside, large.path / "d0/p0/BUILD")
        lines, packages = watching.update()
        took.append(1000 * (time.monotonic() - begun))
        assert packages == ["d0/p0"] and len(lines) == 9
    watching.end()
    print(f"from a write to the printed answer: {statistics.median(took):.2f} ms")
    assert statistics.median(took) <= 5


def test_a_first_check(large: Root, run: Runner) -> None:
    begun = time.monotonic()
    done = run("check", cwd=large)
    took = time.monotonic() - begun
    assert done == Done(0, b"", b"sefgulaw: no faults in 5,001 packages\n")
    run("daemon", "stop", cwd=large)
    print(f"first check with a new daemon: {took:.2f} s")
    begun = time.monotonic()
    assert run("check", "--no-daemon", cwd=large).status == 0
    print(f"first check without a daemon: {time.monotonic() - begun:.2f} s")
    assert took <= 3.5


def test_a_first_check_on_a_terminal(large: Root, run: Runner) -> None:
    upper, lower = pty.openpty()
    process = run.start("check", cwd=large.path, stderr=lower)
    os.close(lower)
    shown = b""
    while True:
        try:
            part = os.read(upper, 4096)
        except OSError:
            break
        if not part:
            break
        shown += part
    assert process.wait(30) == 0
    os.close(upper)
    run("daemon", "stop", cwd=large)
    assert b" of 35,0" in shown or b" of 5,001 packages" in shown
    assert shown.endswith(b"sefgulaw: no faults in 5,001 packages\r\n")


def test_all_targets_of_a_warm_daemon(large: Root, warm: Callable[..., Done]) -> None:
    begun = time.monotonic()
    done = warm("targets", "--output", "jsonl")
    took = time.monotonic() - begun
    assert len(done.lines) == 9 * PACKAGES
    print(f"all targets as JSON: {took:.2f} s for {len(done.out):,} bytes")
    assert took <= 2


def test_a_query_of_all_targets_of_a_warm_daemon(large: Root, warm: Callable[..., Done]) -> None:
    assert len(warm("query", "//...").lines) == 9 * PACKAGES
    took = []
    for _ in range(5):
        begun = time.monotonic()
        warm("query", "//...")
        took.append(time.monotonic() - begun)
    print(f"a query of all targets: {statistics.median(took):.2f} s")
    assert statistics.median(took) <= 0.5


def test_a_loader_that_is_killed_is_back_soon(
    large: Root, run: Runner, warm: Callable[..., Done]
) -> None:
    process = next(run.runtime.rglob("pid")).read_text()
    children = [it.read_text().split() for it in Path(f"/proc/{process}/task").glob("*/children")]
    for child in {one for found in children for one in found}:
        os.kill(int(child), 9)
    large.replace("d0/p0/BUILD", workload().build(0, PACKAGES, 77))
    begun = time.monotonic()
    assert len(warm("targets", "//d0/p0").lines) == 9
    took = time.monotonic() - begun
    print(f"after the loader was killed: {took:.2f} s")
    assert took <= 2
