"""The file that loaders write events to, one after the other, without a loader."""

from __future__ import annotations

import multiprocessing
import os
import time
from pathlib import Path

import pytest

from sefgulaw.event_file import CannotRecord, EventFile
from sefgulaw.wire import Find, Loader, Stopped


def test_a_file_is_held_by_one_and_nothing_is_lost(tmp_path: Path) -> None:
    path = tmp_path / "ev"
    path.write_text("old\n")
    (tmp_path / "ev.7").write_text("older\n")
    (tmp_path / "ev.x").write_text("another\n")
    one, other = EventFile(str(path)), EventFile(str(path))
    assert one.begin() == ["--events", str(path)]
    assert (path.read_text(), (tmp_path / "ev.8").read_text()) == ("", "old\n")
    with pytest.raises(CannotRecord, match="^another daemon writes its events there$"):
        other.claim()
    path.write_text('{"line":1}\n{"line":2}\n')
    one.look(2)
    assert one.fault == ""
    one.look(3)
    assert one.fault == "no events could be written after line 2"
    assert one.begin() and one.fault == ""
    assert (tmp_path / "ev.9").read_text() == '{"line":1}\n{"line":2}\n'
    path.write_text('{"line":1}\n')
    with open(path, "a") as loader:
        one.unlock()
        other.claim()
        loader.write('{"line":2}\n')
    assert path.read_text() == ""
    assert (tmp_path / "ev.10").read_text() == '{"line":1}\n{"line":2}\n'
    one.release()
    (tmp_path / "ev.10").unlink()
    assert sorted(os.listdir(tmp_path)) == ["ev", "ev.7", "ev.8", "ev.9", "ev.x"]


def test_loaders_that_write_nothing_get_no_file_in_the_end(tmp_path: Path) -> None:
    file = EventFile(str(tmp_path / "ev"))
    assert [bool(file.begin()) for _ in range(4)] == [True, True, False, False]
    assert file.fault == "two loaders in turn could write no events, so there are none"


def test_a_link_to_a_file_stays_a_link(tmp_path: Path) -> None:
    (tmp_path / "room").mkdir()
    (tmp_path / "room" / "real").write_text("old\n")
    (tmp_path / "link").symlink_to("room/real")
    file = EventFile(str(tmp_path / "link"))
    file.claim()
    assert (tmp_path / "link").is_symlink() and (tmp_path / "link").read_text() == ""
    assert (tmp_path / "room" / "real.1").read_text() == "old\n"


def test_a_loader_that_could_not_write_events_tells_why_it_stops(tmp_path: Path) -> None:
    program = tmp_path / "loader"
    program.write_text("#!/bin/sh\nread line\necho 'stop: memory\nevents: write' >&2\nexit 3\n")
    program.chmod(0o755)
    loader = Loader.start([str(program)])
    with pytest.raises(Stopped) as stopped:
        loader.ask(Find("a"))
    assert (stopped.value.why, stopped.value.status) == ("memory", 3)
    assert loader.answered == 0


def claim_often(path: str, mark: str) -> int:
    """Has a file twenty times, and writes two lines each time. Returns how often it tried."""
    tries = 0
    for at in range(20):
        file = EventFile(path)
        while True:
            tries += 1
            try:
                file.claim()
                break
            except CannotRecord:
                time.sleep(0.001)
        with open(path, "w") as loader:
            loader.write(f"{mark}{at}\n")
            time.sleep(0.002)
            loader.write(f"{mark}{at}\n")
        file.release()
    return tries


def test_claims_at_once_mix_and_lose_nothing(tmp_path: Path) -> None:
    path = str(tmp_path / "ev")
    with multiprocessing.get_context("fork").Pool(4) as pool:
        tries = pool.starmap(claim_often, [(path, mark) for mark in "abcd"], chunksize=1)
    found = sorted(file.read_text().split() for file in tmp_path.iterdir())
    assert found == sorted([f"{mark}{at}"] * 2 for mark in "abcd" for at in range(20))
    assert sum(tries) > 80
