"""A bench: what it holds, and that it never answers otherwise than the tree."""

from __future__ import annotations

import logging
import random

import pytest
from benches import bench_of
from sefgulaw import bench as bench_module
from sefgulaw.bench import Bench
from sefgulaw.names import Path
from sefgulaw.needs import Needs
from sefgulaw.store import cut
from sefgulaw.wire import Load, Loader, Put, Stopped
from trees import HOLDS_MEMORY

FILES = {
    "a/BUILD": 'load("//lib:m.bzl", "T")\nfilegroup(name = "l", srcs = glob(["**"]), tags = T)\n',
    "a/x.c": "",
    "a/deep/y.c": "",
    "a/sub/BUILD": "",
    "a/sub/z.c": "",
    "lib/BUILD": 'filegroup(name = "p")\n',
    "lib/m.bzl": 'load(":n.bzl", "N")\nT = [N]\n',
    "lib/n.bzl": 'N = "n"\n',
    "other/BUILD": 'filegroup(name = "o")\n',
}


class Counted(Needs):
    """Needs that forget a file of each closure."""

    def __init__(self, forgotten: str) -> None:
        super().__init__()
        self._forgotten = Path(forgotten)

    def closure(self, package: str) -> set[Path]:
        """Returns a closure that lacks a file."""
        return super().closure(package) - {self._forgotten}


def answer_of_all(loader: str, name: str) -> bytes:
    """Returns what a loader answers that was told all files."""
    process = Loader.start([loader])
    for path, text in FILES.items():
        process.ask(Put(Path(path), text))
    answer = process.ask(Load([name]))
    process.close()
    return answer


@pytest.mark.parametrize("name", ["a", "a/sub", "lib", "other"])
def test_a_bench_answers_as_the_tree_does(loader: str, name: str) -> None:
    bench = bench_of(loader, FILES)
    assert bench.package(name) == answer_of_all(loader, name)
    assert len(bench._has) < len(FILES)
    bench.close()


def test_a_trial_is_over_with_the_next_question(loader: str) -> None:
    bench = bench_of(loader, FILES)
    before = bench.package("a")
    path = Path("lib/n.bzl")
    tried = bench.try_text(path, 'N = "else"\n', Load(["a"]))
    assert b'"else"' in tried and tried != before
    assert bench.package("a") == before
    assert bench.text(path) == FILES["lib/n.bzl"]
    assert b'"fault"' in bench.try_text(path, "N = \n", bench.asking(path))
    assert bench.module(path) == b'{"exports":["N"]}'
    bench.close()


def test_a_trial_is_over_when_another_package_is_asked(
    loader: str, caplog: pytest.LogCaptureFixture
) -> None:
    files = {**FILES, "b/BUILD": 'load("//lib:m.bzl", "T")\nfilegroup(name = "l", tags = T)\n'}
    kept = bench_of(loader, files)
    right = {name: cut(kept.package(name))[0] for name in ("a", "b")}
    kept.close()
    told = {Path(path): text for path, text in files.items()}
    needs = Needs()
    for path, text in told.items():
        needs.update(path, text)
    bench = Bench(lambda: Loader.start([loader]), told, needs, right.get)
    path = Path("lib/n.bzl")
    with caplog.at_level(logging.WARNING):
        for name in ("a", "b"):
            assert b'"else"' in bench.try_text(path, 'N = "else"\n', Load([name]))
    assert not caplog.text
    bench.close()


def test_an_overlay_stands_in_place_of_the_files(loader: str) -> None:
    overlay = {Path("a/BUILD"): 'load("//other:new.bzl", "X")\nfilegroup(name = X)\n'}
    overlay[Path("other/new.bzl")] = 'X = "fresh"\n'
    bench = bench_of(loader, FILES, overlay)
    assert b'"name":"fresh"' in bench.package("a")
    assert bench.text(Path("a/BUILD")) == overlay[Path("a/BUILD")]
    bench.close()


def test_a_bench_that_lacks_a_file_is_told_the_whole_tree(
    loader: str, caplog: pytest.LogCaptureFixture
) -> None:
    right = answer_of_all(loader, "a")
    told = {Path(path): text for path, text in FILES.items()}
    needs = Counted("a/deep/y.c")
    for path, text in told.items():
        needs.update(path, text)
    bench = Bench(lambda: Loader.start([loader]), told, needs, lambda _: cut(right)[0])
    with caplog.at_level(logging.WARNING):
        assert bench.package("a") == right
    assert "told the whole tree" in caplog.text
    assert bench._has.keys() == told.keys()
    bench.close()


def test_a_refresh_takes_in_what_the_base_was_told(loader: str) -> None:
    told = {Path(path): text for path, text in FILES.items()}
    needs = Needs()
    for path, text in told.items():
        needs.update(path, text)
    bench = Bench(lambda: Loader.start([loader]), told, needs)
    bench.package("a")
    told[Path("a/new.c")] = ""
    needs.update(Path("a/new.c"), "")
    del told[Path("a/x.c")]
    needs.update(Path("a/x.c"), None)
    bench.refresh()
    answer = bench.package("a")
    assert b"//a:new.c" in answer and b"//a:x.c" not in answer
    bench.close()


def test_a_bench_starts_again_after_a_stop(loader: str) -> None:
    bench = bench_of(loader, FILES)
    before = bench.package("a")
    with pytest.raises(Stopped) as stop:
        bench.try_text(Path("a/BUILD"), HOLDS_MEMORY, Load(["a"]))
    assert stop.value.why == "memory"
    assert bench.package("a") == before
    bench.close()


def test_a_large_bench_is_given_up(loader: str, monkeypatch: pytest.MonkeyPatch) -> None:
    monkeypatch.setattr(bench_module, "MOST_PACKAGES", 2)
    bench = bench_of(loader, FILES)
    for name in ("a", "lib", "other"):
        assert bench.package(name) == answer_of_all(loader, name)
    assert Path("a/BUILD") not in bench._has
    bench.close()


@pytest.mark.parametrize("seed", range(4))
def test_random_benches_over_random_trees(loader: str, seed: int) -> None:
    chance = random.Random(seed)
    folders = ["", "a", "a/b", "a/b/c", "d", "d/e"]
    files: dict[str, str] = {}
    for folder in folders:
        at = f"{folder}/" if folder else ""
        if chance.random() < 0.7:
            module = chance.choice(folders)
            files[f"{at}{chance.choice(['BUILD', 'BUILD.bazel'])}"] = (
                f'load("//{module}:m.bzl", "M")\n'
                'filegroup(name = "g", srcs = glob(["**/*.c"]), tags = [M])\n'
            )
        if chance.random() < 0.6:
            files[f"{at}m.bzl"] = f'load("//{chance.choice(folders)}:n.bzl", "N")\nM = N\n'
        if chance.random() < 0.8:
            files[f"{at}n.bzl"] = f'N = "{folder}"\n'
        files[f"{at}x.c"] = ""
    process = Loader.start([loader])
    for path, text in files.items():
        process.ask(Put(Path(path), text))
    bench = bench_of(loader, files)
    for folder in folders:
        assert bench.package(folder) == process.ask(Load([folder]))
    process.close()
    bench.close()
