"""The command `explain` over files of events, and over the events of the real loader."""

from __future__ import annotations

import json
import shlex
import subprocess
from pathlib import Path

import pytest
from conftest import CHECKOUT, Done, Runner

from sefgulaw.events import EventReader

LOAD = 'load("//m:x.bzl", "V")\nfilegroup(name = "t", tags = V)\n'
A: dict[str, object] = {"op": "load", "names": ["a"]}
BOTH: dict[str, object] = {"op": "load", "names": ["a", "b"]}


def put(path: str, text: str) -> dict[str, object]:
    return {"op": "put", "path": path, "text": text}


SCRIPT: list[dict[str, object]] = [
    put("m/BUILD", ""),
    put("m/x.bzl", 'load(":y.bzl", "Y")\nV = [Y]\n'),
    put("m/y.bzl", 'Y = "t"\n'),
    put("a/BUILD", LOAD),
    BOTH,
    put("m/y.bzl", 'Y = "t"  # the same value\n'),
    BOTH,
    put("m/y.bzl", 'Y = "u"\n'),
    put("b/BUILD", LOAD),
    {"op": "del", "path": "nowhere"},
    {"op": "edit", "edits": [put("m/y.bzl", 'Y = "v"\n'), put("a/c", "")]},
    A,
    put("m/x.bzl", "V = [1 // 0]\n"),
    A,
]

EXPECTED = """\
package //a  ran at line 12, version 8; last at version 4; 4 turns; value changed
  module //m:x.bzl  changed at version 8
    module //m:y.bzl  changed at version 8
      file m/y.bzl  changed by the edits of lines 8, 11
"""

TOP_ALONE = "--line, --all and --output graph go with a key, and not with --top"


@pytest.fixture
def events(loader: str, tmp_path: Path) -> Path:
    """The events of the real loader over the script."""
    file = tmp_path / "events"
    told = "".join(json.dumps(line) + "\n" for line in SCRIPT).encode()
    words = [loader, "run", "--events", str(file)]
    done = subprocess.run(words, input=told, capture_output=True, check=True)
    assert done.stderr == b""
    return file


def test_the_chain_of_a_script(run: Runner, events: Path, tmp_path: Path) -> None:
    done = run("explain", "package //a", "--events", str(events), "--line", "12", cwd=tmp_path)
    assert (done.status, done.err, done.out.decode()) == (0, b"", EXPECTED)
    done = run("explain", "//m:y.bzl", "--events", str(events), "--line", "7", cwd=tmp_path)
    assert done.out.decode() == (
        "module //m:y.bzl  ran at line 7, version 5; last at version 4; 3 turns; value equal\n"
        "  file m/y.bzl  changed by the edit of line 6\n"
    )


SHOWN: list[dict[str, object]] = [
    put("m/BUILD", ""),
    put("m/x.bzl", 'V = ["t"]\n'),
    put("a/BUILD", LOAD),
    put("c", ""),
    A,
    put("c", ""),
    put("d", ""),
    put("m/x.bzl", 'V = ["u"]\n'),
    A,
]


@pytest.mark.parametrize("page", ["docs/TOOLS.md", "packaging/man/sefgulaw-explain.1.scd"])
def test_the_chain_that_the_pages_show(run: Runner, loader: str, tmp_path: Path, page: str) -> None:
    told = "".join(json.dumps(line) + "\n" for line in SHOWN).encode()
    words = [loader, "run", "--events", str(tmp_path / "ev.jsonl")]
    subprocess.run(words, input=told, capture_output=True, check=True)
    command = "explain 'package //a' --events ev.jsonl\n"
    shown = (CHECKOUT / page).read_text().split(f"$ sefgulaw {command}")[1].split("```")[0]
    done = run(*shlex.split(command), cwd=tmp_path)
    assert (done.status, done.out.decode()) == (0, shown)


def test_a_value_that_stays_equal_stops_the_chain(
    run: Runner, events: Path, tmp_path: Path
) -> None:
    with open(events, "rb") as file:
        found = list(EventReader(file).forward())
    assert set(found[6].raw_runs) == {"file m/y.bzl", "module //m:y.bzl"}
    lines = [event.line for event in found if "module //m:x.bzl" in event.raw_runs]
    assert lines == [5, 12, 14]
    words = ["file m/y.bzl", "--events", str(events), "--line", "7", "--all"]
    assert run("explain", *words, cwd=tmp_path).lines == [
        "file m/y.bzl  changed by the edit of line 6",
        "  module //m:y.bzl  equal",
    ]


def test_each_line_has_an_event(events: Path) -> None:
    told = [json.loads(line) for line in events.read_bytes().splitlines()]
    assert [it["line"] for it in told] == list(range(1, len(SCRIPT) + 1))
    assert [it["op"] for it in told] == [line["op"] for line in SCRIPT]
    assert all(list(it) == sorted(it) for it in told)
    assert (told[9]["refused"], told[10]["paths"]) == (4, ["m/y.bzl", "a/c"])


def test_a_picture_that_dot_takes(run: Runner, events: Path, tmp_path: Path) -> None:
    words = ["explain", "//a", "--events", str(events), "--output", "graph"]
    done = run(*words, cwd=tmp_path)
    drawn = subprocess.run(["dot", "-Tplain"], input=done.out, capture_output=True, check=True)
    assert b'"module //m:x.bzl" "package //a"' in drawn.stdout


def test_the_keys_with_most_turns(run: Runner, events: Path, tmp_path: Path) -> None:
    done = run("explain", "--top", "1", "--events", str(events), cwd=tmp_path)
    assert (done.status, done.lines) == (0, ["12\t3\tpackage //a"])


@pytest.mark.parametrize(
    ("words", "status", "said"),
    [
        (["//z"], 2, "package //z: the events have no run of it"),
        (["pakage //a"], 2, "file pakage //a: the events have no run of it"),
        (["//a", "--line", "1"], 2, "package //a: the events have no run of it up to line 1"),
        ([], 2, "explain takes a key, or --top"),
        (["//a", "--top", "3"], 2, "explain takes a key, or --top"),
        (["--top", "3", "--all"], 2, TOP_ALONE),
        (["--top", "3", "--line", "4"], 2, TOP_ALONE),
        (["--top", "3", "--output", "graph"], 2, TOP_ALONE),
        (["//a", "--all", "--output", "graph"], 2, "--all goes with --output text"),
    ],
)
def test_words_that_have_no_answer(
    run: Runner, events: Path, tmp_path: Path, words: list[str], status: int, said: str
) -> None:
    done = run("explain", *words, "--events", str(events), cwd=tmp_path)
    assert (done.status, done.out, done.err.decode()) == (status, b"", f"sefgulaw: {said}\n")


def test_words_that_cannot_be_read(run: Runner, tmp_path: Path) -> None:
    for words in (["--line", "0"], ["--line", "x"], ["--top", "-1"], ["--output", "xml"]):
        done = run("explain", "//a", "--events", "no", *words, cwd=tmp_path)
        assert (done.status, done.out) == (2, b"") and words[0] in done.words[-1]


def test_files_that_are_no_files_of_events(run: Runner, tmp_path: Path) -> None:
    (tmp_path / "no").write_text('{"line":1,"version":0}\nnonsense\n')
    (tmp_path / "empty").write_text("")
    for name, said in (
        ("no", "line 2 is no event"),
        ("empty", "there are no events in it"),
        ("absent", "No such file or directory"),
        (".", "Is a directory"),
    ):
        for words in (["//a"], ["--top", "3"]):
            done = run("explain", *words, "--events", name, cwd=tmp_path)
            assert done == Done(3, b"", f"sefgulaw: {name}: {said}\n".encode())


def test_half_a_line_at_the_end_is_told(run: Runner, events: Path, tmp_path: Path) -> None:
    raw = events.read_bytes()
    events.write_bytes(raw[:-10])
    words = ["explain", "package //a", "--events", str(events)]
    done = run(*words, cwd=tmp_path)
    assert (done.status, done.out.decode()) == (0, EXPECTED)
    assert done.err.decode() == f"sefgulaw: {events}: the last line is not whole and is left out\n"
    assert run(*words, "-q", cwd=tmp_path) == Done(0, EXPECTED.encode(), b"")


def test_a_full_disk(run: Runner, events: Path, tmp_path: Path) -> None:
    words = ["explain", "//a", "--events", str(events), "--output", "graph"]
    with open("/dev/full", "wb") as full:
        process = run.start(*words, cwd=tmp_path, stdout=full.fileno())
        _, err = process.communicate(timeout=60)
    said = b"sefgulaw: standard output: No space left on device\n"
    assert (process.returncode, err) == (3, said)
