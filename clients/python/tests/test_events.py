"""Files of events, and why a node ran, without a loader."""

from __future__ import annotations

import io
import json
import os
import random
import subprocess
import tracemalloc
from collections.abc import Iterable
from pathlib import Path

import pytest

from sefgulaw.events import BadEvents, Event, EventReader
from sefgulaw.explain import (
    NoEvents,
    NoRun,
    chain,
    graph_lines,
    history_of,
    keys_of,
    text_lines,
    top_lines,
)

Members = dict[str, object]


def line_of(**members: object) -> bytes:
    return json.dumps(members).encode() + b"\n"


def run_of(key: str, **members: object) -> Members:
    return {"key": key, "turns": 2, "changed": True, **members}


def put(line: int, *paths: str) -> bytes:
    return line_of(line=line, version=line, op="put", paths=list(paths))


def load(line: int, *runs: Members) -> bytes:
    return line_of(line=line, version=line, op="load", runs=list(runs))


def reader_of(lines: Iterable[bytes]) -> EventReader:
    return EventReader(io.BytesIO(b"".join(lines)))


def explained(lines: Iterable[bytes], key: str, line: int | None = None) -> list[str]:
    return list(text_lines(chain(history_of(reader_of(lines), [key], line))))


def test_a_cause_with_two_ways_is_told_once() -> None:
    runs = [
        run_of("file x", causes=[], turns=0),
        run_of("module //:x.bzl", causes=["file x"]),
        run_of("module //:y.bzl", causes=["module //:x.bzl"]),
        run_of("package //", causes=["module //:x.bzl", "module //:y.bzl", "module //:z.bzl"]),
    ]
    assert explained([put(1, "x"), load(2, *runs)], "package //") == [
        "package //  ran at line 2, version 2; for the first time; 2 turns; value changed",
        "  module //:x.bzl  changed at version 2",
        "    file x  changed by the edit of line 1",
        "  module //:y.bzl  changed at version 2",
        "    module //:x.bzl  changed at version 2, see above",
        "  module //:z.bzl  changed before these events begin",
    ]


def test_a_listing_is_touched_by_what_lies_below_it() -> None:
    lines = [put(1, "a/b/c"), put(2, "ab/c"), load(3, run_of("listing //a", causes=[], turns=0))]
    assert explained(lines, "listing //a") == ["listing //a  changed by the edit of line 1"]


def test_a_cause_is_the_run_that_changed_it_and_not_an_equal_one_behind() -> None:
    lines = [
        load(1, run_of("module //:x.bzl"), run_of("package //a"), run_of("package //b")),
        put(2, "x.bzl"),
        load(
            3,
            run_of("file x.bzl", causes=[], turns=0),
            run_of("module //:x.bzl", causes=["file x.bzl"]),
            run_of("package //b", causes=["module //:x.bzl"]),
        ),
        put(4, "x.bzl"),
        load(
            5,
            run_of("file x.bzl", causes=[], turns=0),
            run_of("module //:x.bzl", causes=["file x.bzl"], changed=False),
        ),
        load(6, run_of("package //a", causes=["module //:x.bzl"])),
    ]
    assert explained(lines, "package //a") == [
        "package //a  ran at line 6, version 6; last at version 1; 2 turns; value changed",
        "  module //:x.bzl  changed at version 3",
        "    file x.bzl  changed by the edit of line 2",
    ]
    assert explained(lines, "package //a", 5) == [
        "package //a  ran at line 1, version 1; for the first time; 2 turns; value changed"
    ]
    assert explained(lines, "module //:x.bzl") == [
        "module //:x.bzl  ran at line 5, version 5; last at version 3; 2 turns; value equal",
        "  file x.bzl  changed by the edit of line 4",
    ]


def naive(events: list[Event], key: str, line: int | None) -> list[tuple[int, str, int | None]]:
    """Finds the chain with all events at hand, by the definition alone."""
    runs = [run for event in events for run in event.runs()]
    found: list[tuple[int, str, int | None]] = []
    seen = set()

    def enter(key: str, line: int, depth: int) -> None:
        mine = [it for it in runs if it.key == key and it.line <= line]
        mine = [it for it in mine if it.is_changed] if depth else mine
        found.append((depth, key, mine[-1].line if mine else None))
        if mine and (key, mine[-1].line) not in seen:
            seen.add((key, mine[-1].line))
            for cause in mine[-1].causes or ():
                enter(cause, mine[-1].line, depth + 1)

    enter(key, max(it.line for it in events) if line is None else line, 0)
    return found


def random_events(chance: random.Random) -> list[bytes]:
    """Makes events of random runs. Each cause is a key that is lower in the order of keys."""
    keys = [f"file f{at}" for at in range(3)] + [f"module //:m{at}.bzl" for at in range(5)]
    lines = []
    for line in range(1, chance.randint(5, 40)):
        if chance.random() < 0.4:
            lines.append(put(line, *{f"f{chance.randrange(3)}" for _ in range(2)}))
            continue
        runs = []
        for at, key in enumerate(keys):
            if chance.random() < 0.4:
                causes = chance.sample(keys[:at], chance.randint(0, min(at, 3)))
                members: Members = {"causes": [] if key.startswith("file") else causes}
                is_first = not key.startswith("file") and chance.random() < 0.2
                runs.append(
                    run_of(key, changed=chance.random() < 0.7, **({} if is_first else members))
                )
        lines.append(load(line, *runs))
    return lines


def test_the_chain_is_that_of_all_events_at_hand() -> None:
    chance = random.Random(5)
    told = 0
    for _ in range(400):
        lines = random_events(chance)
        events = list(reader_of(lines).forward())
        line = chance.choice([None, chance.randint(1, len(lines))])
        for key in ("file f0", "module //:m2.bzl", "module //:m4.bzl"):
            expected = naive(events, key, line)
            if expected[0][2] is None:
                with pytest.raises(NoRun):
                    history_of(reader_of(lines), [key], line)
                continue
            causes = chain(history_of(reader_of(lines), [key], line))
            got = [(it.depth, it.key, it.run.line if it.run else None) for it in causes]
            assert got == expected
            for cause in causes:
                if cause.run is not None and cause.run.is_leaf and not cause.is_known:
                    expected_edits = edits_of(events, cause.key, cause.run.line)
                    assert [it.line for it in cause.edits] == expected_edits
                    told += len(expected_edits)
    assert told > 200


def edits_of(events: list[Event], leaf: str, line: int) -> list[int]:
    """Returns the lines of the edits of a file, since it was read before a line."""
    reads = [it.line for it in events if it.line < line and leaf in it.raw_runs]
    first = reads[-1] if reads else 0
    path = leaf.partition(" ")[2]
    edits = [it.edit for it in events if it.edit and first < it.line < line]
    return [it.line for it in edits if path in it.paths]


def test_the_last_line_is_found_at_any_place(monkeypatch: pytest.MonkeyPatch) -> None:
    lines = [put(1, "a"), put(2, "b" * 40), put(3, "c"), put(4, "d" * 17)]
    for piece in range(1, 120):
        monkeypatch.setattr("sefgulaw.events._PIECE", piece)
        for rest in (b"", b"{", b'{"line":5,'):
            reader = reader_of([*lines, rest])
            assert [it.line for it in reader.backward()] == [4, 3, 2, 1]
            assert reader.is_cut == bool(rest)


def test_a_last_line_that_was_cut_off_is_left_out() -> None:
    for reader in (reader_of([put(1, "a"), b'{"line":2,"ver']) for _ in range(2)):
        assert [it.line for it in reader.forward()] == [1] and reader.is_cut
    assert explained([put(1, "a"), load(2, run_of("package //a")), b"{"], "package //a")
    with pytest.raises(NoEvents):
        history_of(reader_of([b'{"line":1,"version":1}']), ["package //a"], None)


BROKEN = [
    b"nonsense",
    b"",
    b"[]",
    b"7",
    b"\xff",
    b"\0\0\0\0",
    b"[" * 100_000,
    b'{"line":2}',
    b'{"line":"2","version":1}',
    b'{"line":true,"version":1}',
    b'{"line":-2,"version":1}',
    b'{"line":2.0,"version":1}',
    b'{"line":2,"version":1,"paths":"x"}',
    b'{"line":2,"version":1,"paths":[1]}',
    b'{"line":2,"version":1,"runs":{}',
    b'{"line":2,"version":1,"runs":["x"]}',
    b'{"line":2,"version":1,"runs":[{"key":1}]}',
    b'{"line":2,"version":1,"runs":[{"key":"file \\ud800"}]}',
    b'{"line":2,"version":1,"runs":[{"changed":true,"turns":1}]}',
    b'{"line":' + b"9" * 5000 + b',"version":1}',
]


@pytest.mark.parametrize("line", BROKEN)
def test_a_line_that_is_no_event_is_named(line: bytes) -> None:
    lines = [put(1, "a"), line + b"\n", put(3, "a")]
    for events in (reader_of(lines).backward(), reader_of(lines).forward()):
        with pytest.raises(BadEvents, match="^line 2 is no event$"):
            list(events)


@pytest.mark.parametrize(
    "members",
    [{"turns": "2"}, {"turns": True}, {"changed": 1}, {"causes": "x"}, {"causes": [1]}],
)
def test_a_run_that_is_none_is_named(members: Members) -> None:
    lines = [load(4, {**run_of("package //a"), **members})]
    with pytest.raises(BadEvents, match="^the run of package //a in the event of line 4 is none$"):
        history_of(reader_of(lines), ["package //a"], None)


def test_lines_that_are_not_read_still_have_to_be_objects() -> None:
    lines = [load(1, run_of("package //a")), b"nonsense\n", load(3, run_of("package //b"))]
    with pytest.raises(BadEvents, match="^line 2 is no event$"):
        history_of(reader_of(lines), ["package //a"], None)


def test_a_listing_that_was_read_before_has_the_edits_since() -> None:
    listing = run_of("listing //a", causes=[], turns=0)
    lines = [put(1, "a/b"), load(2, listing), put(3, "b"), put(4, "a/x/y"), load(5, listing)]
    assert explained(lines, "listing //a") == ["listing //a  changed by the edit of line 4"]
    root = run_of("listing //", causes=[], turns=0)
    assert explained([put(1, "a/b"), load(2, root)], "listing //") == [
        "listing //  changed by the edit of line 1"
    ]


def test_many_causes_and_odd_ones() -> None:
    keys = [f"file f{at}" for at in range(100)] + ['glob //a "*"', "glob //a \\u0041"]
    runs = [run_of(key, causes=[], turns=0) for key in keys]
    lines = [*(put(at + 1, f"f{at}") for at in range(100)), load(101, *runs)]
    lines += [put(102, "x"), load(103, run_of("package //a", causes=keys))]
    told = explained(lines, "package //a")
    assert len(told) == 103 and told[58] == "  file f57  changed by the edit of line 58"


def test_members_and_kinds_that_are_not_known_are_passed_over() -> None:
    lines = [
        line_of(line=1, version=1, op="dance", news={"a": 1}),
        load(
            2, run_of("colour //a", news=1), run_of("package //a", news=[], causes=["colour //a"])
        ),
    ]
    assert explained(lines, "package //a")[1:] == ["  colour //a  changed at version 2"]


def test_a_file_without_events() -> None:
    with pytest.raises(NoEvents):
        history_of(reader_of([]), ["package //a"], None)
    with pytest.raises(NoEvents):
        list(top_lines(reader_of([]), 3))


def test_a_pipe_is_read() -> None:
    get, give = os.pipe()
    with os.fdopen(give, "wb") as out:
        out.write(put(1, "a") + load(2, run_of("file a", causes=[])))
    with os.fdopen(get, "rb") as pipe:
        causes = chain(history_of(EventReader(pipe), ["file a"], None))
    assert list(text_lines(causes)) == ["file a  changed by the edit of line 1"]


def test_a_long_chain_of_causes() -> None:
    keys = [f"module //:m{at}.bzl" for at in range(5000)]
    runs = [run_of(key, causes=[cause]) for key, cause in zip(keys, [*keys[1:], "file x"])]
    lines = [put(1, "x"), load(2, run_of("file x", causes=[], turns=0), *runs)]
    told = explained(lines, keys[0])
    assert len(told) == 5001 and told[-1].lstrip() == "file x  changed by the edit of line 1"
    assert len(list(graph_lines(chain(history_of(reader_of(lines), [keys[0]], None))))) == 10_007


def test_a_large_file_is_not_held(tmp_path: Path) -> None:
    file = tmp_path / "events"
    with open(file, "wb") as out:
        out.write(put(1, "a/BUILD") + load(2, run_of("file a/BUILD", causes=[])))
        for at in range(3, 20_000, 2):
            key = f"package //p{at % 50}"
            out.write(put(at, f"p{at % 50}/BUILD"))
            out.write(
                load(at + 1, run_of(key, causes=[f"file p{at % 50}/BUILD"]), run_of("x" * 800))
            )
        out.write(load(20_001, run_of("package //a", causes=["file a/BUILD"])))
    assert file.stat().st_size > 8_000_000
    tracemalloc.start()
    with open(file, "rb") as events:
        causes = chain(history_of(EventReader(events), ["package //a"], None))
        assert causes[1].edits[0].line == 1
        assert len(list(top_lines(EventReader(events), 60))) == 27
    _, most = tracemalloc.get_traced_memory()
    tracemalloc.stop()
    assert most < 5_000_000


ODD = ['glob //a a\\"b\\', "glob //a *\n<b>", "glob //a {x|y}", "file c__x2b__x2b", "file __xff"]


def test_dot_takes_each_key() -> None:
    lines = [put(1, "c__x2b__x2b"), load(2, *map(run_of, ODD), run_of("package //a", causes=ODD))]
    causes = chain(history_of(reader_of(lines), ["package //a"], None))
    drawing = "\n".join(graph_lines(causes)).encode()
    done = subprocess.run(["dot", "-Tplain"], input=drawing, capture_output=True, check=True)
    assert done.stderr == b""
    nodes = [line for line in done.stdout.decode().splitlines() if line.startswith("node ")]
    assert len(nodes) == len(ODD) + 2
    assert sum("file c++" in line for line in nodes) == 1
    assert list(text_lines(causes))[2] == "  glob //a *\\x0a<b>  changed at version 2"
    assert list(text_lines(causes))[5].encode("utf-8", "surrogateescape")[:10] == b"  file \xff  "


@pytest.mark.parametrize(
    ("word", "keys"),
    [
        ("package //a", ["package //a"]),
        ("glob //a *.c dirs", ["glob //a *.c dirs"]),
        ("//a", ["package //a"]),
        ("//", ["package //"]),
        ("//a:b", ["package //a"]),
        ("//a:b.bzl", ["module //a:b.bzl"]),
        ("//a/...", ["under //a"]),
        ("//...", ["under //"]),
        ("a/BUILD", ["file a/BUILD"]),
        ("a/c++.c", ["file a/c++.c", "file a/c__x2b__x2b.c"]),
        ("a/c__x2b__x2b.c", ["file a/c__x2b__x2b.c", "file a/c__x5f_x2b__x5f_x2b.c"]),
        ("//c++:d+.bzl", ["module //c++:d+.bzl", "module //c__x2b__x2b:d__x2b.bzl"]),
        ("file a b", ["file a b", "file a__x20b"]),
        ("a b", ["file a b", "file a__x20b"]),
    ],
)
def test_the_keys_that_a_word_can_mean(word: str, keys: list[str]) -> None:
    assert keys_of(word) == keys
