"""What the loader is told of a content, and how answers are cut and shown."""

from __future__ import annotations

import base64
import json

import pytest
from sefgulaw.exactness import literal_patterns, matches
from sefgulaw.messages import Message, Related, as_json, as_line, first_line, place
from sefgulaw.names import Path
from sefgulaw.showing import target_lines
from sefgulaw.store import Bad, Cyclic, Fault, Good, Replaced, Store, cut, name_of, read_item
from sefgulaw.telling import control_byte, told_text
from sefgulaw.text import Span
from sefgulaw.wire import LONGEST_LINE, Command, Del, Edit, Load, Put

GOOD = (
    b'{"name":"a","targets":[{"attrs":{"srcs":["//a:x.c"],"tags":[",{\\"name\\":"]},'
    b'"kind":"filegroup","name":"l"},{"attrs":{},"kind":"alias","name":"m/n"}]}'
)
BAD = b'{"fault":{"code":4,"line":3,"path":"b/BUILD"},"name":"b"}'
CYCLE = b'{"fault":{"code":19,"cycle":["//:c.bzl","//:d.bzl"]},"name":""}'
EMPTY = b'{"name":"e","targets":[]}'
ANSWER = b'{"packages":[' + b",".join([GOOD, BAD, CYCLE, EMPTY]) + b"]}"


def test_an_answer_is_cut_into_packages() -> None:
    assert cut(ANSWER) == [GOOD, BAD, CYCLE, EMPTY]
    assert [name_of(it) for it in cut(ANSWER)] == ["a", "b", "", "e"]
    assert cut(b'{"packages":[]}') == []
    with pytest.raises(ValueError):
        cut(b'{"refused":5}')


def test_what_items_mean() -> None:
    assert read_item(GOOD) == Good(GOOD)
    assert read_item(BAD) == Bad(Fault(4, 3, Path("b/BUILD")))
    assert read_item(CYCLE) == Cyclic(("//:c.bzl", "//:d.bzl"))


def test_a_store_tells_what_differs() -> None:
    store = Store()
    assert store.put(ANSWER).differing == ("a", "b", "", "e")
    assert store.put(ANSWER).differing == ()
    other = ANSWER.replace(b'"line":3', b'"line":4')
    assert store.put(other) == Replaced(("a", "b", "", "e"), ("b",))
    assert [it.label for it in store.targets("a")] == ["//a:l", "//a:m/n"]
    assert store.targets("b") == ()
    store.forget("a")
    assert "a" not in store and len(store) == 3


def test_lines_of_targets_have_the_loaders_bytes() -> None:
    assert list(target_lines(GOOD, "a", True)) == [
        (
            "l",
            b'{"attrs":{"srcs":["//a:x.c"],"tags":[",{\\"name\\":"]},"kind":"filegroup",'
            b'"label":"//a:l"}',
        ),
        ("m/n", b'{"attrs":{},"kind":"alias","label":"//a:m/n"}'),
    ]
    assert list(target_lines(EMPTY, "e", True)) == []
    lines = [json.loads(line) for _, line in target_lines(GOOD, "a", False)]
    assert [it["exact"] for it in lines] == [False, False]


def test_lines_of_targets_with_odd_names() -> None:
    item = (
        b'{"name":"a","targets":[{"attrs":{"srcs":["//a:__xff","//a:a__x20b","//a:b"]},'
        b'"kind":"filegroup","name":"c__x2b"}]}'
    )
    members = json.loads(next(target_lines(item, "a", True))[1])
    assert members["label"] == "//a:c+"
    assert members["attrs"]["srcs"] == ["//a:a b", "//a:b", "//a:\ufffd"]
    coded = [base64.b64decode(it) for it in members["attrs_bytes"]["srcs"]]
    assert coded == [b"//a:a b", b"//a:b", b"//a:\xff"]


def test_texts_are_told_as_they_are() -> None:
    for content in (b"", b"x = 1\n", b"x\r\n", b"\x00\x01", b"#" * 262_144, b'"' * 262_144):
        assert told_text(content).encode() == content


def test_a_byte_over_127_ends_what_is_told() -> None:
    assert told_text(b"a\nb\xff\xfe\nc\xff") == "a\nb\x80"
    is_short = told_text(b"\n\x01" * 131_000 + b"\xff") == "\n" * 131_000 + "\x80"
    assert is_short


def test_control_bytes_end_what_would_be_too_long() -> None:
    assert told_text(b"a\n" + b"\x01" * 262_000) == "a\n\x01"
    longest = told_text(b"\n\\" * 131_072)
    assert len(Edit([Put(Path("a" * 255), longest)]).line()) <= LONGEST_LINE


def test_the_first_control_byte_is_named() -> None:
    assert control_byte(b"a\tb\n") is None
    assert control_byte(b"a\nbc\r\n") == (2, 3, "carriage return")
    assert control_byte(b"\x00") == (1, 1, "zero byte")
    assert control_byte(b"\n\n \x02") == (3, 2, "control byte 2")


def test_lines_that_the_loader_would_refuse_are_mistakes() -> None:
    commands: list[Command] = [Edit([]), Edit([Del(Path("a"))] * 257)]
    for command in [*commands, Load([]), Load(["a"] * 257)]:
        with pytest.raises(ValueError):
            command.line()
    with pytest.raises(ValueError):
        Put(Path("a"), "\x01" * 200_000).line()
    assert Load(["a"]).line() == b'{"op":"load","names":["a"]}\n'
    assert Put(Path("a"), 'x"\n\x80').line() == (
        b'{"op":"put","path":"a","text":"x\\"\\n\\u0080"}\n'
    )


def test_messages_as_lines() -> None:
    message = Message("app/BUILD", Span(3, 1, 3, 9), "name is not bound: filegrup", 4)
    assert as_line(message) == "app/BUILD:3:1: error: name is not bound: filegrup [4]"
    one = Message("app/BUILD", place(3), "x", 5, packages=("app",))
    assert as_line(one) == "app/BUILD:3:1: error: x [5]"
    note = Related("lib/g0.bzl", place(9, 5), "in this function, called there")
    many = Message("l.bzl", first_line(), "x", "memory", (note,), ("", "b", "c"))
    assert as_line(many) == (
        "l.bzl:1:1: error: x [memory] (in //, and 2 other packages)\n"
        "lib/g0.bzl:9:5: note: in this function, called there"
    )


def test_messages_as_json() -> None:
    message = Message(
        "app/BUILD", Span(3, 1, 3, 9), "name is not bound: filegrup", 4, packages=("app",)
    )
    assert as_json(message) == (
        b'{"code":4,"column":1,"end_column":9,"file":"app/BUILD","line":3,'
        b'"message":"name is not bound: filegrup","notes":[],"packages":["app"],'
        b'"severity":"error"}'
    )
    odd = json.loads(as_json(Message("\udcff/BUILD", first_line(), "x", 4)))
    assert odd["file"] == "\ufffd/BUILD"
    assert base64.b64decode(odd["file_bytes"]) == b"\xff/BUILD"


@pytest.mark.parametrize(
    ("pattern", "path", "expected"),
    [
        ("*.c", "x.c", True),
        ("*.c", "a/x.c", False),
        ("**/*.c", "x.c", True),
        ("**/*.c", "a/b/x.c", True),
        ("**", "a/b", True),
        ("a/**", "a/b/c", True),
        ("a/*/c", "a/b/c", True),
        ("a/*/c", "a/c", False),
        ("*+*", "c++", True),
        ("x", "y", False),
    ],
)
def test_patterns_of_globs(pattern: str, path: str, expected: bool) -> None:
    assert matches(pattern, path) is expected


def test_literal_patterns_of_globs() -> None:
    text = 'x = glob(["a", "b"], exclude = ["c"])\ny = native.glob(include = ["d"])\n'
    assert literal_patterns(text, True) == ["a", "b", "c", "d"]
    assert literal_patterns('x = glob(["a"])\n', False) == []
    assert literal_patterns("x = glob(y)\n", True) is None
    assert literal_patterns('x = glob(["a"] + y)\n', True) is None
    assert literal_patterns("g = glob\n", True) is None
    assert literal_patterns("x = [\n# glob\n", True) is None
