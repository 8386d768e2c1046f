"""The language server as an editor sees it."""

from __future__ import annotations

import os
import signal
import time
from collections.abc import Callable, Iterator

import pytest
from conftest import Root, Runner
from editor import Editor, places

Make = Callable[..., Root]

MODULE = 'T = ["t"]\n\ndef pair(name, srcs = []):\n    native.filegroup(name = name, srcs = srcs)\n'
BUILD = (
    'load("//lib:x.bzl", "T", "pair")\n'
    'filegroup(name = "l", srcs = ["x.c"], tags = T)\n'
    'pair(name = "two", srcs = ["//lib:p", ":l"])\n'
)
FILES = {
    ".sefgulaw.toml": "",
    "a/BUILD": BUILD,
    "a/x.c": "",
    "lib/x.bzl": MODULE,
    "lib/BUILD": 'filegroup(name = "p")\n',
    "b/BUILD": 'load("//lib:x.bzl", "pair")\npair(name = "b")\n',
}


@pytest.fixture
def editor(tree: Make, run: Runner) -> Iterator[Editor]:
    """An editor over a small tree."""
    found = Editor(run, tree(FILES))
    yield found
    found.kill()


def test_diagnostics_of_a_build_file(editor: Editor) -> None:
    capabilities = editor.start()["capabilities"]
    assert capabilities["textDocumentSync"] == {"openClose": True, "change": 2, "save": True}
    assert editor.open("a/BUILD") == []
    found = editor.edit("a/BUILD", BUILD.replace("filegroup", "filegrup") + "x = [1, 2\n")
    assert places(found) == [
        (2, 1, "name is not bound: filegrup"),
        (4, 5, "syntax error: '[' was never closed"),
    ]
    assert found[0]["range"]["end"] == {"line": 1, "character": 8}
    assert found[0]["code"] == 4 and found[0]["severity"] == 1 and found[0]["source"] == "sefgulaw"
    assert editor.edit("a/BUILD", BUILD) == []
    assert editor.stop() == 0


def test_a_change_of_a_range_counts_units_of_utf_16(editor: Editor) -> None:
    editor.start()
    editor.open("a/BUILD", "# \U0001f600 x\n" + BUILD)
    line, text = 0, editor.edit("a/BUILD", "", span(0, 0, 0, 6))
    assert line == 0 and text == []
    found = editor.edit("a/BUILD", "filegrup", span(2, 0, 2, 9))
    assert places(found) == [(3, 1, "name is not bound: filegrup")]
    assert editor.edit("a/BUILD", "filegroup", span(2, 0, 2, 8)) == []


def span(line: int, start: int, end_line: int, end: int) -> dict[str, object]:
    """Returns a range of the protocol."""
    return {
        "start": {"line": line, "character": start},
        "end": {"line": end_line, "character": end},
    }


def test_a_module_and_what_loads_it(editor: Editor) -> None:
    editor.start()
    assert editor.open("lib/x.bzl") == [] and editor.open("a/BUILD") == []
    editor.shown.clear()
    found = editor.edit("lib/x.bzl", MODULE.replace("srcs = srcs", "srcz = srcs"))
    assert found == []
    wanted = "wrong arguments, or a key twice in one dictionary"
    assert places(editor.wait("a/BUILD")) == [(3, 1, wanted)]
    related = editor.shown["a/BUILD"][0]["relatedInformation"][0]["location"]
    assert editor.path(related["uri"]) == "lib/x.bzl" and related["range"]["start"]["line"] == 3
    editor.shown.pop("lib/x.bzl")
    assert [it[0] for it in places(editor.wait("lib/x.bzl"))] == [4]
    assert "(for //a, and 1 other package)" in editor.shown["lib/x.bzl"][0]["message"]
    found = editor.edit("lib/x.bzl", MODULE + "x = [\n")
    assert places(found) == [(5, 5, "syntax error: '[' was never closed")]
    editor.shown.pop("a/BUILD", None)
    assert "(in lib/x.bzl)" in editor.wait("a/BUILD")[0]["message"]
    warned = editor.edit("lib/x.bzl", MODULE + "def g():\n    return nothing\n")
    assert places(warned) == [(6, 12, "name is not bound: nothing")]
    assert warned[0]["severity"] == 2


def test_definitions_references_hover_and_symbols(editor: Editor) -> None:
    editor.start()
    editor.open("a/BUILD")
    editor.open("lib/x.bzl")

    def defined(line: int, character: int) -> tuple[str, int] | None:
        found = editor.at("definition", "a/BUILD", line, character)
        return found and (editor.path(found["uri"]), found["range"]["start"]["line"] + 1)

    assert defined(0, 8) == ("lib/x.bzl", 1)
    assert defined(0, 28) == ("lib/x.bzl", 3)
    assert defined(2, 1) == ("lib/x.bzl", 3)
    assert defined(1, 33) == ("a/x.c", 1)
    assert defined(2, 30) == ("lib/BUILD", 1)
    assert defined(2, 41) == ("a/BUILD", 2)
    assert defined(1, 4) is None
    hovered = editor.at("hover", "a/BUILD", 2, 30)["contents"]["value"]
    assert hovered.split("\n")[0] == "filegroup //lib:p"
    users = editor.at("references", "a/BUILD", 2, 41)
    assert [(editor.path(it["uri"]), it["range"]["start"]["line"]) for it in users] == [
        ("a/BUILD", 2)
    ]
    document = {"uri": editor.uri("a/BUILD")}
    symbols = editor.ask("textDocument/documentSymbol", textDocument=document)
    assert [(it["name"], it["detail"], it["range"]["start"]["line"]) for it in symbols] == [
        ("l", "filegroup", 1),
        ("two", "filegroup", 2),
    ]
    document = {"uri": editor.uri("lib/x.bzl")}
    symbols = editor.ask("textDocument/documentSymbol", textDocument=document)
    assert [(it["name"], it["range"]["start"]["line"]) for it in symbols] == [("T", 0), ("pair", 2)]
    found = editor.ask("workspace/symbol", query="lib:")
    assert [it["name"] for it in found] == ["//lib:p"]


def test_completion(editor: Editor) -> None:
    editor.start()
    editor.open("a/BUILD")

    def offered(text: str) -> list[str]:
        editor.edit("a/BUILD", BUILD + text)
        line, character = 3 + text.count("\n"), len(text.rpartition("\n")[2])
        return [it["label"] for it in editor.at("completion", "a/BUILD", line, character)]

    assert offered('alias(name = "x", actual = "//') == ["//a", "//b", "//lib"]
    assert offered('alias(name = "x", actual = "//lib:') == ["BUILD", "p", "x.bzl"]
    assert offered('alias(name = "x", actual = ":l') == ["l"]
    assert "actual" in offered('alias(name = "x", ')
    assert "pair" in offered("pa")


def test_saved_and_closed_files(editor: Editor) -> None:
    editor.start()
    assert editor.open("a/BUILD") == []
    editor.root.replace("lib/x.bzl", MODULE.replace("T = ", "U = "))
    editor.save("a/BUILD")
    assert [it[0] for it in places(editor.wait("a/BUILD"))] == [1]
    editor.root.replace("lib/x.bzl", MODULE)
    editor.save("a/BUILD")
    assert editor.wait("a/BUILD") == []
    assert editor.edit("a/BUILD", "x = y\n") != []
    editor.shown.clear()
    editor.notify("textDocument/didClose", textDocument={"uri": editor.uri("a/BUILD")})
    assert editor.wait("a/BUILD") == []


def test_the_daemon_and_the_loader_may_end(editor: Editor, run: Runner) -> None:
    editor.start()
    editor.open("a/BUILD")
    wrong = "filegrup()\n"
    assert places(editor.edit("a/BUILD", wrong)) == [(1, 1, "name is not bound: filegrup")]
    begun = time.monotonic()
    for file in run.runtime.rglob("pid"):
        os.kill(int(file.read_text()), signal.SIGKILL)
    assert editor.edit("a/BUILD", BUILD) == []
    assert places(editor.edit("a/BUILD", wrong)) == [(1, 1, "name is not bound: filegrup")]
    assert time.monotonic() - begun < 5


def test_unknown_requests_and_an_editor_that_goes_away(editor: Editor) -> None:
    editor.start()
    with pytest.raises(AssertionError, match="is not served"):
        editor.ask("textDocument/rename", textDocument={"uri": editor.uri("a/BUILD")})
    assert editor.ask("workspace/symbol", query="nothing") == []
    assert editor.at("hover", "a/x.c", 0, 0) is None
    assert editor.stop() == 0


def test_unsaved_texts_in_a_tree_for_bazel(tree: Make, run: Runner) -> None:
    good = (
        'load("@rules//:d.bzl", "thing")\nthing(name = "t")\n'
        'cc_library(\n    name = "l",\n    srcs = glob(["*.c"]),\n)\n'
    )
    root = tree({"WORKSPACE": "", "a/BUILD": good, "a/x.c": "", "b/BUILD": ""})
    editor = Editor(run, root)
    editor.start()
    assert editor.open("a/BUILD") == []
    assert editor.edit("a/BUILD", good + 'cc_binary(name = "b", deps = [":l"])\n') == []
    found = editor.edit("a/BUILD", good.replace("cc_library", "cc_libary") + "x = y\n")
    assert places(found) == [
        (3, 1, "name is not bound: cc_libary"),
        (7, 5, "name is not bound: y"),
    ]
    found = editor.edit("a/BUILD", good + "cc_test(\n")
    assert places(found) == [(7, 8, "syntax error: '(' was never closed")]
    assert editor.edit("a/BUILD", good) == []
    assert editor.open("b/BUILD") == []
    assert editor.edit("b/BUILD", 'cc_library(name = "x")\n') == []
    editor.kill()
