"""The command `query`: its forms, and what it says of what is not there."""

from __future__ import annotations

import json
import shutil
import subprocess
from collections.abc import Callable

import pytest
from conftest import Done, Root

Make = Callable[..., Root]
Direct = Callable[..., Done]

FILES = {
    ".sefgulaw.toml": "",
    "app/BUILD": (
        'load("//lib:m.bzl", "pair")\n'
        'filegroup(name = "bin", srcs = [":core"])\n'
        'filegroup(\n    name = "core",\n    srcs = ["a.c", "//lib:base", "//lib:nothing"],\n)\n'
        'pair(\n    name = "two",\n)\n'
        'genrule(name = "g", outs = ["o.txt"], srcs = [":bin"], cmd = "c")\n'
    ),
    "app/a.c": "",
    "lib/BUILD": 'filegroup(name = "base", srcs = ["m.bzl"], tags = ["x"])\n',
    "lib/m.bzl": 'def pair(name):\n    native.filegroup(name = name + "_a", srcs = ["o.txt"])\n',
}
MISSING = "sefgulaw: 1 label of this answer is missing, see --missing"


@pytest.fixture
def root(tree: Make) -> Root:
    """A small tree with a label that nothing declares."""
    return tree(FILES)


def test_the_forms(root: Root, direct: Direct) -> None:
    def printed(form: str) -> list[str]:
        done = direct("query", "deps(//app:two_a)", "--output", form, cwd=root)
        assert (done.status, done.words) == (0, [MISSING])
        return done.lines

    assert printed("label_kind") == [
        "source file //app:a.c",
        "filegroup rule //app:bin",
        "filegroup rule //app:core",
        "genrule rule //app:g",
        "generated file //app:o.txt",
        "filegroup rule //app:two_a",
        "filegroup rule //lib:base",
        "source file //lib:m.bzl",
        "missing //lib:nothing",
    ]
    assert printed("label") == [it.rpartition(" ")[2] for it in printed("label_kind")]
    assert printed("package") == ["app", "lib"]
    assert printed("location") == [
        "app/a.c:1:1: source file //app:a.c",
        "app/BUILD:2:1: filegroup rule //app:bin",
        "app/BUILD:3:1: filegroup rule //app:core",
        "app/BUILD:10:1: genrule rule //app:g",
        "app/BUILD:10:1: generated file //app:o.txt",
        "app/BUILD:7:1: filegroup rule //app:two_a",
        "lib/BUILD:1:1: filegroup rule //lib:base",
        "lib/m.bzl:1:1: source file //lib:m.bzl",
        "missing //lib:nothing",
    ]
    assert [json.loads(it) for it in printed("jsonl")][:2] == [
        {"kind": "source file", "label": "//app:a.c"},
        {"kind": "filegroup rule", "label": "//app:bin"},
    ]
    assert printed("graph")[:3] == ["digraph sefgulaw {", "  node [shape=box];", '  "//app:a.c";']
    assert '  "//app:g" -> "//app:bin";' in printed("graph") and printed("graph")[-1] == "}"


@pytest.mark.long
def test_dot_reads_the_graph(root: Root, direct: Direct) -> None:
    assert shutil.which("dot"), "there is no dot: tools/install-packages long installs it"
    root.write(b'odd/q"b\\ \xc3\xa4.c', "")
    root.write("odd/BUILD", 'filegroup(name = "a", srcs = glob(["*.c"]))\n')
    for expression in ("deps(//...)", "set()"):
        graph = direct("query", expression, "--output", "graph", cwd=root).out
        done = subprocess.run(["dot", "-Tplain"], input=graph, capture_output=True)
        assert (done.returncode, done.stderr) == (0, b"")
        nodes = [it for it in done.stdout.splitlines() if it.startswith(b"node ")]
        assert len(nodes) == (11 if "deps" in expression else 0)


def test_the_order_of_a_path_and_missing_labels(root: Root, direct: Direct) -> None:
    done = direct("query", "somepath(//app:g, //lib:base)", cwd=root)
    assert done.lines == ["//app:g", "//app:bin", "//app:core", "//lib:base"]
    done = direct("query", "--missing", "//...", cwd=root)
    assert (done.status, done.lines, done.words) == (0, ["//lib:nothing"], [])
    done = direct("query", "-q", "//lib:all + core + :bin", cwd=root.path / "app")
    assert done.lines == ["//app:bin", "//app:core", "//lib:base"] and done.words == []


def test_what_is_not_there_is_a_fault(root: Root, direct: Direct) -> None:
    done = direct("query", "deps(//app:nothing) + //lib:base + //no:x + //no/where:all", cwd=root)
    assert (done.status, done.lines) == (1, ["//lib:base"])
    assert done.words == [
        "app/BUILD:1:1: error: no such target: //app:nothing [no target]",
        "no/BUILD:1:1: error: no such package: //no [1]",
        "no/where/BUILD:1:1: error: no such package: //no/where [1]",
    ]
    root.write("lib/BUILD", "x = y\n")
    done = direct("query", "deps(//app:bin)", cwd=root)
    assert done.status == 1 and "//app:core" in done.lines
    assert done.words[0] == "lib/BUILD:1:5: error: name is not bound: y [4]"


@pytest.mark.parametrize(
    ("words", "said"),
    [
        (["deps("], "the expression cannot be read: column 5: '(', ')', 'let', 'set(',"),
        (["visible(//a, //b)"], "column 1: the function visible is left out"),
        (["executables(//a)"], "column 1: the function executables is left out"),
        (["frob(//a)"], "column 1: there is no function frob"),
        (["deps(//app:bin, x)"], "column 17: argument 2 of deps is a number"),
        (["deps(//app:bin, 1, 2)"], "column 1: deps takes 1 to 2 arguments"),
        (["kind(//app:bin)"], "column 1: kind takes 2 arguments"),
        (["kind('(', //app:bin)"], "column 6: no regular expression: missing ), "),
        (["filter(deps(//a), //app:bin)"], "column 1: argument 1 of filter is a word"),
        (["$v"], "column 1: nothing is named $v"),
        (["//a//b"], '"//a//b": a package name has no empty part'),
        (["@other//a:b"], '"@other//a:b": labels of other repositories are not read'),
        (["//nowhere/..."], '"//nowhere/...": there is no directory nowhere'),
        (["//app", "--output", "xml"], "argument --output: the form xml is left out"),
        (["//app", "--output", "nice"], "argument --output: one of label, label_kind,"),
        ([], "the following arguments are required: EXPRESSION"),
    ],
)
def test_wrong_words(root: Root, direct: Direct, words: list[str], said: str) -> None:
    done = direct("query", *words, cwd=root)
    assert (done.status, done.out) == (2, b"")
    assert said in done.words[-1]


def test_real_names_and_stand_ins(tree: Make, direct: Direct) -> None:
    files: dict[str | bytes, str] = {
        "WORKSPACE": "",
        "a/BUILD": 'cc_library(name = "l", srcs = glob(["*.c"]), deps = ["@x//y:z", "//b:n"])\n',
        "b/BUILD": 'filegroup(name = "n")\n',
        "a/c++.c": "",
    }
    root = tree(files)
    done = direct("query", 'deps(//a:l) - "//a:c++.c"', "--output", "label_kind", cwd=root)
    assert done.lines == ["cc_library rule //a:l", "filegroup rule //b:n", "missing @x//y:z"]
    assert done.words == [
        "sefgulaw: 1 package of this answer rests on stand-ins, see sefgulaw bridge"
    ]
    done = direct("query", 'kind("source", deps(//a:l))', "--output", "jsonl", cwd=root)
    assert [json.loads(it) for it in done.lines] == [
        {"exact": False, "kind": "source file", "label": "//a:c++.c"}
    ]
    done = direct("query", "//a:all", "--output", "location", cwd=root)
    assert done.lines == ["a/BUILD:1:1: cc_library rule //a:l"]


def test_missing_labels_are_those_of_the_present_files(
    root: Root, run: Callable[..., Done], direct: Direct
) -> None:
    lib = FILES["lib/BUILD"]
    steps: list[tuple[str, str | None]] = [
        ("lib/nothing", ""),
        ("lib/nothing", None),
        ("lib/BUILD", lib + 'filegroup(name = "nothing")\n'),
        ("lib/BUILD", lib + "filegroup(\n"),
        ("lib/BUILD", lib),
        ("new/BUILD", 'filegroup(name = "n", srcs = ["//lib:nothing", "//app:none", ":a"])\n'),
        ("lib/sub/BUILD", ""),
        ("app/none", ""),
        ("lib/BUILD", None),
    ]
    counts = []
    for path, text in [(".sefgulaw.toml", ""), *steps]:
        root.delete(path) if text is None else root.replace(path, text)
        kept = run("query", "--missing", "//...", cwd=root)
        assert kept == direct("query", "--missing", "//...", cwd=root)
        assert kept == run("query", "--missing", "//...", cwd=root)
        counts.append(len(kept.lines))
    run("daemon", "stop", cwd=root)
    assert counts[:4] == [1, 0, 1, 0] and len(set(counts)) > 2
