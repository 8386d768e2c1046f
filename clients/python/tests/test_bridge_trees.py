"""Trees of Bazel: when stand-ins are used, what is marked, and which faults stay."""

from __future__ import annotations

import json
import os
import time
from collections.abc import Callable

import pytest

from bridged_trees import all_targets, opened
from conftest import Done, Root, Runner
from sefgulaw.base import Base, Options

MakeTree = Callable[..., Root]
Direct = Callable[..., Done]

LIBRARY = """
load("@rules_cc//cc:defs.bzl", "cc_library")

package(default_visibility = ["//visibility:public"])

cc_library(
    name = "core",
    srcs = glob(["*.cc"]) + select({
        "//conditions:default": ["other.cc"],
        ":win": [":generated"],
    }),
    copts = COPTS + ["-O2"],
    linkstatic = True,
    visibility = ["//visibility:private"],
    deps = [
        ":base",
        "@absl//absl/strings",
        "//lib:c++",
    ],
)

load("//build:copts.bzl", "COPTS")
"""


def test_a_rule_is_shown_with_its_kind_and_attributes(tree: MakeTree, loader: str) -> None:
    root = tree(
        {
            "WORKSPACE": "",
            "a/BUILD": LIBRARY,
            "a/x.cc": "",
            "build/BUILD": "",
            "build/copts.bzl": 'COPTS = ["-Wall"]\n',
        }
    )
    base = opened(root, loader)
    (target,) = base.targets("a")
    base.close()
    assert (target.label, target.kind) == ("//a:core", "cc_library")
    assert target.attrs == {
        "copts": ["-Wall", "-O2"],
        "deps": ["//a:base", "@absl//absl/strings:strings", "//lib:c__x2b__x2b"],
        "linkstatic": "True",
        "srcs": ["//a:x.cc", "//a:other.cc", "//a:generated"],
        "visibility": ["//visibility:private"],
    }


def test_answers_with_stand_ins_are_marked(tree: MakeTree, direct: Direct) -> None:
    root = tree(
        {
            "MODULE.bazel": "",
            "a/BUILD": 'cc_library(name = "c++")\n',
            "b/BUILD": 'filegroup(name = "b")\n',
        }
    )
    done = direct("targets", "--output", "jsonl", cwd=root.path)
    assert done.status == 0
    assert [json.loads(line) for line in done.lines] == [
        {"attrs": {}, "exact": False, "kind": "cc_library", "label": "//a:c++"},
        {"attrs": {}, "kind": "filegroup", "label": "//b:b"},
    ]
    words = "sefgulaw: 1 package of this answer rests on stand-ins, see sefgulaw bridge"
    assert done.words == [words]


def test_a_daemon_follows_the_tree(tree: MakeTree, run: Runner) -> None:
    root = tree({"WORKSPACE": "", "a/BUILD": 'cc_library(name = "x")\n'})
    words = "sefgulaw: 1 package of this answer rests on stand-ins, see sefgulaw bridge"
    done = run("targets", cwd=root)
    assert (done.lines, done.words) == (["//a:x cc_library"], [words])
    root.write("a/BUILD", 'cc_library(name = "x")\ncc_libary(name = "y")\n')
    done = run("check", cwd=root)
    assert done.lines == ["a/BUILD:2:1: error: name is not bound: cc_libary [4]"]
    root.write("a/BUILD", 'filegroup(name = "x")\n')
    done = run("targets", cwd=root)
    assert (done.lines, done.words) == (["//a:x filegroup"], [])
    root.write("a/BUILD", 'cc_test(name = "x")\n')
    assert run("targets", cwd=root).lines == ["//a:x cc_test"]
    root.delete("WORKSPACE")
    done = run("check", cwd=root)
    assert done.lines == ["a/BUILD:1:1: error: name is not bound: cc_test [4]"]
    root.write("WORKSPACE", "")
    assert run("targets", cwd=root).lines == ["//a:x cc_test"]


@pytest.mark.parametrize("marker", ["MODULE.bazel", "REPO.bazel", "WORKSPACE.bazel", "WORKSPACE"])
def test_each_marker_makes_a_bazel_tree(tree: MakeTree, loader: str, marker: str) -> None:
    base = opened(tree({marker: "", "BUILD": 'cc_library(name = "a")\n'}), loader)
    assert [it.kind for it in all_targets(base)] == ["cc_library"]
    base.close()


def test_in_another_tree_there_are_no_stand_ins(tree: MakeTree, loader: str) -> None:
    root = tree({"BUILD": 'cc_library(name = "a")\n', "a/WORKSPACE": ""})
    base = opened(root, loader)
    assert base.store.raw("") == b'{"fault":{"code":4,"line":1,"path":"BUILD"},"name":""}'
    assert not base.bridge.is_bridged("")
    base.close()
    base = opened(root, loader, "always")
    assert [it.kind for it in all_targets(base)] == ["cc_library"]
    base.close()


def test_never_means_never(tree: MakeTree, loader: str) -> None:
    root = tree({"WORKSPACE": "", "BUILD": 'cc_library(name = "a")\n'})
    base = opened(root, loader, "never")
    assert base.store.raw("") == b'{"fault":{"code":4,"line":1,"path":"BUILD"},"name":""}'
    base.close()


def test_the_tree_by_its_own_name(tree: MakeTree, loader: str) -> None:
    text = 'load("@me//m:x.bzl", "X")\ncc_library(name = "a", deps = ["@me//b", "@you//b"] + X)\n'
    files = {
        "WORKSPACE": '# One.\nworkspace(name = "me")\n',
        "BUILD": text,
        "m/BUILD": "",
        "m/x.bzl": 'X = ["@me//c:d"]\n',
    }
    root = tree(files)
    base = opened(root, loader)
    (target,) = base.targets("")
    assert target.attrs["deps"] == ["//b:b", "@you//b:b", "//c:d"]
    root.write("WORKSPACE", 'workspace(name = "you")\n')
    base.refresh()
    base.load(base.names())
    (target,) = base.targets("")
    assert target.attrs["deps"] == ["@me//b:b", "//b:b"]
    base.close()


def test_a_misspelt_rule_stays_a_fault_with_its_name(tree: MakeTree, direct: Direct) -> None:
    text = '# One.\ncc_library(name = "a")\n\ncc_libary(\n    name = "b",\n)\n'
    root = tree({"WORKSPACE": "", "BUILD": text, "a/BUILD": 'my_rule(name = "x")\n'})
    root.write(".sefgulaw.toml", 'rules = ["my_rule"]\n')
    done = direct("check", cwd=root.path)
    assert done.status == 1
    assert done.lines == ["BUILD:4:1: error: name is not bound: cc_libary [4]"]


def test_each_fault_of_a_file_is_shown(tree: MakeTree, direct: Direct) -> None:
    text = (
        'cc_libary(name = "a")\n'
        'X = cc_tset(\n    name = "b",\n)\n'
        'cc_library(name = "c", copts = X)\n'
        'cc_library(name = "e")\ncc_library(name = "e")\n\n'
        'cc_library(\n    name = "d".index("e"),\n)\n'
    )
    done = direct("check", cwd=tree({"WORKSPACE": "", "BUILD": text}))
    assert done.lines == [
        "BUILD:1:1: error: name is not bound: cc_libary [4]",
        "BUILD:2:5: error: name is not bound: cc_tset [4]",
        "BUILD:7:1: error: name of a target is used twice [20]",
        "BUILD:9:1: error: fail was called [24]",
    ]


def test_a_name_used_twice_is_a_fault_at_its_own_line(tree: MakeTree, direct: Direct) -> None:
    text = 'licenses(["notice"])\n\ncc_library(name = "a")\n\ncc_test(\n    name = "a",\n)\n'
    text += 'load("@x//:y.bzl", "z")\n'
    root = tree({"WORKSPACE": "", "BUILD": text})
    done = direct("check", cwd=root.path)
    assert done.lines == ["BUILD:5:1: error: name of a target is used twice [20]"]


def test_a_fault_in_a_stand_in_is_shown_at_the_statement(tree: MakeTree, loader: str) -> None:
    text = 'cc_library(name = "a")\nX = "a"\n\ncc_library(\n    name = X.index("b"),\n)\n'
    base = opened(tree({"WORKSPACE": "", "BUILD": text}), loader)
    assert base.store.raw("") == b'{"fault":{"code":24,"line":4,"path":"BUILD"},"name":""}'
    base.close()


def test_what_cannot_be_rewritten_is_said(tree: MakeTree, direct: Direct) -> None:
    text = 'load("@x//:y.bzl", "z")\n\nz(name = "a", value = 1.5)\n'
    root = tree({"WORKSPACE": "", "BUILD": text})
    done = direct("check", cwd=root.path)
    words = "cannot be rewritten for the loader: a value of type float"
    assert done.lines == [f"BUILD:3:1: error: {words} [not rewritten]"]


def test_what_is_mended_is_exact_again(tree: MakeTree, loader: str) -> None:
    files = {
        "WORKSPACE": "",
        "a/BUILD": 'load("//m:x.bzl", "f")\nf(name = "t")\n',
        "m/BUILD": "",
        "m/x.bzl": "f = rule()\n",
    }
    root = tree(files)
    base = opened(root, loader)
    assert base.bridge.is_bridged("a")
    assert [it.kind for it in all_targets(base)] == ["f"]
    root.write("m/x.bzl", "def f(name):\n    native.filegroup(name = name)\n")
    base.refresh()
    base.load(base.names())
    assert not base.bridge.is_bridged("a")
    assert [it.kind for it in all_targets(base)] == ["filegroup"]
    root.write("a/BUILD", 'load("//m:x.bzl", "f")\nf(name = "t")\ncc_test(name = "u")\n')
    base.refresh()
    base.load(base.names())
    assert base.bridge.is_bridged("a")
    assert [it.kind for it in all_targets(base)] == ["filegroup", "cc_test"]
    base.close()


def test_a_module_is_mended_that_a_file_with_windows_line_ends_loads(
    tree: MakeTree, loader: str
) -> None:
    files = {
        "WORKSPACE": 'workspace(name = "me")\n',
        "a/BUILD": 'load(\r\n    "@me//m:x.bzl",\r\n    "X",\r\n)\r\ncc_test(name = X)\r\n',
        "m/BUILD": "",
        "m/x.bzl": "X = rule()\n",
    }
    root = tree(files)
    base = opened(root, loader)
    assert all_targets(base) == []
    root.write("m/x.bzl", 'X = "t"\n')
    base.refresh()
    base.load(base.names())
    assert [it.label for it in all_targets(base)] == ["//a:t"]
    base.close()


def test_a_module_whose_function_fails_is_left_out(tree: MakeTree, loader: str) -> None:
    files = {
        "WORKSPACE": "",
        "a/BUILD": 'load("//m:x.bzl", "f")\nload("//m:z.bzl", "Z")\nf(name = "t", v = Z)\n',
        "m/BUILD": "",
        "m/x.bzl": 'load(":y.bzl", "g")\ndef f(name, v):\n    g(name)\n',
        "m/y.bzl": "def g(name):\n    native.cc_library(name = name)\n",
        "m/z.bzl": 'Z = "kept"\n',
    }
    base = opened(tree(files), loader)
    (target,) = base.targets("a")
    assert (target.kind, target.attrs) == ("f", {"v": "kept"})
    base.close()


def test_a_module_that_takes_all_memory_ends_nothing(tree: MakeTree, loader: str) -> None:
    big = "".join(f"x{number} = [0] * 65536\n" for number in range(600))
    files = {
        "WORKSPACE": "",
        "a/BUILD": 'load("@x//:y.bzl", "z")\nload("//m:x.bzl", "f")\nf(name = "t")\n',
        "b/BUILD": 'cc_library(name = "b")\n',
        "m/BUILD": "",
        "m/x.bzl": big,
    }
    base = opened(tree(files), loader)
    assert [it.kind for it in all_targets(base)] == ["f", "cc_library"]
    base.close()


def test_a_build_file_that_takes_all_memory_once_it_is_rewritten(
    tree: MakeTree, direct: Direct, loader: str
) -> None:
    big = 'cc_library(name = "a")\n' + "".join(f"x{it} = [0] * 65536\n" for it in range(600))
    root = tree({"WORKSPACE": "", "a/BUILD": big, "b/BUILD": 'cc_library(name = "b")\n'})
    done = direct("check", cwd=root)
    assert done.lines == ["a/BUILD:1:1: error: takes over 256 MiB to load [memory]"]
    base = opened(root, loader)
    assert [it.label for it in all_targets(base)] == ["//b:b"]
    root.write("a/BUILD", 'cc_library(name = "a")\n')
    base.refresh()
    base.load(base.names())
    assert [it.label for it in all_targets(base)] == ["//a:a", "//b:b"]
    base.close()


@pytest.mark.long
def test_a_module_that_takes_too_long_is_waited_for_once(tree: MakeTree, loader: str) -> None:
    lines = "def f(name):\n    pass\n\ndef g():\n    x = [0] * 65536\n"
    lines += "    for i in range(60000):\n        y = x * 1\n\ng()\n"
    files = {
        "WORKSPACE": "",
        "a/BUILD": 'load("@x//:y.bzl", "z")\nload("//m:x.bzl", "f")\nf(name = "t")\n',
        "m/BUILD": "",
        "m/x.bzl": lines,
    }
    root = tree(files)
    options = Options(loader, deadline=1.0)
    base = Base.open(os.fsencode(root.path), options)
    base.refresh()
    base.load(base.names())
    assert [it.kind for it in all_targets(base)] == ["f"]
    begun = time.monotonic()
    root.write("a/x.c", "")
    base.refresh()
    base.load(base.names())
    assert time.monotonic() - begun < 0.9
    root.write("m/x.bzl", lines.replace("60000", "6"))
    base.refresh()
    base.load(base.names())
    assert all_targets(base) == []
    base.close()


def test_a_second_build_file_comes_and_goes(tree: MakeTree, loader: str) -> None:
    root = tree({"WORKSPACE": "", "a/BUILD": 'cc_library(name = "t")\n'})
    base = opened(root, loader)
    root.write("a/BUILD.bazel", "")
    base.refresh()
    base.load(base.names())
    assert all_targets(base) == []
    root.delete("a/BUILD.bazel")
    base.refresh()
    base.load(base.names())
    assert [it.kind for it in all_targets(base)] == ["cc_library"]
    base.close()


def test_windows_line_ends_and_bytes_over_127(tree: MakeTree, loader: str) -> None:
    text = '# gr\xfc\xdf\r\ncc_library(\r\n    name = "a",\r\n    note = "gr\xfc\xdf",\r\n)\r\n'
    base = opened(tree({"WORKSPACE": "", "BUILD": text.encode("utf-8")}), loader)
    (target,) = base.targets("")
    assert target.attrs == {"note": "gr__xc3__xbc__xc3__x9f"}
    base.close()


def test_the_command_bridge(tree: MakeTree, direct: Direct) -> None:
    files = {
        "WORKSPACE": "",
        "a/BUILD": 'load("@x//:y.bzl", "m", "V")\nm(name = "t", copts = V)\nm("u")\n',
        "b/BUILD": "",
        "c/BUILD": "cc_libary()\n",
    }
    root = tree(files)
    done = direct("bridge", cwd=root.path)
    assert done.status == 0
    assert done.lines == [
        "2 of 3 packages load with stand-ins, 1 as they are; m 1; 1 load of other repositories",
        "taken as empty, since nothing is known of them: V 1",
        "called without a name, so what they declare is not known: m 1",
        "not replaced: c/BUILD:1: name is not bound: cc_libary [4]",
    ]
    done = direct("bridge", "--json", cwd=root.path)
    assert [json.loads(line) for line in done.lines] == [
        {
            "file": "a/BUILD",
            "loads": [{"label": "@x//:y.bzl", "line": 1}],
            "nameless": [{"line": 3, "name": "m"}],
            "package": "a",
            "rules": {"m": 1},
            "state": "stand-ins",
            "values": [{"line": 2, "name": "V"}],
        },
        {
            "fault": {
                "code": 4,
                "file": "c/BUILD",
                "line": 1,
                "message": "name is not bound: cc_libary",
            },
            "file": "c/BUILD",
            "loads": [],
            "nameless": [],
            "package": "c",
            "rules": {},
            "state": "fault",
            "values": [],
        },
    ]
