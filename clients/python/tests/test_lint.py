"""Names that nothing binds, in functions that nothing calls."""

from __future__ import annotations

import json
from collections.abc import Callable

from conftest import Done, Root

Make = Callable[..., Root]
Direct = Callable[..., Done]

MODULE = """load(":n.bzl", "loaded")

GLOBAL = 1

def used(name, tags = []):
    own = [x for x in tags if x]
    for a, b in []:
        own = own + [a, b]
    native.filegroup(name = name, tags = own + loaded)

def unused():
    local = used
    return local(GLOBAL, missing) + missing + len(other)
"""


def test_each_unbound_name_is_a_warning_once(tree: Make, direct: Direct) -> None:
    files = {
        ".sefgulaw.toml": "",
        "a/BUILD": 'load("//l:m.bzl", "used")\nused("x")\n',
        "l/BUILD": "",
        "l/m.bzl": MODULE,
        "l/n.bzl": 'loaded = ["t"]\n',
    }
    root = tree(files)
    assert direct("check", cwd=root).words == ["sefgulaw: no faults in 2 packages"]
    done = direct("check", "--names", cwd=root)
    assert done.lines == [
        "l/m.bzl:13:26: warning: name is not bound: missing [unbound]",
        "l/m.bzl:13:51: warning: name is not bound: other [unbound]",
    ]
    assert (done.status, done.words) == (0, ["sefgulaw: no faults in 2 packages, 2 warnings"])
    found = json.loads(direct("check", "--names", "--output", "jsonl", cwd=root).lines[0])
    assert (found["severity"], found["code"], found["end_column"]) == ("warning", "unbound", 33)
    root.write("a/BUILD", files["a/BUILD"] + "y = z\n")
    done = direct("check", "--names", cwd=root)
    assert done.status == 1 and len(done.lines) == 3
    root.write("WORKSPACE", "")
    assert len(direct("check", "--names", "--stand-ins", "auto", cwd=root).lines) == 1
