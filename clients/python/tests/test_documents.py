"""What the documents show is run, and their tables are those of the package."""

from __future__ import annotations

import ast
import hashlib
import itertools
import json
import os
import re
import socket
import subprocess
import sys
from collections.abc import Callable
from pathlib import Path

import pytest
from conftest import CHECKOUT, Done, Root, Runner
from git_trees import commit
from sefgulaw import __version__
from sefgulaw.messages import FAULTS, REFUSALS

Make = Callable[..., Root]
Direct = Callable[..., Done]
CLIENTS = (CHECKOUT / "docs" / "CLIENTS.md").read_text()


@pytest.mark.parametrize("loads", [1, 40_000])
def test_the_client_of_the_page_runs(loader: str, tmp_path: Path, loads: int) -> None:
    code = re.findall(r"^```python\n(.*?)^```$", CLIENTS, re.M | re.S)
    assert len(code) == 1
    assert 20 <= len([line for line in code[0].splitlines() if line.strip()]) <= 25
    program = tmp_path / "client.py"
    program.write_text(code[0])
    done = subprocess.run(
        [sys.executable, str(program), loader, str(loads)],
        capture_output=True,
        text=True,
        timeout=120,
    )
    assert (done.returncode, done.stdout, done.stderr) == (0, "//app:src filegroup\n", "")


def test_the_table_of_faults_is_that_of_the_language() -> None:
    text = (CHECKOUT / "docs" / "LANGUAGE.md").read_text()
    section = text.split("\n## Faults\n")[1].split("\n## ")[0]
    cells = re.findall(r"\| (\d+) \| ([^|]+?) (?=\|)", section)
    assert {int(number): words for number, words in cells} == {
        number: fault.name for number, fault in FAULTS.items()
    }


def test_the_table_of_refusals_is_that_of_the_protocol() -> None:
    text = (CHECKOUT / "docs" / "PROTOCOL.md").read_text()
    section = text.split("\n## Refusals\n")[1].split("\n## ")[0]
    rows = re.findall(r"^\| (\d+) \| (.+) \|$", section, re.M)
    assert {int(number): words for number, words in rows} == REFUSALS


def test_the_page_names_the_refusals_of_single_changes() -> None:
    """A change is refused by 2, 7, 3 or 2, 4; the others are of the line."""
    text = (CHECKOUT / "docs" / "PROTOCOL.md").read_text()
    row = re.search(r"^\| `edit` \| (.*) \|$", text, re.M)
    assert row and row[1] == "10; then change by change 2, 7, 3 or 2, 4, with its place; then 8"
    assert "for the refusals 2, 3, 4 and 7." in CLIENTS
    assert "The refusals 1, 6, 8 and 10 are of the whole line" in CLIENTS


FAULTY = """load("//lib:g0.bzl", "joined")

filegrup(
    name = "src",
)

filegroup(
    name = "other",
    srcs = ["a.c"],


# The parts have to be strings.




joined(name = "j", parts = [1])
"""
"""A BUILD file with the three faults that docs/TOOLS.md shows."""

G0 = """def joined(name, parts):
    text = "-"

    # A part that is no string is a fault here.



    for part in parts:
        text = text + part
    native.filegroup(name = name + text)
"""


def shown(text: str, command: str) -> list[str]:
    """Returns the lines that a document shows of a command."""
    lines = re.split(r"^\$ ", text, flags=re.M)
    found = [it.split("\n") for it in lines if it.startswith(f"{command}\n")]
    assert found, command
    return list(itertools.takewhile(lambda it: it not in ("", "```"), found[0][1:]))


def packages_beside(number: int) -> dict[str, str]:
    """Returns so many packages without a fault."""
    return {f"p{at}/BUILD": f'filegroup(name = "f{at}")\n' for at in range(number)}


def test_the_faults_that_the_page_shows(tree: Make, direct: Direct) -> None:
    page = (CHECKOUT / "docs" / "TOOLS.md").read_text()
    files = {"app/BUILD": FAULTY, "lib/g0.bzl": G0, "lib/BUILD": "", "big/BUILD": "#" * 301_442}
    done = direct("check", cwd=tree({**files, **packages_beside(297)}))
    assert done.lines + done.words == shown(page, "sefgulaw check")
    assert done.status == 1


def test_the_walk_that_the_readme_shows(tree: Make, direct: Direct) -> None:
    page = (CHECKOUT / "README.md").read_text()
    good = (
        FAULTY.replace("filegrup", "filegroup")
        .replace('"a.c"],\n', '"a.c"],\n)')
        .split("\njoin")[0]
    )
    files = {"lib/g0.bzl": G0, "lib/BUILD": "", **packages_beside(298)}
    root = tree({**files, "app/BUILD": FAULTY.split("joined(name")[0]})
    done = direct("check", cwd=root)
    first, second = page.split("$ vi app/BUILD\n")
    assert done.lines + done.words == shown(first, "sefgulaw check")
    root.write("app/BUILD", good)
    done = direct("check", cwd=root)
    assert done.lines + done.words == shown(second, "sefgulaw check")
    assert (
        direct("targets", "//...", cwd=root).lines[:2]
        == shown(second, "sefgulaw targets //...")[:2]
    )


def test_the_members_of_json_are_those_of_the_page(tree: Make, direct: Direct) -> None:
    page = (CHECKOUT / "docs" / "TOOLS.md").read_text()
    faults, targets = page.split("### Faults")[1].split("### Targets")
    rows = re.findall(r"^\| (`[^|]*`) \|", faults, re.M)
    named = {name for row in rows for name in re.findall(r"`(\w+)`", row)}
    root = tree(
        {"app/BUILD": FAULTY, "lib/g0.bzl": G0, "lib/BUILD": "", "big/BUILD": "#" * 301_442}
    )
    root.write(
        b"\xff/BUILD", 'filegroup(name = "a", srcs = glob(["*2b*"]))\nfilegroup(name = "b")\n'
    )
    root.write(b"\xff/c++.c", "")
    root.write(b"\xfe/BUILD", "x = [\n1,\n2)\n")
    root.write(b"\xfe/c++.c", "")
    done = direct("check", "--output", "jsonl", cwd=root)
    found = {name.removesuffix("_bytes") for line in done.lines for name in json.loads(line)}
    assert found <= named and named - found <= {"end_line", "exact"}
    done = direct("targets", "--output", "jsonl", cwd=root)
    found = {name.removesuffix("_bytes") for line in done.lines for name in json.loads(line)}
    assert found == {"attrs", "kind", "label", "exact"}
    assert "one object with `attrs`, `kind` and `label`" in targets and '"exact": false' in targets


def recipes_of(title: str) -> list[str]:
    """Returns the recipes of one section of docs/TOOLS.md."""
    page = (CHECKOUT / "docs" / "TOOLS.md").read_text()
    section = page.split(f"\n## {title}\n")[1].split("\n## ")[0]
    return re.findall(r"^```sh\n(.*?)^```$", section, re.M | re.S)


def with_command(run: Runner, folder: Path) -> dict[str, str]:
    """Returns the variables with which a shell finds the command."""
    script = folder / "sefgulaw"
    script.write_text(f'#!/bin/sh\nexec {" ".join(run.words())} "$@"\n')
    script.chmod(0o755)
    environment = run.environment()
    environment["PATH"] = f"{folder}:{environment['PATH']}"
    return environment


GRAPH = {
    ".sefgulaw.toml": "",
    "app/BUILD": (
        'load("//lib:g0.bzl", "unit")\n'
        'filegroup(name = "bin", srcs = [":core", ":u_a"])\n'
        'filegroup(name = "core", srcs = ["//lib:base", "gone.c"])\n'
        'unit("u")\n'
    ),
    "lib/BUILD": 'filegroup(name = "base")\n',
    "lib/g0.bzl": 'def unit(n):\n    native.filegroup(name = n + "_a", srcs = ["//lib:base"])\n',
}
RECIPES = {
    "Recipes for build tools": [
        "app/BUILD:2:1: filegroup rule //app:bin\n"
        "app/BUILD:3:1: filegroup rule //app:core\n"
        "missing //app:gone.c\n"
        "app/BUILD:4:1: filegroup rule //app:u_a\n"
        "lib/BUILD:1:1: filegroup rule //lib:base\n",
        '["//app:bin",["//app:core","//app:u_a"]]\n'
        '["//app:core",["//lib:base","//app:gone.c"]]\n'
        '["//app:u_a",["//lib:base"]]\n'
        '["//lib:base",[]]\n',
        "//app:gone.c\n",
    ],
    "Recipes for editors": [
        "",
        "app/BUILD:3:1: filegroup rule //app:core\napp/BUILD:2:1: filegroup rule //app:bin\n",
    ],
    "Recipes for code search": ["app/BUILD:4 //app:u_a\n", "//app:BUILD\n"],
    "Recipes for somebody who asks why": [
        "//app:bin\n//app:core\n//lib:base\n",
        "app/BUILD:2:1: filegroup rule //app:bin\n"
        "app/BUILD:3:1: filegroup rule //app:core\n"
        "app/BUILD:4:1: filegroup rule //app:u_a\n"
        "lib/BUILD:1:1: filegroup rule //lib:base\n",
        "needs //app:core\nneeds //app:u_a\n",
    ],
}
CAUSES = r"""package //app  ran at line \d+, version 2; last at version 1; \d+ turns; value changed
  module //lib:g0.bzl  changed at version 2
    file lib/g0.bzl  changed by the edit of line \d+
"""


def test_the_other_recipes_run(tree: Make, run: Runner, tmp_path: Path) -> None:
    root = tree(GRAPH)
    commit(root)
    root.write("lib/BUILD", 'filegroup(name = "base", tags = ["x"])\n')
    environment = with_command(run, tmp_path)
    for title, expected in RECIPES.items():
        recipes = recipes_of(title)
        if title.endswith("why"):
            recipes = recipes[:3]
        assert shells(recipes, root, environment) == expected, title
    assert (root.path / "graph.dot").read_text().count(" -> ") == 4


def shells(recipes: list[str], root: Root, environment: dict[str, str]) -> list[str]:
    """Runs recipes, and returns what each prints."""
    printed = []
    for recipe in recipes:
        words = ["sh", "-ec", recipe]
        done = subprocess.run(words, cwd=root.path, env=environment, capture_output=True, text=True)
        assert done.returncode == 0, (recipe, done.stderr)
        printed.append(done.stdout)
    return printed


def test_each_kind_of_users_has_recipes_that_are_run() -> None:
    page = (CHECKOUT / "docs" / "TOOLS.md").read_text()
    titles = re.findall(r"^## (Recipes for .*)$", page, re.M)
    assert sorted(titles) == sorted([*RECIPES, "Recipes for CI"]) and len(titles) == 5


def test_the_recipes_for_causes_run(tree: Make, run: Runner, tmp_path: Path) -> None:
    root = tree(GRAPH)
    environment = {**with_command(run, tmp_path), "HOME": str(tmp_path)}
    begin, change, draw = recipes_of("Recipes for somebody who asks why")[3:]
    assert shells([begin], root, environment) == [""]
    root.write("lib/g0.bzl", GRAPH["lib/g0.bzl"].replace("_a", "_b"))
    (told,) = shells([change], root, environment)
    assert re.fullmatch(CAUSES, told)
    (told,) = shells([draw], root, environment)
    rows = [line.split("\t") for line in told.splitlines()]
    assert len(rows) == 3 and "package //app" in [key for _, _, key in rows]
    assert [int(turns) for turns, _, _ in rows] == sorted((int(it[0]) for it in rows), reverse=True)
    drawing = (root.path / "causes.svg").read_text()
    assert "package //app" in drawing and "edit of line" in drawing


def test_the_queries_and_changes_that_the_page_shows(tree: Make, direct: Direct) -> None:
    page = (CHECKOUT / "docs" / "TOOLS.md").read_text()
    core = 'filegroup(name = "core", srcs = ["//lib:base"])\n'
    files = {
        ".sefgulaw.toml": "",
        "app/BUILD": 'filegroup(name = "bin", srcs = [":core"])\n' + core,
        "lib/BUILD": 'filegroup(name = "base", srcs = ["b.c"])\n',
        "lib/b.c": "",
        "old/BUILD": 'filegroup(name = "tool")\n',
    }
    root = tree(files)
    commit(root)
    section = page.split("### Queries")[1]
    words = 'kind("filegroup", rdeps(//..., //lib:base)) except //lib/...'
    done = direct("query", words, "--output", "location", cwd=root)
    assert done.lines == shown(section, f"sefgulaw query '{words}' --output location")
    words = "somepath(//app:bin, //lib:base)"
    assert direct("query", words, cwd=root).lines == shown(section, f"sefgulaw query '{words}'")
    root.write("app/BUILD", files["app/BUILD"].replace('base"])', 'base"], tags = ["t"])'))
    root.write("old/BUILD", files["old/BUILD"] + "x = [\n")
    root.write("lib/b.c", "int b;\n")
    done = direct("changed", "HEAD", ".", cwd=root)
    assert done.status == 1
    expected = shown(page, "sefgulaw changed HEAD .")
    assert done.lines == expected


def test_the_recipes_for_ci_run(tree: Make, run: Runner, tmp_path: Path) -> None:
    recipes = recipes_of("Recipes for CI")
    tagged = 'filegroup(name = "one", tags = ["manual"])\nfilegroup(name = "two")\n'
    files = {"a/BUILD": tagged, "old/b/BUILD": tagged, "new/b/BUILD": tagged + "x = 1\n"}
    root = tree({**files, "a/BUILD": 'filegroup(name = "one")\n'})
    commit(root)
    root.write("a/BUILD", tagged)
    environment = with_command(run, tmp_path)
    printed = shells(recipes, root, environment)
    assert printed[:3] == ["", "", ""] and len(printed) == 5
    assert printed[3:] == ["//a:one\n//new/b:one\n//old/b:one\n", "//a:one\n//a:two\n"]
    assert (root.path / "faults.jsonl").read_text() == ""
    root.write("a/BUILD", "x = y\n")
    again = [
        subprocess.run(["sh", "-ec", it], cwd=root.path, env=environment, capture_output=True)
        for it in recipes[:2]
    ]
    assert [it.returncode for it in again] == [1, 0]
    assert '"code":4' in (root.path / "faults.jsonl").read_text()


def test_the_lines_that_the_page_shows_are_those_of_the_daemon(tree: Make, run: Runner) -> None:
    page = (CHECKOUT / "docs" / "DAEMON.md").read_text()
    sent = [json.loads(it) for it in re.findall(r"^> (.*)$", page, re.M)]
    sent[0]["params"]["version"] = __version__
    expected = [json.loads(it) for it in re.findall(r"^< (.*)$", page, re.M)]
    root = tree({"app/BUILD": 'filegroup(name = "src")\nfilegroup(name = "old")\n'})
    assert run("daemon", "start", cwd=root).status == 0
    name = hashlib.sha256(os.fsencode(root.path.resolve())).hexdigest()[:16]
    directory = run.runtime / "sefgulaw" / name
    assert {it.name for it in directory.iterdir()} >= {"socket", "lock", "pid", "log"}
    assert directory.stat().st_mode & 0o777 == 0o700
    number = os.open(directory, os.O_PATH)
    with socket.socket(socket.AF_UNIX, socket.SOCK_STREAM) as peer:
        peer.connect(f"/proc/self/fd/{number}/socket")
        peer.sendall("".join(json.dumps(it) + "\n" for it in sent).encode())
        stream = peer.makefile("rb")
        got = [json.loads(stream.readline()) for _ in range(3)]
        peer.sendall(b'{"id":3,"method":"watch","params":{"patterns":[]}}\n')
        marks = [json.loads(stream.readline()) for _ in range(3)]
        peer.sendall(b'{"cancel":3}\n')
        cancelled = json.loads(stream.readline())
        peer.sendall(b"nonsense\n")
        nonsense = json.loads(stream.readline())
    os.close(number)
    run("daemon", "stop", cwd=root)
    for end in (it["end"] for it in [*got, *expected] if "end" in it):
        end["version"] = 0
    assert got == [it for it in expected if "progress" not in it]
    assert marks[-1]["item"]["packages"] == ["app"]
    assert (cancelled["id"], cancelled["end"]["status"]) == (3, 130)
    assert "id" not in nonsense and nonsense["end"]["status"] == 2


def rows_of_modules() -> list[list[str]]:
    """Returns the modules of each row of the table in docs/ARCHITECTURE.md."""
    text = (CHECKOUT / "docs" / "ARCHITECTURE.md").read_text()
    section = text.split("\n## The command `sefgulaw`\n")[1]
    cells = re.findall(r"^\| (`[^|]*`) \|", section, re.M)
    return [re.findall(r"`(\w+)`", cell) for cell in cells]


def imported(path: Path) -> set[str]:
    """Returns the modules of the package that a file imports, by their first names."""
    found = set()
    for node in ast.walk(ast.parse(path.read_text())):
        if isinstance(node, ast.ImportFrom) and node.module == "sefgulaw":
            found |= {alias.name for alias in node.names if not alias.name.startswith("_")}
        elif isinstance(node, ast.ImportFrom) and node.module:
            parts = node.module.split(".")
            found |= {parts[1]} if parts[0] == "sefgulaw" else set()
    return found


def test_each_module_uses_only_those_above_it() -> None:
    package = CHECKOUT / "clients" / "python" / "sefgulaw"
    files: dict[str, list[Path]] = {}
    for path in package.rglob("*.py"):
        files.setdefault(path.relative_to(package).parts[0].removesuffix(".py"), []).append(path)
    rows = rows_of_modules()
    named = {name for row in rows for name in row}
    assert named == set(files) - {"__init__", "__main__"}
    above: set[str] = set()
    for row in rows:
        above |= set(row)
        for name in row:
            for path in files[name]:
                assert imported(path) <= above, path
