"""Man pages, installing, and the Debian packages in a fresh root."""

from __future__ import annotations

import argparse
import ast
import os
import re
import subprocess
import sys
import tarfile
import tomllib
from collections.abc import Iterator
from dataclasses import replace
from pathlib import Path

import pytest
from fresh_root import REPOSITORY, FreshRoot, system
from sefgulaw import __version__
from sefgulaw.allocator import LIBRARY
from sefgulaw.cli.words import parser
from sefgulaw.roots import ROOT_FILES
from sefgulaw.settings import Settings, read_settings

PAGES = REPOSITORY / "packaging" / "man"
PACKAGE = REPOSITORY / "clients" / "python" / "sefgulaw"
OPTIONAL = {
    "tqdm": "python3-tqdm",
    "argcomplete": "python3-argcomplete",
    "pylsp_jsonrpc": "python3-pylsp-jsonrpc",
}
NEEDED = {"lark": "python3-lark"}


def page(name: str) -> str:
    """Returns the source of a man page."""
    return (PAGES / f"{name}.scd").read_text()


def options_of_page(name: str) -> set[str]:
    """Returns the options that the section OPTIONS of a man page names."""
    section = re.search(r"^# OPTIONS\n(.*?)(?=^# |\Z)", page(name), re.M | re.S)
    assert section, name
    lines = [line for line in section[1].split("\n") if line.startswith("*-")]
    return {word for line in lines for word in re.findall(r"\*(--?[\w-]+)\*", line)}


def options_of(words: argparse.ArgumentParser) -> set[str]:
    """Returns the options that a parser takes."""
    return {word for action in words._actions for word in action.option_strings}


def commands() -> dict[str, argparse.ArgumentParser]:
    """Returns the commands with their parsers."""
    for action in parser()._actions:
        if isinstance(action, argparse._SubParsersAction):
            return dict(action.choices)
    raise AssertionError("the command has no commands")


def test_each_command_has_a_man_page_with_its_options() -> None:
    common = options_of(parser())
    assert options_of_page("sefgulaw.1") == common
    own = {"sefgulaw-loader.1", "sefgulaw.1", "sefgulaw.toml.5"}
    pages = {path.name[: -len(".scd")] for path in PAGES.glob("*.scd")} - own
    assert pages == {f"sefgulaw-{name}.1" for name in commands()}
    for name, words in commands().items():
        assert options_of_page(f"sefgulaw-{name}.1") == options_of(words) - common, name
        assert f"*sefgulaw-{name}*(1)" in page("sefgulaw.1")


def test_the_loaders_man_page_has_its_options(loader: str) -> None:
    words = [[loader, "--help"], [loader, "run", "--help"]]
    asked = [subprocess.run(it, capture_output=True, text=True) for it in words]
    told = "".join(it.stdout + it.stderr for it in asked)
    expected = {"-h", "--help", "--version", *re.findall(r"--[a-z-]+", told)}
    assert options_of_page("sefgulaw-loader.1") == expected


def test_the_loader_tells_its_version(loader: str) -> None:
    done = subprocess.run([loader, "--version"], capture_output=True, text=True)
    assert done.stdout == f"sefgulaw-loader {__version__}\n"
    assert (done.returncode, done.stderr) == (0, "")


def test_the_settings_page_has_all_settings() -> None:
    named = set(re.findall(r"^\*([\w\\]+)\* = ", page("sefgulaw.toml.5"), re.M))
    fields = set(Settings.__dataclass_fields__) - {"ignored"}
    assert {name.replace("\\", "") for name in named} == fields
    assert all(f"*{name}*" in page("sefgulaw.1") for name in ROOT_FILES)


def test_the_documents_show_all_settings_and_words(tmp_path: Path) -> None:
    text = (REPOSITORY / "docs" / "TOOLS.md").read_text()
    shown = re.search(r"^```toml\n(.*?)^```$", text, re.M | re.S)
    assert shown
    (tmp_path / ".sefgulaw.toml").write_text(shown[1])
    found = read_settings(os.fsencode(tmp_path))
    assert found.ignore == ("third_party/x",) and found.rules == ("my_rule",)
    default = Settings()
    assert replace(found, ignore=(), rules=(), ignored=default.ignored) == default
    assert tomllib.loads(shown[1]).keys() == set(Settings.__dataclass_fields__) - {"ignored"}
    words = {word for one in commands().values() for word in options_of(one)} | options_of(parser())
    for word in words - {"-h", "--help", "--quiet"}:
        assert f"`{word}" in text or f" {word}`" in text, word
    for name in commands():
        assert f"`sefgulaw {name}" in text, name


def test_what_the_package_imports_is_declared() -> None:
    modules = set()
    for path in PACKAGE.rglob("*.py"):
        for node in ast.walk(ast.parse(path.read_text())):
            if isinstance(node, ast.Import):
                modules |= {alias.name.split(".")[0] for alias in node.names}
            elif isinstance(node, ast.ImportFrom) and node.module and not node.level:
                modules.add(node.module.split(".")[0])
    others = modules - set(sys.stdlib_module_names) - {"sefgulaw"}
    assert others <= {*OPTIONAL, *NEEDED}
    control = (REPOSITORY / "packaging" / "debian" / "control").read_text()
    needed = (REPOSITORY / "tools" / "install-packages").read_text()
    for module in others:
        package = OPTIONAL.get(module) or NEEDED[module]
        where = "Depends:(?:\n .*)*" if module in NEEDED else "(?:Recommends|Suggests):.*"
        assert re.search(rf"{where}{package}", control)
        assert re.search(rf"^run +{package} +module:{module}$", needed, re.M)


def test_the_allocator_of_several_workers_is_recommended() -> None:
    control = (REPOSITORY / "packaging" / "debian" / "control").read_text()
    assert re.search(r"^Recommends:.*\blibjemalloc2\b", control, re.M)
    needed = (REPOSITORY / "tools" / "install-packages").read_text()
    for group in ("run", "test"):
        assert re.search(rf"^{group} +libjemalloc2 +library:{re.escape(LIBRARY)}$", needed, re.M)


def staged(*words: str) -> subprocess.CompletedProcess[str]:
    """Runs a target of make in the repository, with the system's own programs."""
    return subprocess.run(
        ["make", *words],
        cwd=REPOSITORY,
        env=system(PATH=os.environ["PATH"]),
        stdin=subprocess.DEVNULL,
        capture_output=True,
        text=True,
        timeout=600,
    )


def make(*words: str) -> str:
    """Runs a target of make that has to end well."""
    done = staged(*words)
    assert done.returncode == 0, f"{words}\n{done.stdout}\n{done.stderr}"
    return done.stdout


def small_tree(place: Path) -> None:
    """Makes a tree of one package with a fault and one without."""
    (place / "good").mkdir(parents=True)
    (place / "bad").mkdir()
    (place / "good" / "BUILD").write_text('filegroup(name = "src", srcs = glob(["*.c"]))\n')
    (place / "good" / "c++.c").write_text("")
    (place / "bad" / "BUILD").write_text('filegrup(name = "src")\n')


FAULT = "bad/BUILD:1:1: error: name is not bound: filegrup [4]\n"
TARGETS = "//good:src filegroup\n"


def test_without_a_loader_nothing_is_installed(tmp_path: Path) -> None:
    done = staged("install", f"DESTDIR={tmp_path}", "LOADER=/nowhere/loader")
    assert done.returncode != 0
    assert "no loader at /nowhere/loader" in done.stderr
    assert not list(tmp_path.iterdir())


@pytest.mark.long
def test_install_and_uninstall(tmp_path: Path, loader: str) -> None:
    tree, top = tmp_path / "tree", tmp_path / "top"
    small_tree(tree)
    where = (f"PREFIX={top}", f"LOADER={loader}")
    make("install", *where)
    done = subprocess.run(
        [str(top / "bin" / "sefgulaw"), "check", "--no-daemon", "-C", str(tree)],
        env=system(),
        capture_output=True,
        text=True,
    )
    assert (done.returncode, done.stdout) == (1, FAULT)
    assert (top / "share/man/man5/sefgulaw.toml.5").exists()
    make("uninstall", *where)
    assert not [path for path in top.rglob("*") if not path.is_dir() or path.name == "sefgulaw"]


@pytest.mark.long
def test_the_tar_file_runs_where_it_is_unpacked(tmp_path: Path, loader: str) -> None:
    tree = tmp_path / "tree"
    small_tree(tree)
    files = make("dist", f"LOADER={loader}").split()
    packed = next(REPOSITORY / name for name in files if name.endswith(".tar.gz"))
    assert any(name.endswith("-py3-none-any.whl") for name in files)
    with tarfile.open(packed) as archive:
        archive.extractall(tmp_path)
    script = next(tmp_path.glob("sefgulaw-*/bin/sefgulaw"))
    done = subprocess.run(
        [str(script), "targets", "--no-daemon", "-C", str(tree), "//good"],
        env=system(),
        capture_output=True,
        text=True,
    )
    assert (done.returncode, done.stdout) == (0, TARGETS)


@pytest.fixture(scope="module")
def packages(loader: str) -> list[Path]:
    """The two Debian packages of the repository as it is."""
    files = make("deb", f"LOADER={loader}").split()
    return [REPOSITORY / name for name in files if name.endswith(".deb")]


@pytest.fixture(scope="module")
def root(packages: list[Path], tmp_path_factory: pytest.TempPathFactory) -> Iterator[FreshRoot]:
    """A fresh root with Python and man, and the packages of the repository in /mnt."""
    place = tmp_path_factory.mktemp("fresh")
    shared = place / "shared"
    shared.mkdir()
    shared.chmod(0o755)
    for package in packages:
        (shared / package.name).write_bytes(package.read_bytes())
    small_tree(shared / "tree")
    yield FreshRoot(place / "root", shared, ["python3", "python3-lark", "man-db"])


@pytest.mark.long
def test_lintian_has_no_errors(packages: list[Path]) -> None:
    changes = next(packages[0].parent.glob("*.changes"))
    done = subprocess.run(
        ["lintian", "--allow-root", "--fail-on", "error", str(changes)],
        env=system(),
        capture_output=True,
        text=True,
        timeout=300,
    )
    assert done.returncode == 0, done.stdout + done.stderr
    assert not re.search(r"^E:", done.stdout, re.M)


@pytest.mark.long
@pytest.mark.timeout(1800)
def test_the_packages_work_in_a_fresh_root_and_leave_nothing(root: FreshRoot) -> None:
    before = root.files()
    root.must("sh", "-c", "dpkg -i /mnt/*.deb")
    done = root.run("sefgulaw", "check", "-C", "/mnt/tree")
    assert (done.returncode, done.stdout) == (1, FAULT), done.stderr
    done = root.run("sefgulaw", "targets", "-C", "/mnt/tree", "//good")
    assert (done.returncode, done.stdout, done.stderr) == (0, TARGETS, "")
    root.must("useradd", "--create-home", "person")
    done = root.run("su", "person", "-c", "sefgulaw check --no-daemon -C /mnt/tree")
    assert (done.returncode, done.stdout) == (1, FAULT), done.stderr
    for name in sorted(path.name[: -len(".scd")] for path in PAGES.glob("*.scd")):
        found = root.must("man", "--where", name.rpartition(".")[0]).strip()
        shown = root.run("man", "--warnings", "--local-file", found, MANROFFOPT="-ww")
        assert (shown.returncode, shown.stderr) == (0, ""), name
        assert "sefgulaw" in shown.stdout
    root.must("sefgulaw", "daemon", "stop", "-C", "/mnt/tree")
    root.must("userdel", "--remove", "person")
    root.must("dpkg", "--purge", "sefgulaw", "sefgulaw-loader")
    accounts = ("passwd", "group", "shadow", "gshadow", "subuid", "subgid")
    own = {f"etc/{name}{mark}" for name in accounts for mark in ("", "-")}
    own |= {"root/.cache", "root/.cache/sefgulaw"}
    left = {path for path in root.files() - before if path not in own}
    assert not {path for path in left if not path.startswith("root/.cache/sefgulaw/")}
