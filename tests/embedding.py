#!/usr/bin/env python3
"""Does what docs/EMBEDDING.md says, in a folder outside the checkout, and compares what is printed. Run it by
`make embedding`.

The folder has a repository and, beside it, a link `sefgulaw` to this checkout. The repository gets the files as the page
shows them. Then the page's commands are run in it, in their order, and the last of them has to print what the page shows.
Before that, `tools/embed` places crates in repositories that have some already, that allow too little, and twice.
"""
import argparse
import os
import re
import subprocess
import sys
import tempfile

TOP = os.path.dirname(os.path.dirname(os.path.abspath(__file__)))
PAGE = os.path.join(TOP, "docs/EMBEDDING.md")
# The files that the page shows, each with its place in the other repository.
FILES = {"crates.txt": "crates.txt", "viewer/src/main.rt": "crates/viewer/src/main.rt"}
BLOCK = r"```(\w+)\n(.*?)^```$"


def blocks(text, language):
    """Returns the blocks of a page that are in a language."""
    return [it[1] for it in re.findall(BLOCK, text, re.M | re.S) if it[0] == language]


def file_in(text, path):
    """Returns the block that stands behind the sentence that ends with the name of a file."""
    found = re.findall(rf"`{re.escape(path)}`:\n\n{BLOCK}", text, re.M | re.S)
    if len(found) != 1:
        raise SystemExit(f"docs/EMBEDDING.md shows {path} {len(found)} times")
    return found[0][1]


def write(path, text):
    os.makedirs(os.path.dirname(path), exist_ok=True)
    with open(path, "w", encoding="utf-8") as file:
        file.write(text)


def link_checkout(room, crates):
    """Makes the checkout that the page's commands name: this one, or this one with the crates of another."""
    link = os.path.join(room, "sefgulaw")
    if crates is None:
        os.symlink(TOP, link)
        return
    os.mkdir(link)
    os.symlink(os.path.join(TOP, "tools"), os.path.join(link, "tools"))
    for name in ("crates", "crates.txt", "HANDLES"):
        os.symlink(os.path.join(os.path.abspath(crates), name), os.path.join(link, name))


def made(room, name, files):
    """Makes a repository of some files."""
    repository = os.path.join(room, name)
    os.makedirs(os.path.join(repository, ".git"))
    for path, text in files.items():
        write(os.path.join(repository, path), text)
    return repository


def placed(room, repository, *crates):
    """Places crates. Returns the status and what was said, and the files that the repository has then, but for `out`."""
    words = [os.path.join(room, "sefgulaw/tools/embed"), repository, *crates]
    done = subprocess.run(words, capture_output=True, text=True)
    found = {}
    for folder, folders, names in os.walk(repository):
        folders[:] = [it for it in folders if it not in ("out", ".git")]
        for name in names:
            with open(os.path.join(folder, name), encoding="utf-8") as file:
                found[os.path.relpath(os.path.join(folder, name), repository)] = file.read()
    return done.returncode, done.stdout + done.stderr, found


def wrong_places(room):
    """Yields where `tools/embed` does not do what the page says of it."""
    own = {"crates.txt": "mine: base_types\n", "crates/mine/src/lib.rt": "// mine\n"}
    for name, more, said in (
        ("named", {"crates/base_types/src/lib.rt": "// another\n"}, "has a crate of this name"),
        ("listed", {"crates.txt": "base_types:\nmine: base_types\n"}, "has a crate of this name"),
        (
            "strict",
            {"HANDLES": "Handles allowed: Wait.\n"},
            "HANDLES allows too little: these crates need Threads and Wait",
        ),
    ):
        files = {**own, **more}
        status, words, found = placed(room, made(room, name, files), "labels")
        if status != 1 or said not in words or found != files:
            yield f"{name}: status {status}, {words!r}, or files are changed"
    repository = made(room, "twice", own)
    status, words, first = placed(room, repository, "shelf", "labels")
    if status or not words.startswith("embed: 3 crates are placed, of which "):
        yield f"three crates: status {status}, {words!r}"
    if (
        not first["crates.txt"].endswith("# end: crates of sefgulaw\nmine: base_types\n")
        or "HANDLES" not in first
    ):
        yield "three crates: another crates.txt, or no HANDLES"
    os.unlink(os.path.join(repository, "crates/labels/src/lib.rt"))
    status, words, second = placed(room, repository, "shelf", "labels")
    if status or second != first:
        yield f"again: status {status}, {words!r}, or other files"
    status, words, third = placed(room, repository, "base_types")
    folders = {path.split("/")[1] for path in third if path.startswith("crates/")}
    if status or folders != {"mine", "base_types"} or third["crates.txt"].count(":") != 4:
        yield f"one crate: status {status}, {words!r}, folders {folders}"


def run(room, text):
    """Runs the page's commands in a new repository. Returns what the last block of them prints, or what went wrong."""
    repository = made(room, "viewer", {path: file_in(text, shown) for shown, path in FILES.items()})
    printed = ""
    for block in blocks(text, "sh"):
        done = subprocess.run(["sh", "-ec", block], cwd=repository, capture_output=True, text=True)
        printed = done.stdout
        if done.returncode:
            log = os.path.join(repository, "crates/viewer/build.log")
            if os.path.exists(log):
                with open(log, errors="replace") as file:
                    sys.stderr.writelines(file.readlines()[-40:])
            raise SystemExit(f"{block}{done.stderr}ended with status {done.returncode}")
    return printed


def main():
    words = argparse.ArgumentParser(
        description=__doc__, formatter_class=argparse.RawDescriptionHelpFormatter
    )
    words.add_argument("--crates", metavar="CHECKOUT", help="take the crates of another checkout")
    found = words.parse_args()
    with open(PAGE, encoding="utf-8") as file:
        text = file.read()
    wanted = blocks(text, "text")[-1]
    with tempfile.TemporaryDirectory(prefix="embedding-") as room:
        link_checkout(room, found.crates)
        wrong = list(wrong_places(room))
        if wrong:
            print("\n".join(wrong))
            return 1
        printed = run(room, text)
    if printed != wanted:
        print(f"the page shows\n{wanted}and the program prints\n{printed}", end="")
        return 1
    print(f"embedding: {len(wanted.splitlines())} lines as the page shows them")
    return 0


if __name__ == "__main__":
    sys.exit(main())
