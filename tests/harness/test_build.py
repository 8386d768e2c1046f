"""Tests the build of programs beside the gate, with a script in the place of the kit."""

import contextlib
import io
import os
import stat
import sys
import tempfile
import unittest
from unittest import mock

sys.path.insert(0, os.path.dirname(os.path.dirname(os.path.abspath(__file__))))

from harness.build import ROOT, Build, below  # noqa: E402

# Says where it was run, refuses a source that is wrong, and builds what is no library.
KIT = """#!/bin/sh
echo "$*: $(cat src/*.rt)"
grep -q wrong src/*.rt && exit 1
[ "$1" = lib ] && { mkdir -p out/rlib; touch out/rlib/stamp; exit 0; }
mkdir -p out
cat ../../crates.txt src/*.rt proofs/*.antt ../*/out/rlib/stamp > "out/${PWD##*/}"
cat >> "out/${PWD##*/}"
"""


class BuildTest(unittest.TestCase):
    """A repository with the crates `low` and `sefgulaw_loader`, and the program of trials."""

    def setUp(self) -> None:
        """Makes the repository, and puts the script at the head of the path."""
        room = tempfile.TemporaryDirectory()
        self.addCleanup(room.cleanup)
        self.root = room.name
        self.write("crates.txt", "low: thiserror\nmore: low\nsefgulaw_loader backend=rattle: low\n")
        self.write("HANDLES", "")
        for name in ("low", "more", "sefgulaw_loader"):
            self.write(f"crates/{name}/src/lib.rt", f"// {name}\n")
        self.write("crates/low/out/rlib/stamp", "low is built\n")
        self.write("tests/trials/uses", "trials: more core\n")
        self.write("tests/trials/src/main.rattle", "// trials\n")
        self.write("tests/trials/proofs/A.proof", "-- a\n")
        self.write("tests/trials/stdin", "the table\n")
        script = self.write("bin/rt", KIT)
        os.chmod(script, os.stat(script).st_mode | stat.S_IXUSR)
        path = f"{os.path.dirname(script)}:{os.environ['PATH']}"
        given = mock.patch.dict(os.environ, {"PATH": path})
        given.start()
        self.addCleanup(given.stop)

    def write(self, path: str, text: str) -> str:
        """Writes a file of the repository, and returns its path."""
        file = os.path.join(self.root, path)
        os.makedirs(os.path.dirname(file), exist_ok=True)
        with open(file, "w", encoding="utf-8") as out:
            out.write(text)
        return file

    def build(self) -> tuple[int, str]:
        """The status of a build, and what it told."""
        with contextlib.redirect_stderr(io.StringIO()) as told:
            return Build("trials", self.root).run(), told.getvalue()

    def built(self) -> str:
        """The text of the program that was built."""
        with open(os.path.join(self.root, "bench/out/trials"), encoding="utf-8") as file:
            return file.read()

    def test_build(self) -> None:
        self.assertEqual(self.build(), (0, ""))
        crates = "low: thiserror\nmore: low\ntrials: more core\n"
        wanted = f"{crates}// trials\n-- a\nlow is built\nthe table\n"
        self.assertEqual(self.built(), wanted)

    def test_program_that_is_new(self) -> None:
        build = Build("trials", self.root)
        self.assertFalse(build.is_new())
        self.assertEqual(self.build()[0], 0)
        for file in build.program_files():
            os.utime(file, (1, 1))
        for name in ("low", "more"):
            os.utime(f"{build.crate(name)}/out/rlib/stamp", (1, 1))
        self.assertTrue(build.is_new())
        os.utime(f"{self.root}/tests/trials/uses", None)
        self.assertFalse(build.is_new())

    def test_program_that_is_not_built(self) -> None:
        self.write("tests/trials/src/main.rattle", "wrong\n")
        status, told = self.build()
        self.assertEqual(status, 1)
        self.assertIn("run --: wrong", told)
        self.assertIn("trials is not built", told)
        self.assertFalse(os.path.exists(f"{self.root}/bench/out/trials"))

    def test_library_that_is_not_built(self) -> None:
        self.write("crates/more/src/lib.rt", "wrong\n")
        status, told = self.build()
        self.assertEqual(status, 1)
        self.assertIn("lib: wrong", told)

    def test_programs_of_the_repository(self) -> None:
        self.assertEqual(below("a", {"a": ["b", "c", "core"], "b": ["c"], "c": []}), ["c", "b"])
        build = Build("schedules", ROOT)
        self.assertIn("small_graphs", build.crates)
        self.assertIn("round", build.crates)
        self.assertLess(build.crates.index("keys"), build.crates.index("round"))


if __name__ == "__main__":
    unittest.main()
