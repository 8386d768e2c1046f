"""Tests the harness with a program of Python in the loader's place: each check that it can answer
is right about it, and finds what such a program does wrong."""

import json
import os
import subprocess
import sys
import tempfile
import unittest
from unittest import mock

HERE = os.path.dirname(os.path.abspath(__file__))
TESTS = os.path.dirname(HERE)
sys.path.insert(0, TESTS)

from checks import batches, devices, golden, many, talk, under, words, workers  # noqa: E402
from checks.language import all_programs, numbered  # noqa: E402
from harness import loader as loaders  # noqa: E402
from harness.commands import find, line_of, put  # noqa: E402
from harness.context import Context  # noqa: E402
from harness.golden import Malformed as MalformedSession  # noqa: E402
from harness.golden import Session, read_session, sessions, with_versions  # noqa: E402
from harness.loader import LATE, Loader, Run  # noqa: E402
from harness.model import Answer, Files  # noqa: E402
from harness.programs import Malformed, programs_of, words_of_faults  # noqa: E402
from harness.report import Report, compare_each, first_difference  # noqa: E402

FAKE = os.path.join(HERE, "fake_loader.py")
PUT, FIND = line_of(put("x/BUILD", "")), line_of(find("x"))
OK, BUILD = b'{"ok":1}\n', b'{"build":"BUILD"}\n'


def fake(fault: str = "", workers: int = 1, patience: float = 20) -> Loader:
    """The program with something that it does wrong."""
    environment = {"FAKE_FAULT": fault}
    words = ["run", "--workers", str(workers)]
    return Loader(FAKE, *words, environment=environment, patience=patience)


class LoaderTest(unittest.TestCase):
    """The class that runs a loader."""

    def test_run(self) -> None:
        self.assertEqual(fake().run(PUT + FIND), Run(0, OK + BUILD, b""))
        self.assertEqual(fake().run(PUT + b"x").last(), b'{"refused":1}')
        self.assertEqual(fake(workers=17).run(PUT).status, 2)

    def test_run_that_does_not_end(self) -> None:
        self.assertEqual(fake("late", patience=1).run(PUT), Run(LATE, b"", b""))

    def test_conversation(self) -> None:
        program = fake().start()
        self.assertEqual([program.ask(PUT), program.ask(FIND)], [OK, BUILD])
        self.assertGreater(program.memory("VmRSS"), 1000)
        self.assertEqual(program.end(), Run(0, b"", b""))

    def test_answer_that_is_kept_back(self) -> None:
        program = fake("kept").start()
        with mock.patch.object(loaders, "ANSWER_PATIENCE", 0.3):
            self.assertEqual(program.ask(PUT), b"")
        program.kill()

    def test_devices(self) -> None:
        lines, answers = [PUT, FIND], [OK, BUILD]
        given, whole = PUT + FIND, OK + BUILD
        self.assertEqual(devices.in_pieces(fake(), given, 3), Run(0, whole, b""))
        self.assertEqual(fake().run_with_room(given, 4), Run(3, OK[:4], b"stop: write\n"))
        self.assertEqual(fake().run_with_room(given, len(whole)), Run(0, whole, b""))
        self.assertEqual(fake().run_until_pipe_fails(PUT + b"x"), Run(3, OK, b"stop: read\n"))
        closed = devices.to_reader_that_closes(fake(), lines, answers, len(OK))
        self.assertEqual(closed, Run(3, OK, b"stop: write\n"))
        full = fake().run_with_device(given, "stdout", "/dev/full")
        self.assertEqual(full, Run(3, b"", b"stop: write\n"))
        self.assertEqual(fake().run_with_device(given, "stdin", None).status, 3)
        self.assertEqual(fake().run_with_device(given, "stderr", None), Run(0, whole, b""))

    def test_measured(self) -> None:
        ran, took, most = fake().run_measured(PUT)
        self.assertEqual(ran, Run(0, OK, b""))
        self.assertGreater(took, 0)
        self.assertGreater(most, 1)

    def test_stack(self) -> None:
        code = "import resource; print(resource.getrlimit(resource.RLIMIT_STACK)[0])"
        ran = Loader(sys.executable, "-c", code, stack=4096).run()
        self.assertEqual(ran.written, b"4194304\n")


class CheckTest(unittest.TestCase):
    """Checks of the program in the loader's place."""

    def report(self, check: str, fault: str = "", scripts: int = 2) -> Report:
        """What a check says of a program that does something wrong."""
        with mock.patch.dict(os.environ, {"FAKE_FAULT": fault}):
            context = Context(FAKE, (1, 16), scripts)
            return batches.run(context) if check == "batches" else under.run(context)

    def test_batches(self) -> None:
        report = self.report("batches")
        self.assertEqual(report.wrong, [])
        self.assertEqual(report.compared, 2)
        self.assertTrue(self.report("batches", "batches").wrong)
        self.assertTrue(self.report("batches", "versions").wrong)

    def test_under(self) -> None:
        report = self.report("under")
        self.assertEqual((report.wrong, report.compared), ([], 2))
        self.assertTrue(self.report("under", "globs").wrong)

    def test_talk(self) -> None:
        lines, wanted = [PUT, FIND], [OK]
        self.assertIsNone(talk.talk(fake(), lines, wanted))
        self.assertIn("line 1 was answered", talk.talk(fake(), lines, [BUILD]) or "")
        with mock.patch.object(loaders, "ANSWER_PATIENCE", 0.3):
            self.assertIn("line 1 was answered", talk.talk(fake("kept"), lines, wanted) or "")

    def test_workers(self) -> None:
        text = 'filegroup(name = "a")\nfilegroup(name = "b")\n'
        script = line_of(put("x/BUILD", text)) + b'{"op":"load","names":["x"]}\n'
        with mock.patch.dict(os.environ, {"FAKE_FAULT": ""}):
            self.assertIsNone(workers.differs(Context(FAKE), "one", script, [2, 16]))
        with mock.patch.dict(os.environ, {"FAKE_FAULT": "workers"}):
            wrong = workers.differs(Context(FAKE), "one", script, [2, 16])
        self.assertIn("one: 16 workers write something else than one", wrong or "")

    def test_words(self) -> None:
        context = Context(FAKE)
        row = "loader run --workers 1: status 0, 15 bytes, said nothing"
        self.assertIsNone(words.words_differ(context, row))
        row = "loader run --workers 17: status 2, 0 bytes, said a fault"
        self.assertIsNone(words.words_differ(context, row))
        self.assertIn("status 2", words.words_differ(context, row.replace("2,", "0,")) or "")

    def test_many(self) -> None:
        rows = list(many.rows_of_packages())
        given = b"".join(line_of(line) for line, _ in rows)
        wanted = b"".join(line_of(answer) for _, answer in rows)
        self.assertEqual(fake().run(given).written, wanted)


class ReportTest(unittest.TestCase):
    """Reports and their lines."""

    def test_lines(self) -> None:
        report = Report(3)
        report.note("2 files")
        self.assertEqual(report.lines("x"), ["ok x 3 compared, 2 files"])
        report.add("it is wrong", None, compared=1)
        self.assertEqual(report.lines("x")[0], "  it is wrong")
        self.assertEqual(report.lines("x")[-1], "WRONG x 1 wrong, 4 compared, 2 files")
        self.assertEqual(Report().lines("x"), ["WRONG x 0 wrong, 0 compared"])

    def test_comparisons(self) -> None:
        report = compare_each(lambda item: None if item else "none", [1, 0, 2])
        self.assertEqual((report.compared, report.wrong), (3, ["none"]))
        self.assertIsNone(first_difference("x", [b"a"], [b"a"]))
        self.assertIn("line 2", first_difference("x", [b"a", b"b"], [b"a", b"c"]) or "")
        self.assertIn("number", first_difference("x", [b"a"], [b"a", b"b"]) or "")


class RunnerTest(unittest.TestCase):
    """The command that runs checks by name."""

    def run_checks(self, *words: str, fault: str = "") -> tuple[int, list[str]]:
        """The status of the command, and its lines."""
        ran = subprocess.run(
            [sys.executable, os.path.join(TESTS, "run.py"), *words],
            env={**os.environ, "FAKE_FAULT": fault},
            capture_output=True,
            text=True,
        )
        return ran.returncode, (ran.stdout + ran.stderr).splitlines()

    def test_list(self) -> None:
        status, lines = self.run_checks("--list")
        names = [line.split()[0] for line in lines]
        self.assertEqual(status, 0)
        self.assertEqual(names, sorted(names))
        self.assertIn("journal", names)

    def test_status(self) -> None:
        words = ["batches", "--scripts", "2", "--program", FAKE]
        status, lines = self.run_checks(*words)
        self.assertEqual(status, 0, lines)
        self.assertRegex(lines[-1], r"^ok batches 2 compared, \d+ batches accepted and \d+ refused")
        status, lines = self.run_checks(*words, fault="versions")
        self.assertEqual(status, 1)
        self.assertRegex(lines[-1], r"^WRONG batches \d+ wrong, 2 compared")

    def test_two_programs(self) -> None:
        status, lines = self.run_checks("batches", "--scripts", "2", "--program", FAKE, FAKE)
        self.assertEqual(status, 0, lines)
        ends = [line.split(" compared")[0] for line in lines]
        self.assertEqual(ends, ["ok batches of fake_loader.py 2"] * 2)

    def test_check_that_fails(self) -> None:
        status, lines = self.run_checks("words", "--program", "/nowhere/loader")
        self.assertEqual(status, 1)
        self.assertRegex(lines[-1], "^WRONG words 1 wrong, 0 compared")

    def test_unknown_name(self) -> None:
        status, lines = self.run_checks("nothing", "--program", FAKE)
        self.assertEqual(status, 2)
        self.assertIn("there is no check nothing", lines[-1])


SESSION = b"""# A package.
> {"op":"put","path":"x/BUILD","text":""}
< {"ok":1}
> {"op":"find","name":"x"}
< {"build":"BUILD"}

# It goes.
> {"op":"del","path":"x/BUILD"}
< {"ok":2}
>\x20
< {"refused":1}
"""


class GoldenTest(unittest.TestCase):
    """Golden sessions."""

    def read(self, text: bytes) -> Session:
        """Reads a session."""
        with tempfile.NamedTemporaryFile(suffix=".session") as file:
            file.write(text)
            file.flush()
            return read_session(file.name)

    def test_session(self) -> None:
        session = self.read(SESSION)
        self.assertEqual(
            session.replies, [b'{"ok":1}', b'{"build":"BUILD"}', b'{"ok":2}', b'{"refused":1}']
        )
        self.assertEqual(session.places, [2, 4, 8, 10])
        with mock.patch.dict(os.environ, {"FAKE_FAULT": ""}):
            self.assertIsNone(golden.session_differs(Context(FAKE), (session, 1)))

    def test_wrong_reply(self) -> None:
        session = self.read(SESSION.replace(b'"BUILD"}', b'"BUILD.bazel"}'))
        with mock.patch.dict(os.environ, {"FAKE_FAULT": ""}):
            wrong = golden.session_differs(Context(FAKE), (session, 1))
        self.assertIn("--workers 1, line 4: b", wrong or "")

    def test_malformed_sessions(self) -> None:
        for text in (
            b"",
            b"> a\n",
            b"< a\n",
            b"> a\n> b\n< c\n",
            b"x\n> a\n< b\n",
            b"> a\n# b\n< c\n",
        ):
            with self.subTest(text):
                self.assertRaises(MalformedSession, self.read, text)

    def test_versions(self) -> None:
        moved = SESSION.replace(b'{"ok":1}', b'{"ok":7}').replace(b'{"ok":2}', b'{"ok":7}')
        self.assertEqual(with_versions(moved), SESSION)

    def test_stored_sessions(self) -> None:
        found = sessions()
        self.assertGreater(sum(len(it.replies) for it in found), 1000)
        compared = 0
        for session in found:
            files = Files()
            for place, command, reply in zip(session.places, session.commands, session.replies):
                with self.subTest(f"{session.name}, line {place}"):
                    wanted = plain_reply(files, command, json.loads(reply))
                    self.assertEqual(json.loads(reply), wanted)
                    compared += 1
        self.assertGreater(compared, 1000)


def plain_reply(files: Files, line: bytes, reply: Answer) -> Answer:
    """The reply of a plain model of files to an edit. That of another line, or of one that is no
    command or has a long text, is the reply itself, which no model tells."""
    if reply.get("refused") in (1, 7) or not reply.keys() & {"ok", "refused"}:
        return reply
    command = json.loads(line)
    return files.edit(command)[0] if command["op"] in ("put", "del", "edit") else reply


TOPIC = """Notes.
--- values
1 + 1 ### gives 2
x ### fault 4: a name is not defined
--- module in //q
load(":n.bzl", "X")
### exports ["X"]
=== n.bzl
X = 1
"""


class ProgramTest(unittest.TestCase):
    """Programs of the language."""

    def programs(self, text: str) -> list[list[str]]:
        """The lines and answers of the programs of a topic."""
        faults = {4: "a name is not defined"}
        with tempfile.NamedTemporaryFile("w", suffix=".star") as file:
            file.write(text)
            file.flush()
            found = [list(it.rows(faults)) for it in programs_of(file.name)]
        return [[str(part) for row in rows for part in row] for rows in found]

    def test_programs(self) -> None:
        found = self.programs(TOPIC)
        self.assertEqual([len(rows) for rows in found], [6, 6, 14])
        self.assertIn("'tags': ['2']", found[0][3])
        self.assertIn("'fault': {'code': 4, 'line': 1, 'path': 'k/BUILD'}", found[1][3])
        self.assertEqual(found[2][7], "{'exports': ['X']}")

    def test_malformed_topics(self) -> None:
        for text in (
            "--- nothing\n",
            "--- values\n1\n",
            "--- values\n1 ### gives\n",
            "--- values\n1 ### fault 4: other words\n",
            "--- module\nX = 1\n### gives 1\n",
        ):
            with self.subTest(text):
                self.assertRaises(Malformed, self.programs, text)

    def test_stored_topics(self) -> None:
        programs = all_programs()
        self.assertGreater(len(programs), 700)
        self.assertGreater(len(numbered(programs)), 3 * len(programs))

    def test_words_of_faults(self) -> None:
        words = words_of_faults()
        self.assertEqual(sorted(words), list(range(1, len(words) + 1)))


if __name__ == "__main__":
    unittest.main()
