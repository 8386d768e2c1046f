"""Tests the wrong bodies' package without a prover, in a second.

Run it by `python3 tests/wrong_bodies/test_wrong_bodies.py`. The texts of the prover are kept below,
each with what it says of an edit. A small script takes the prover's place where trials are tested.
"""

import contextlib
import io
import os
import stat
import sys
import unittest
from unittest import mock

sys.path.insert(0, os.path.dirname(os.path.dirname(os.path.abspath(__file__))))

from wrong_bodies import batches, digest, judge, run  # noqa: E402
from wrong_bodies.edits import FunctionId, read_edit  # noqa: E402
from wrong_bodies.fixture import ADD, COUNTER, FIRST, LOW, SUMS, Fixture  # noqa: E402


class EditTest(Fixture):
    """What an edit changes, and why it can't be made."""

    def why(self, text: str) -> str:
        """Why an edit can't be made."""
        edit = read_edit(self.edit(text), self.crate.folder, {})
        self.assertIsInstance(edit, str)
        return str(edit)

    def test_names_the_function_and_its_type(self) -> None:
        edit = self.made(ADD)
        self.assertEqual(edit.functions, {FunctionId("src/counter.rt", "Counter", "add")})
        self.assertEqual(edit.places, {("src/counter.rt", 15)})
        self.assertIn("self.count = 1;", edit.texts["src/counter.rt"])

    def test_old_text_that_is_there_twice(self) -> None:
        why = self.why(FIRST)
        self.assertEqual(why, "its old text stands 2 times in src/counter.rt")

    def test_old_text_that_is_not_there(self) -> None:
        why = self.why("file: src/counter.rt\nold: self.count += 1;\nnew: ;\n")
        self.assertEqual(why, "its old text stands 0 times in src/counter.rt")

    def test_old_text_of_another_line(self) -> None:
        self.assertIn("0 times", self.why("file: src/counter.rt\nold: {  \nnew:\n"))

    def test_no_old_and_new_text(self) -> None:
        self.assertEqual(self.why("file: src/counter.rt\n"), "it has no old and new text")

    def test_text_that_is_no_source(self) -> None:
        why = self.why("file: specs/Sums.antt\nold: sum\nnew: x\n")
        self.assertEqual(why, "it names no text of src/")

    def test_two_files(self) -> None:
        edit = self.made(f"{ADD}file: src/limits.rt\nold: = 9;\nnew: = 8;\n")
        self.assertEqual(set(edit.texts), {"src/counter.rt", "src/limits.rt"})
        self.assertEqual(
            edit.functions,
            {
                FunctionId("src/counter.rt", "Counter", "add"),
                FunctionId("src/limits.rt", "", ""),
            },
        )

    def test_two_places_of_one_file(self) -> None:
        more = "old: ensures same { sum count result }\nnew: ensures same { x }\n"
        edit = self.made(ADD + more)
        self.assertEqual({it.name for it in edit.functions}, {"add", "first"})


class BatchTest(Fixture):
    """Which edits are tried together, and what the prover calls their functions."""

    def test_edits_of_one_function_are_apart(self) -> None:
        one = self.edit(ADD, "one")
        two = self.edit(ADD.replace("new: self.count = 1;", "new: self.count = 2;"), "two")
        three = self.edit("file: src/lib.rt\nold: low(count)\nnew: count\n", "three")
        four = self.edit("file: src/lib.rt\nold: nowhere\nnew: count\n", "four")
        batch, left, bad = batches.next_batch([one, two, three, four], self.crate.folder)
        self.assertEqual([it.file for it in batch], [one, three])
        self.assertEqual(left, [two])
        self.assertEqual(bad, [(four, "its old text stands 0 times in src/lib.rt")])
        self.assertEqual(set(batch[0].texts), {"src/counter.rt", "src/lib.rt"})
        self.assertEqual(
            batches.full_names(self.crate, batch), ["high::counter::Counter::add", "high::top"]
        )

    def test_edit_of_a_constant_has_no_name(self) -> None:
        edit = self.made("file: src/limits.rt\nold: = 9;\nnew: = 8;\n")
        self.assertEqual(batches.full_names(self.crate, [edit]), [])
        self.assertEqual(batches.answer_files(self.crate, [edit]), [])

    def test_answers_of_a_function(self) -> None:
        found = batches.answer_files(self.crate, [self.made(ADD)])
        self.assertEqual(found, ["proofs/counter/Counter/add/Answers.antt"])
        self.write("crates/high/proofs/counter/Counter/add/Proof.antt", "")
        self.assertEqual(batches.answer_files(self.crate, [self.made(ADD)]), [])

    def test_answers_of_functions_in_a_circle(self) -> None:
        os.makedirs(f"{self.crate.folder}/proofs/counter/Counter/+add")
        found = batches.answer_files(self.crate, [self.made(ADD)])
        self.assertEqual(found, ["proofs/counter/Counter/+add/Answers.antt"])


class DigestTest(Fixture):
    """What changes a digest, and what does not."""

    def setUp(self) -> None:
        """Notes the digests before a change."""
        super().setUp()
        self.edit(ADD)
        self.before = self.digests()

    def changed(self, path: str, text: str) -> set[str]:
        """The crates whose digests change with a file."""
        self.write(path, text)
        after = self.digests()
        return {name for name in after if after[name] != self.before[name]}

    def test_comments_and_lines_count_for_nothing(self) -> None:
        commented = COUNTER.replace("/// Counts.", "/// Counts on.")
        commented = commented.replace("pub fn first(", "#[inline]\npub fn first(")
        self.assertEqual(self.changed("crates/high/src/counter.rt", commented), set())
        broken = COUNTER.replace("{ sum count result }", "\n        { sum count result }")
        self.assertEqual(self.changed("crates/high/src/counter.rt", broken), set())
        self.assertEqual(self.changed("crates/low/specs/Sums.antt", f"-- more\n{SUMS}"), set())

    def test_idle_import_counts_for_nothing(self) -> None:
        idle = COUNTER.replace("{sum, idle}", "{sum, idle, more}")
        self.assertEqual(self.changed("crates/high/src/counter.rt", idle), set())

    def test_contract_counts(self) -> None:
        other = COUNTER.replace("sum self.old self.new", "sum self.new self.old")
        self.assertEqual(self.changed("crates/high/src/counter.rt", other), {"high"})

    def test_own_body_counts(self) -> None:
        other = COUNTER.replace("    count\n}\n", "    count + 0\n}\n")
        self.assertEqual(self.changed("crates/high/src/counter.rt", other), {"high"})

    def test_contract_below_counts_above(self) -> None:
        other = LOW.replace("sum count result", "sum result count")
        self.assertEqual(self.changed("crates/low/src/lib.rt", other), {"low", "high"})

    def test_body_below_counts_for_its_crate_alone(self) -> None:
        other = LOW.replace("let more = count;", "let more = count + 0;")
        self.assertEqual(self.changed("crates/low/src/lib.rt", other), {"low"})

    def test_private_function_below_counts_for_its_crate_alone(self) -> None:
        other = LOW.replace("fn hidden(count: u64) -> u64", "fn hidden(count: u32) -> u32")
        self.assertEqual(self.changed("crates/low/src/lib.rt", other), {"low"})

    def test_function_below_that_is_not_named_counts_for_its_crate_alone(self) -> None:
        more = (
            f"{LOW}\npub fn other(count: u64) -> u64\n    ensures same {{ count }}\n{{\n    1\n}}\n"
        )
        self.assertEqual(self.changed("crates/low/src/lib.rt", more), {"low"})
        self.edit("file: src/lib.rt\nold: low(count)\nnew: other(count)\n", "names_it")
        self.before = self.digests()
        less = more.replace("{ count }", "{ 1 }")
        self.assertEqual(self.changed("crates/low/src/lib.rt", less), {"low", "high"})

    def test_definition_below_counts_where_it_is_named(self) -> None:
        other = SUMS.replace("a ≡ b", "b ≡ a")
        self.assertEqual(self.changed("crates/low/specs/Sums.antt", other), {"low", "high"})
        self.write("crates/low/specs/Sums.antt", SUMS)
        more = "pub other : Type 0\nother = ℕ\n"
        self.assertEqual(self.changed("crates/low/specs/Other.antt", more), {"low"})

    def test_edit_and_logic_count(self) -> None:
        other = ADD.replace("new: self.count = 1;", "new: self.count = 2;")
        self.assertEqual(self.changed("crates/high/wrong-bodies/one.edit", other), {"high"})
        found = digest.Digests(self.repository, "another logic").digest("low")
        self.assertNotEqual(found, self.before["low"])

    def test_table_and_stale_crates(self) -> None:
        table = digest.Table(self.repository)
        self.assertEqual(digest.stale(self.repository, "logic"), ["high"])
        table.write("high", ("1", self.before["high"]))
        table.write("low", ("0", self.before["low"]))
        self.assertEqual(list(table.lines()), ["low", "high"])
        self.assertEqual(digest.stale(self.repository, "logic"), [])
        self.edit(ADD, "two")
        self.assertEqual(digest.stale(self.repository, "logic"), ["high"])
        table.write("high", None)
        self.assertEqual(list(table.lines()), ["low"])


# Texts of the prover beside an edit of `Counter::add`, whose function has the lines 11 to 16. Each
# is refused at the function (True), or says nothing of it (False).
REFUSED = {
    # At a place in the text of the function.
    "src/counter.rt:15:9: error: `add.ensures.sums`: no proof was found": True,
    "./src/counter.rt:13:9: error: `add.ensures.sums`: no proof was found": True,
    "note: src/counter.rt:13:9: it is not proved": True,
    "note: what antt said of it: ./src/counter.rt:11:5: `search` found no proof": True,
    "note: what antt said of it: src/counter.rt:16:5: error": True,
    # Elsewhere in the source, and in another one.
    "src/counter.rt:20:9: error: `walk.ensures.walks`: no proof was found": False,
    "note: src/counter.rt:17:5: it is not proved": False,
    "note: src/lib.rt:13:9: it is not proved": False,
    "src/counter.rt:15:9: warning: it is long": False,
    # By the name of the function.
    "fn high::counter::Counter::add: clause sums: `search` did not prove 1 of 2 goals": True,
    "fn high::counter::Counter<T>::add: clause sums: `search` did not prove 1 of 2 goals": True,
    "fn high::counter::CounterClone::add: `search` did not prove its goals": True,
    "fn high::counter::Counter::walk: clause walks: `search` did not prove 1 of 2 goals": False,
    "fn high::lib::add: clause sums: `search` did not prove 1 of 2 goals": False,
    "fn high::counter::Counter::add: 2 goals": False,
    # In its proof.
    "./proofs/counter/Counter/add/Answers.antt:3:1: error: `add` is not that type": True,
    "./proofs/counter/Counter/walk/Answers.antt:3:1: error: `walk` is not that type": False,
    # A name that the edit took away.
    "./proofs/counter/Counter/add/Answers.antt:3:1: error: `add-in` is not in scope": False,
    "./proofs/counter/Counter/add/Answers.antt:3:1: error: `Counter` has no field `c`": False,
    "./proofs/counter/Counter/add/Answers.antt:3:1: error: `lemma` was not admitted": False,
}

# Whether the prover could not read a text, which says nothing of a contract.
UNREAD = {
    "src/counter.rt:15:9: error: a `;` is missing": True,
    "./src/counter.rt:15:9: error[E0425]: no such variable": True,
    "specs/Sums.antt:2:5: error: a name is missing": True,
    "src/counter.rt:15:9: error: `add.ensures.sums`: `Counter` has no field `c`": True,
    "src/counter.rt:15:9: error: `add.ensures.sums`: no proof was found": False,
    "./proofs/counter/Counter/add/Answers.antt:3:1: error: a name is missing": False,
    "note: src/counter.rt:13:9: it is not proved": False,
}


class JudgeTest(Fixture):
    """The verdicts of kept texts of the prover."""

    def setUp(self) -> None:
        """Makes the edit and the folders of proofs."""
        super().setUp()
        for name in ("add", "walk"):
            os.makedirs(f"{self.crate.folder}/proofs/counter/Counter/{name}")
        self.add = self.made(ADD)

    def alone(self, status: int, *said: str) -> str:
        """The verdict of an edit that was tried alone."""
        return judge.judge_alone(status, said, self.crate, self.add)

    def test_refused_texts(self) -> None:
        for line, is_refused in REFUSED.items():
            with self.subTest(line):
                found = judge.refused_in([self.add], [line], self.crate)
                self.assertEqual(found, [self.add] if is_refused else [])

    def test_unread_texts(self) -> None:
        for line, is_unread in UNREAD.items():
            with self.subTest(line):
                self.assertEqual(judge.is_unread(line), is_unread)

    def test_proof_in_common_with_others(self) -> None:
        os.rmdir(f"{self.crate.folder}/proofs/counter/Counter/add")
        lines = {
            "./proofs/counter/+walk/Goals.antt:3:1: error: `add-in_ok-walk` is not that type": True,
            "./proofs/counter/+walk/Goals.antt:3:1: error: `walk-returns` is not that type": False,
            "./proofs/lib/+walk/Goals.antt:3:1: error: `add-in_ok-walk` is not that type": False,
        }
        for line, is_refused in lines.items():
            with self.subTest(line):
                self.assertEqual(judge.is_at_proof(line, self.crate, self.add), is_refused)

    def test_line_that_two_edits_could_have_caused(self) -> None:
        line = "src/counter.rt:15:9: error: `add.ensures.sums`: no proof was found"
        self.assertEqual(judge.refused_in([self.add, self.add], [line], self.crate), [])

    def test_alone(self) -> None:
        refused = "src/counter.rt:15:9: error: `add.ensures.sums`: no proof was found"
        other = "note: src/counter.rt:17:5: it is not proved"
        unread = "src/counter.rt:15:9: error: a `;` is missing"
        no_goal = "no goal of its own function is refused for the contract"
        self.assertEqual(self.alone(1, "logic=not-proved", refused), "")
        self.assertEqual(self.alone(1, "only=high::counter::Counter::add", refused), "")
        self.assertEqual(self.alone(0, "logic=proved"), "the crate is still proved with it")
        self.assertEqual(self.alone(1, "logic=not-proved", other), no_goal)
        why = f"the prover did not read it: {unread}"
        self.assertEqual(self.alone(1, "logic=not-proved", refused, unread), why)
        self.assertEqual(
            self.alone(2, "", "out of memory"), "the prover did not read it: out of memory"
        )

    def test_constant_alone(self) -> None:
        edit = self.made("file: src/limits.rt\nold: = 9;\nnew: = 8;\n")
        anywhere = "note: src/lib.rt:3:1: it is not proved"
        gone = "./proofs/lib/top/Answers.antt:3:1: error: `LIMIT` is not in scope"
        said = ["logic=not-proved", anywhere]
        self.assertEqual(judge.judge_alone(1, said, self.crate, edit), "")
        self.assertNotEqual(judge.judge_alone(1, ["logic=not-proved", gone], self.crate, edit), "")

    def test_batch(self) -> None:
        top = self.made("file: src/lib.rt\nold: low(count)\nnew: count\n", "two")
        batch = [self.add, top]
        refused = "src/counter.rt:15:9: error: `add.ensures.sums`: no proof was found"
        unread = "src/lib.rt:4:5: error: a `;` is missing"
        verdicts = [
            ((1, ["logic=not-proved", refused]), ([], [top])),
            ((0, ["logic=proved"]), ([], batch)),
            ((1, ["logic=not-proved", unread]), ([self.add], [top])),
            ((2, ["out of memory"]), ([], batch)),
        ]
        for (status, said), wanted in verdicts:
            with self.subTest(said):
                self.assertEqual(judge.judge_batch(status, said, self.crate, batch), wanted)


# Takes the prover's place. It refuses `self.count = 1`, proves all else, and says so of the
# functions that it is asked for.
PROVER = """#!/bin/sh
[ "$1" = version ] && { echo 'kit logic 12'; exit 0; }
[ -n "$CHANGED" ] && echo 'pub const MORE: u64 = 1;' >> "$CHANGED"
case "$*" in *--only*) echo "only=$*" ;; esac
if grep -q 'self.count = 1;' src/counter.rt; then
    echo 'src/counter.rt:15:9: error: `add.ensures.sums`: no proof was found'
    echo 'logic=not-proved'
    exit 1
fi
echo 'logic=proved'
"""


class TrialTest(Fixture):
    """Trials with a script in the prover's place."""

    def setUp(self) -> None:
        """Puts the script at the head of the path, and keeps what it says."""
        super().setUp()
        script = self.write("bin/rt", PROVER)
        os.chmod(script, os.stat(script).st_mode | stat.S_IXUSR)
        self.logs = f"{self.repository.root}/logs/kept"
        path = f"{os.path.dirname(script)}:{os.environ['PATH']}"
        given = mock.patch.dict(os.environ, {"PATH": path, run.LOGS: self.logs})
        given.start()
        self.addCleanup(given.stop)

    def trials(self) -> run.Trials:
        """Tries the upper crate."""
        trials = run.Trials(self.repository, ["high"], digest.kit_logic())
        with contextlib.redirect_stdout(io.StringIO()):
            trials.run(1)
        return trials

    def test_all_refused(self) -> None:
        self.edit(ADD)
        trials = self.trials()
        self.assertEqual((trials.refused, trials.wrong), (1, []))
        self.assertEqual(digest.stale(self.repository, "12"), [])
        with open(f"{self.logs}/high.log", encoding="utf-8") as log:
            self.assertIn("=== ['one.edit']\nonly=check --jobs 1 --only high::counter", log.read())

    def test_not_refused(self) -> None:
        self.edit(ADD)
        other = self.edit("file: src/lib.rt\nold: low(count)\nnew: count\n", "two")
        broken = self.edit("file: src/lib.rt\nold: nowhere\nnew: count\n", "three")
        trials = self.trials()
        self.assertEqual(trials.refused, 1)
        why = {
            broken: "its old text stands 0 times in src/lib.rt",
            other: "the crate is still proved with it",
        }
        self.assertEqual(dict(trials.wrong), why)
        self.assertEqual(digest.stale(self.repository, "12"), ["high"])

    def test_crate_that_is_changed_meanwhile(self) -> None:
        self.edit(ADD)
        with mock.patch.dict(os.environ, {"CHANGED": f"{self.crate.folder}/src/limits.rt"}):
            trials = self.trials()
        self.assertEqual((trials.refused, trials.wrong), (1, []))
        self.assertEqual(digest.Table(self.repository).lines(), {})

    def test_crate_that_cannot_be_tried(self) -> None:
        os.remove(f"{self.repository.root}/HANDLES")
        trials = self.trials()
        self.assertEqual([file for file, _ in trials.wrong], ["crates/high"])
        self.assertIn("it could not be tried", trials.wrong[0][1])


if __name__ == "__main__":
    unittest.main()
