"""A small repository of two crates, for the tests of the package."""

import os
import tempfile
import unittest

from wrong_bodies.digest import Digests
from wrong_bodies.edits import Edit, Repository, read_edit

COUNTER = """//! A counter.
use crate::limits::LIMIT;
ghost use Rattle.low.specs.Sums.{sum, idle};

/// Counts.
pub struct Counter {
    count: u64,
}

impl Counter {
    /// Adds one.
    pub fn add(&mut self)
        ensures sums { sum self.old self.new }
    {
        self.count = self.count + 1;
    }

    fn walk(&self) -> u64
        ensures walks { sum self.now result }
    {
        self.count
    }
}

pub fn first(count: u64) -> u64
    ensures same { sum count result }
{
    count
}
"""
LIMITS = "pub const LIMIT: u64 = 9;\n"
SUMS = "-- sums\npub sum : ℕ → ℕ → Type 0\nsum a b = a ≡ b\n"
LOW = """pub fn low(count: u64) -> u64
    ensures same { sum count result }
{
    // The body.
    let more = count;
    more
}

fn hidden(count: u64) -> u64 {
    count
}
"""
USES_LOW = "use low::low;\n\npub fn top(count: u64) -> u64 {\n    low(count)\n}\n"

ADD = "file: src/counter.rt\nold: self.count = self.count + 1;\nnew: self.count = 1;\n"
FIRST = "file: src/counter.rt\nold: ) -> u64\nnew: ) -> u32\n"


class Fixture(unittest.TestCase):
    """A repository of two crates in a folder of its own."""

    def setUp(self) -> None:
        """Makes the folder, and removes it after the test."""
        room = tempfile.TemporaryDirectory()
        self.addCleanup(room.cleanup)
        self.repository = Repository(room.name)
        self.crate = self.repository.crate("high")
        self.write("crates.txt", "# crates\nlow:\n\nhigh may_wait=1: low thiserror\n")
        self.write("HANDLES", "")
        self.write("crates/low/src/lib.rt", LOW)
        self.write("crates/low/specs/Sums.antt", SUMS)
        self.write("crates/high/src/counter.rt", COUNTER)
        self.write("crates/high/src/limits.rt", LIMITS)
        self.write("crates/high/src/lib.rt", USES_LOW)

    def write(self, path: str, text: str) -> str:
        """Writes a file of the repository, and returns its path."""
        file = f"{self.repository.root}/{path}"
        os.makedirs(os.path.dirname(file), exist_ok=True)
        with open(file, "w", encoding="utf-8") as out:
            out.write(text)
        return file

    def edit(self, text: str, name: str = "one") -> str:
        """Writes an edit of the upper crate, and returns its file."""
        return self.write(f"crates/high/wrong-bodies/{name}.edit", text)

    def made(self, text: str, name: str = "one") -> Edit:
        """An edit of the upper crate that can be made."""
        edit = read_edit(self.edit(text, name), self.crate.folder, {})
        assert isinstance(edit, Edit), edit
        return edit

    def digests(self) -> dict[str, str]:
        """The present digests of both crates."""
        found = Digests(self.repository, "logic")
        return {name: found.digest(name) for name in ("low", "high")}
