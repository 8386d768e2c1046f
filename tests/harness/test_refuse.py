"""Tests that each allocation fails in turn, over small programs. Needs cc."""

import os
import subprocess
import sys
import tempfile
import unittest

sys.path.insert(0, os.path.dirname(os.path.dirname(os.path.abspath(__file__))))

from harness.refuse import Refusals, refuse_each  # noqa: E402

# Makes three blocks of memory and a thread. With a word it goes on where memory is refused.
PROGRAM = r"""
#include <pthread.h>
#include <stdlib.h>
#include <unistd.h>
static void *idle(void *given) { return given; }
int main(int count, char **words) {
    char *volatile block;
    for (int at = 0; at < 3; at++) {
        block = malloc(16);
        if (block) continue;
        if (count > 1) { write(1, "no memory\n", 10); continue; }
        write(2, "stop: memory\n", 13);
        return 3;
    }
    pthread_t thread;
    if (pthread_create(&thread, NULL, idle, NULL)) return 4;
    pthread_join(thread, NULL);
    write(1, "well\n", 5);
    return 0;
}
"""


class RefuseTest(unittest.TestCase):
    """The library, over one program that stops where memory is refused and one that goes on."""

    library: Refusals
    program: str

    @classmethod
    def setUpClass(cls) -> None:
        """Compiles both."""
        room = tempfile.TemporaryDirectory()
        cls.addClassCleanup(room.cleanup)
        cls.program = f"{room.name}/program"
        with open(f"{cls.program}.c", "w", encoding="utf-8") as out:
            out.write(PROGRAM)
        words = ["cc", "-O0", "-w", "-o", cls.program, f"{cls.program}.c", "-lpthread"]
        subprocess.run(words, check=True)
        cls.library = Refusals(room.name)

    def test_counts(self) -> None:
        ran, allocations, threads = self.library.run_and_count([self.program])
        self.assertEqual((ran.status, ran.written), (0, b"well\n"))
        self.assertGreaterEqual(allocations, 3)
        self.assertEqual(threads, 1)

    def test_program_that_stops(self) -> None:
        report, whole, stopped = refuse_each(self.library, "it", [self.program])
        self.assertEqual((report.wrong, whole.written), ([], b"well\n"))
        self.assertGreaterEqual(stopped, 3)
        self.assertGreaterEqual(report.compared, 3)

    def test_program_that_goes_on(self) -> None:
        report, _, _ = refuse_each(self.library, "it", [self.program, "on"])
        wrong = [text for text in report.wrong if "status 0, wrote ..b'no memory" in text]
        self.assertEqual(len(wrong), 3)

    def test_thread(self) -> None:
        self.assertEqual(self.library.run([self.program], b"", thread=1).status, 4)


if __name__ == "__main__":
    unittest.main()
