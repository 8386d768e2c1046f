"""Trees with so many faulty packages that not every fault of each is looked for."""

from __future__ import annotations

from collections.abc import Callable

from conftest import Root, Runner
from trees import SMALL

Make = Callable[..., Root]


def test_many_faulty_packages_show_one_fault_each_and_say_so(tree: Make, run: Runner) -> None:
    root = tree({**SMALL, ".sefgulaw.toml": ""})
    said = "sefgulaw: more than 100 packages have faults, so only the first one of each is shown"
    for at in range(101):
        root.write(f"q{at}/BUILD", "x = y\nz = w\n")
    many = run("check", cwd=root)
    assert len(many.lines) == 101 and all(":1:5: " in line for line in many.lines)
    assert many.words == [said, "sefgulaw: 101 faults in 101 of 103 packages"]
    root.write("q0/BUILD", "")
    few = run("check", cwd=root)
    assert few.words == ["sefgulaw: 200 faults in 100 of 103 packages"]
    assert few == run("check", "--no-daemon", cwd=root)
