"""The least stack with which the sources of `hostile` are answered, with 1 and 16 workers. It is
the one that `ulimit -s` gives, which is also that of each worker."""

from checks.hostile import compare_rows
from harness.context import Context
from harness.report import Report

# Kilobytes of stack that no loader can do with, and that are enough for each.
LEAST, MOST = 16, 8192
STEP = 16


def run(context: Context) -> Report:
    """Halves the range until the least stack is known by a step."""
    report, least, most = compare_rows(context, MOST), LEAST, MOST
    while most - least > STEP:
        middle = (least + most) // 2
        if compare_rows(context, middle).wrong:
            least = middle
        else:
            most = middle
    report.note(f"with a stack of {most} kilobytes, not with {least}")
    return report
