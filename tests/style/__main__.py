"""Checks the house's rules of style that a program can check. Run it by `make lint`.

Each rule is a file of this folder, which says what it asks for: `prose`, `links`, `example`,
`sizes`, `signatures`, `contracts`, `names`, `imports`, `errors`, `layers` and `layout`. Words after
the command name the rules to be checked; without one all are. It prints one line for each fault, as
`path:line: what`, and fails where there is one.
"""

import argparse
import os
import sys
from collections.abc import Callable, Iterator

HERE = os.path.dirname(os.path.abspath(__file__))
sys.path.insert(0, os.path.dirname(HERE))

from style import contracts, errors, example, imports, layers, layout  # noqa: E402
from style import links, names, prose, signatures, sizes  # noqa: E402
from style.tree import Tree  # noqa: E402

RULES: dict[str, Callable[[Tree], Iterator[str]]] = {
    "prose": prose.check,
    "links": links.check,
    "example": example.check,
    "sizes": sizes.check,
    "signatures": signatures.check,
    "contracts": contracts.check,
    "names": names.check,
    "imports": imports.check,
    "errors": errors.check,
    "layers": layers.check,
    "layout": layout.check,
}


def main() -> int:
    """Checks the rules."""
    words = argparse.ArgumentParser(
        "style", description=__doc__, formatter_class=argparse.RawDescriptionHelpFormatter
    )
    words.add_argument("rules", nargs="*", choices=[[], *RULES], metavar="RULE")
    asked = words.parse_args().rules or list(RULES)
    tree = Tree.tracked(os.path.dirname(os.path.dirname(HERE)))
    faults = [fault for rule in asked for fault in RULES[rule](tree)]
    print("\n".join(faults + [f"lint: {len(faults)} faults"]))
    return 1 if faults else 0


if __name__ == "__main__":
    sys.exit(main())
