"""Runs the command `sefgulaw` by `python3 -m sefgulaw`.

Python puts the present directory in front of the path then. That is the tree which is asked about,
so a file `json.py` in it would take the library's place. The entry is taken away, where the package
itself is not found by it.
"""

import os
import sys

NEEDED = (3, 11)

if __name__ == "__main__":
    if sys.version_info < NEEDED:
        sys.stderr.write(
            "sefgulaw: it needs Python %d.%d or a later one, and %s is Python %d.%d\n"
            % (*NEEDED, sys.executable, *sys.version_info[:2])
        )
        sys.exit(3)
    place = os.path.dirname(os.path.dirname(os.path.abspath(__file__)))
    if os.path.abspath(sys.path[0] or ".") != place:
        del sys.path[0]
    from sefgulaw.cli import main

    sys.exit(main(sys.argv[1:]))
