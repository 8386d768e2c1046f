"""The lines between a front end and the daemon.

A line is one object of JSON, both ways. A request is `{"id":1,"method":"targets","params":{..}}`.
It is answered by lines `{"id":1,"progress":{..}}` and `{"id":1,"item":{..}}`, and by one last line
`{"id":1,"end":{..}}`. `{"cancel":1}` ends request 1.
"""

from __future__ import annotations

import json
from collections.abc import Mapping

TYPE_CHECKING = False
if TYPE_CHECKING:
    from sefgulaw.daemon.members import Hello

VERSION = 1
LONGEST_LINE = 1 << 20

OTHER_DAEMON = 4
"""The status of a `hello` that is meant for another daemon than the one that reads it."""


Params = Mapping[str, object]
"""The params of every other method, as the page about these lines has them."""


def request(number: int, method: str, params: Hello | Params | None = None) -> bytes:
    """Returns the line of a request."""
    return line({"id": number, "method": method, "params": params or {}})


def line(members: dict[str, object]) -> bytes:
    """Returns an object as a line. A name that is not UTF-8 has its bytes as lone surrogates."""
    return json.dumps(members, separators=(",", ":")).encode("ascii") + b"\n"


def item_head(number: int) -> bytes:
    """Returns how the line of an item begins; the item and `}` follow."""
    return b'{"id":%d,"item":' % number
