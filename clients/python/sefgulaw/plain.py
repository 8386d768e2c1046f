"""Text for people from the lines of JSON that answer a request."""

from __future__ import annotations

from base64 import b64decode
from collections.abc import Mapping

Members = Mapping[str, object]


def name_bytes(members: Members, member: str) -> bytes:
    """Returns the real bytes of a name, which stand beside it where it is not UTF-8."""
    coded = members.get(f"{member}_bytes")
    if isinstance(coded, str):
        return b64decode(coded)
    return str(members[member]).encode("utf-8", "surrogateescape")


def is_message(members: Members) -> bool:
    """Tells whether a line is about a fault, and not about a target."""
    return "severity" in members


def text_lines(members: Members) -> bytes:
    """Returns what a person is shown of a line of JSON, without the end of line."""
    if is_message(members):
        return message_text(members)
    return name_bytes(members, "label") + b" " + str(members["kind"]).encode()


def message_text(members: Members) -> bytes:
    """Returns a message as compilers print it, with a line for each note."""
    tail = f": {members['severity']}: {members['message']} [{members['code']}]{_users(members)}"
    lines = [_place(members) + tail.encode("utf-8", "surrogateescape")]
    notes = members["notes"]
    for note in notes if isinstance(notes, list) else []:
        lines.append(_place(note) + f": note: {note['message']}".encode())
    return b"\n".join(lines)


def _place(members: Members) -> bytes:
    return name_bytes(members, "file") + f":{members['line']}:{members['column']}".encode()


def _users(members: Members) -> str:
    """Names the packages where the file does not, or where there are several."""
    packages = members["packages"]
    if not isinstance(packages, list) or not packages:
        return ""
    first, others = packages[0], len(packages) - 1
    if not others and first == str(members["file"]).rpartition("/")[0]:
        return ""
    if not others:
        return f" (in //{first})"
    return f" (in //{first}, and {others:,} other package{'s' if others > 1 else ''})"
