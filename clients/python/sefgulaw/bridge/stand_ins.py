"""The module of stand-ins. It is one text for every tree, since calls are rewritten one by one."""

from __future__ import annotations

from sefgulaw.bridge.labels import DEFS_FILE, LIST_MARK, ONE_MARK, STAND_INS
from sefgulaw.names import Path, join

_LABELS = """
def encode(odd, x):
    if type(x) != "string":
        return x
    for pair in odd[1]:
        if pair[0] in x:
            x = x.replace(pair[0], pair[1])
    return x

def decode(odd, x):
    for pair in odd[1]:
        if pair[1] in x:
            x = x.replace(pair[1], pair[0])
    return x

def label(odd, x):
    for own in odd[0]:
        if x.startswith(own):
            x = x[len(own) - 2:]
    if not x.startswith("@"):
        return encode(odd, x)
    parts = x.split("//")
    repository = parts[0].replace("@", "__x40")
    if len(parts) == 1:
        return encode(odd, "//" + repository + ":" + x.replace("@", ""))
    rest = "//".join(parts[1:])
    package = rest.split(":")[0]
    if ":" in rest:
        name = rest[len(package) + 1:]
    elif package != "":
        name = package.split("/")[-1]
    else:
        name = parts[0].replace("@", "")
    where = repository + "/" + package if package != "" else repository
    return encode(odd, "//" + where + ":" + name)

def labels(odd, attribute, x):
    if type(x) == "string":
        return [ONE_MARK + attribute, label(odd, x)] if x != "" else []
    if type(x) == "dict":
        x = x.keys()
    if type(x) != "list" and type(x) != "tuple":
        return []
    found = [LIST_MARK + attribute]
    for y in x:
        if type(y) == "string":
            found.append(label(odd, y))
        elif type(y) == "list":
            found.extend([label(odd, z) for z in y if type(z) == "string"])
    return found

def other(attribute, x):
    return "none" if x == None else attribute + "=" + repr(x)

def strings(x):
    if type(x) == "string":
        return [x]
    if type(x) == "list":
        return [y for y in x if type(y) == "string"]
    return None

def select(branches):
    found = []
    seen = {}
    is_list = False
    for value in branches.values():
        if type(value) == "list":
            is_list = True
            for one in value:
                if type(one) != "string":
                    found.append(one)
                elif one not in seen:
                    seen[one] = True
                    found.append(one)
    if is_list:
        return found
    values = branches.values()
    return branches.get("//conditions:default", values[0] if values else None)

def glob(odd, include = [], exclude = [], exclude_directories = 1, allow_empty = True):
    found = native.glob(
        [encode(odd, x) for x in include],
        [encode(odd, x) for x in exclude],
        allow_empty,
        exclude_directories = exclude_directories,
    )
    return [decode(odd, x) for x in found]
"""

_TEXTS = """
def single(x):
    return x[0] if type(x) == "tuple" and len(x) == 1 else x

def add(x, y):
    if type(x) == "list":
        x.extend(y)
        return x
    return x + y

def union(x, y):
    found = dict(x)
    for key in y:
        found[key] = y[key]
    return found

def percent(x, y):
    if type(x) == "int":
        return x % y
    if type(y) != "tuple":
        y = (y,)
    pieces = x.split("%")
    out = pieces[0]
    at = 0
    is_text = False
    for piece in pieces[1:]:
        if is_text:
            out = out + piece
            is_text = False
        elif piece == "":
            out = out + "%"
            is_text = True
        else:
            if piece[0] == "(":
                key = piece[1:].split(")")[0]
                piece = piece[len(key) + 2:]
                value = y[0][key]
            else:
                value = y[at]
                at += 1
            out = out + (repr(value) if piece[0] == "r" else str(value)) + piece[1:]
    return out

DIGITS = {"0": 0, "1": 1, "2": 2, "3": 3, "4": 4, "5": 5, "6": 6, "7": 7, "8": 8, "9": 9}

def format(x, arguments, named):
    pieces = x.replace("{{", "__x7b").replace("}}", "__x7d").split("{")
    out = pieces[0]
    at = 0
    for piece in pieces[1:]:
        key = piece.split("}")[0]
        if key == "":
            value = arguments[at]
            at += 1
        elif key in named:
            value = named[key]
        else:
            value = arguments[DIGITS[key]]
        out = out + str(value) + piece[len(key) + 1:]
    return out

SMALL = [FOLDS]

def lower(x):
    for pair in SMALL:
        if pair[0] in x:
            x = x.replace(pair[0], pair[1])
    return x

def upper(x):
    for pair in SMALL:
        if pair[1] in x:
            x = x.replace(pair[1], pair[0])
    return x

def capitalize(x):
    return upper(x[:1]) + lower(x[1:])

def elems(x):
    return [x[at] for at in range(len(x))]

def startswith(x, prefix):
    if type(prefix) != "tuple":
        return x.startswith(prefix)
    return any([x.startswith(one) for one in prefix])

def endswith(x, suffix):
    if type(suffix) != "tuple":
        return x.endswith(suffix)
    return any([x.endswith(one) for one in suffix])

def removeprefix(x, prefix):
    return x[len(prefix):] if x.startswith(prefix) else x

def removesuffix(x, suffix):
    return x[:len(x) - len(suffix)] if x.endswith(suffix) else x
"""

_PARTS = """
def find(x, part):
    return len(x.split(part)[0]) if part in x else -1

def rfind(x, part):
    return len(x) - len(x.split(part)[-1]) - len(part) if part in x else -1

def index(x, part):
    if type(x) == "string":
        return len(x.split(part)[0]) if part in x else fail("no such part")
    for at in range(len(x)):
        if x[at] == part:
            return at
    return fail("no such member")

def count(x, part):
    if type(x) == "string":
        return len(x.split(part)) - 1
    return len([one for one in x if one == part])

def partition(x, separator):
    if separator not in x:
        return (x, "", "")
    head = x.split(separator)[0]
    return (head, separator, x[len(head) + len(separator):])

def rpartition(x, separator):
    if separator not in x:
        return ("", "", x)
    tail = x.split(separator)[-1]
    return (x[:len(x) - len(tail) - len(separator)], separator, tail)

def split(x, separator, most = -1):
    parts = x.split(separator)
    if most < 0 or len(parts) - 1 <= most:
        return parts
    return parts[:most] + [separator.join(parts[most:])]

def rsplit(x, separator, most = -1):
    parts = x.split(separator)
    if most < 0 or len(parts) - 1 <= most:
        return parts
    first = len(parts) - most
    return [separator.join(parts[:first])] + parts[first:]

def replace(x, old, new, most = -1):
    parts = x.split(old)
    if most < 0 or len(parts) - 1 <= most:
        return new.join(parts)
    return new.join(parts[:most + 1]) + old + old.join(parts[most + 1:])

def splitlines(x):
    lines = x.split("\\n")
    return lines[:-1] if lines[-1] == "" else lines

def lstrip(x, characters = " \\t\\n\\r"):
    for at in range(len(x)):
        if x[at] not in characters:
            return x[at:]
    return ""

def rstrip(x, characters = " \\t\\n\\r"):
    for at in range(len(x)):
        last = len(x) - at - 1
        if x[last] not in characters:
            return x[:last + 1]
    return ""

def strip(x, characters = " \\t\\n\\r"):
    return rstrip(lstrip(x, characters), characters)

def setdefault(x, key, value = None):
    if key not in x:
        x[key] = value
    return x[key]

def update(x, other):
    for key in other:
        x[key] = other[key]
"""


def stand_ins() -> str:
    """Returns the text of the module."""
    letters = "abcdefghijklmnopqrstuvwxyz"
    folds = ", ".join(f'("{it.upper()}", "{it}")' for it in letters)
    text = _LABELS.replace("ONE_MARK", f'"{ONE_MARK}"').replace("LIST_MARK", f'"{LIST_MARK}"')
    return text.lstrip("\n") + _TEXTS.replace("FOLDS", folds) + _PARTS


def files() -> dict[Path, str]:
    """Returns the files of the stand-ins' package."""
    return {join(STAND_INS, "BUILD"): "", DEFS_FILE: stand_ins()}
