"""A JSON file, read with places."""

import json

from .. import placed_json
from ..fault import Fault

# serde_json, which the program reads with, takes no text that is nested deeper.
DEEPEST = 127


def read(name):
    """Returns the value that the file holds, or ends the command with what bars it from being read."""
    try:
        with open(name, "rb") as file:
            content = file.read()
    except OSError as cause:
        raise Fault(f"{printable(name)}: {cause.strerror or cause}") from cause
    try:
        value = placed_json.read(content.decode("utf-8"))
        # A number of thousands of digits is a ValueError of its own.
    except json.JSONDecodeError as cause:
        text = f"no JSON text: {cause.msg} at line {cause.lineno}, column {cause.colno}"
        raise Fault(f"{printable(name)}: {text}; wafkit explain says more") from cause
    except UnicodeDecodeError as cause:
        raise Fault(f"{printable(name)}: no UTF-8 at byte {cause.start}; wafkit explain says more") from cause
    except RecursionError as cause:
        raise Fault(f"{printable(name)}: nested deeper than {DEEPEST}, which the program refuses as E1") from cause
    except ValueError as cause:
        raise Fault(f"{printable(name)}: a number that can't be read: {cause}") from cause
    if depth(value) > DEEPEST:
        raise Fault(f"{printable(name)}: nested deeper than {DEEPEST}, which the program refuses as E1")
    if value.kind != "object":
        raise Fault(f"{printable(name)}: the text is no JSON object")
    return value


def depth(value):
    """Returns how many arrays and objects stand around the innermost value, itself among them."""
    deepest, left = 0, [(value, 1)]
    while left:
        found, level = left.pop()
        if found.kind in ("array", "object"):
            deepest = max(deepest, level)
            left.extend((it, level + 1) for it in found.items() + [member for _, member in found.members()])
    return deepest


def printable(name):
    """Returns a file's name so that it can be printed whatever its bytes are."""
    return name.encode("utf-8", "backslashreplace").decode("utf-8")
