"""Paths as the program prints them, and walks that carry them."""

import json
import re

PLAIN_NAME = re.compile(r"[^.\[\]\s\"\\\x00-\x1f\x7f-\U0010ffff]+")


def member(path, name):
    """Returns the path of a member. A name that would make the path ambiguous stands quoted in brackets."""
    return f"{path}.{name}" if PLAIN_NAME.fullmatch(name) else f"{path}[{json.dumps(name)}]"


def element(path, index):
    """Returns the path of an element of an array."""
    return f"{path}[{index}]"


def is_absent(value):
    """Returns whether a member counts as absent: it isn't there, or it is null."""
    return value is None or (value.kind == "constant" and value.data is None)


def present(value, name):
    """Returns the member of that name that counts, or None."""
    found = value.member(name) if value is not None else None
    return None if is_absent(found) else found


def text_of(value, name):
    """Returns the text in the member of that name, or None where there is no text."""
    found = present(value, name)
    return found.data if found is not None and found.kind == "string" else None


def elements(value, name, path):
    """Returns the elements of the list in the member of that name, each with its path."""
    found = present(value, name)
    at = member(path, name)
    return [(it, element(at, index)) for index, it in enumerate(found.items())] if found is not None else []


def unwrapped(value, name, path):
    """Returns the object that an element of a list of sets or groups stands for, with its path: its object member of
    that name, as the API's get calls print one, or itself."""
    found = present(value, name)
    return (found, member(path, name)) if found is not None and found.kind == "object" else (value, path)


def below(value, path):
    """Returns the value and all that is in it, each with its path, in the order of the text."""
    found, left = [], [(value, path)]
    while left:
        it, at = left.pop()
        found.append((it, at))
        inner = [(each, member(at, name)) for name, each in it.members()]
        inner += [(each, element(at, index)) for index, each in enumerate(it.items())]
        left.extend(reversed(inner))
    return found
