"""JSON with places: each value with its line and column, and all members of an object, also those of one name.

The standard library's reader keeps no places and drops all but the last member of a name. Strings and numbers are read
by that reader's own parts.
"""

import re
from json import JSONDecodeError
from json.decoder import scanstring
from json.scanner import NUMBER_RE

SPACES = re.compile(r"[ \t\n\r]*")
CONSTANTS = {"null": None, "true": True, "false": False}


class Value:
    """A value of a JSON text: `data` is None, a bool, a str, a number, a list of values, or a list of members."""

    def __init__(self, kind, data, offset, text):
        self.kind, self.data, self.offset, self.text = kind, data, offset, text

    @property
    def line(self):
        """The number of its line, from 1."""
        return self.text.count("\n", 0, self.offset) + 1

    @property
    def column(self):
        """The number of its first character within the line, from 1."""
        return self.offset - self.text.rfind("\n", 0, self.offset)

    def members(self):
        """Returns the members of an object as pairs of name and value, in the order of the text, and else none."""
        return [(member.name, member.value) for member in self.data] if self.kind == "object" else []

    def member(self, name):
        """Returns the value of the last member of that name, as JSON readers do, or None."""
        return dict(self.members()).get(name)

    def items(self):
        """Returns the elements of an array; none of another value."""
        return self.data if self.kind == "array" else []

    def plain(self):
        """Returns the value as `json.loads` gives it."""
        if self.kind == "object":
            return {name: value.plain() for name, value in self.members()}
        return [it.plain() for it in self.data] if self.kind == "array" else self.data

    def at(self, path):
        """Returns the value at a path as the program prints it (`$.WebACL.Rules[3].Action`), or None."""
        found = self
        for name, index in re.findall(r"\.([^.\[]*)|\[(\d+)\]", path.partition("$")[2]):
            if found is None:
                return None
            if index:
                found = found.items()[int(index)] if int(index) < len(found.items()) else None
            else:
                found = found.member(name)
        return found


class Member:
    """A member of an object; `offset` is that of its name."""

    def __init__(self, name, value, offset):
        self.name, self.value, self.offset = name, value, offset


def read(text):
    """Returns the value that the text is. It raises `json.JSONDecodeError`, which has the place and the cause."""
    value, end = value_at(text, spaces(text, 0))
    if spaces(text, end) != len(text):
        raise JSONDecodeError("Extra data", text, spaces(text, end))
    return value


def spaces(text, at):
    return SPACES.match(text, at).end()


def value_at(text, at):
    """Returns the value that begins there, and where it ends."""
    first = text[at : at + 1]
    if first == "{":
        return object_at(text, at)
    if first == "[":
        return array_at(text, at)
    if first == '"':
        data, end = scanstring(text, at + 1, True)
        return Value("string", data, at, text), end
    for word, data in CONSTANTS.items():
        if text.startswith(word, at):
            return Value("constant", data, at, text), at + len(word)
    number = NUMBER_RE.match(text, at)
    if not number:
        raise JSONDecodeError("Expecting value", text, at)
    whole, fraction, exponent = number.groups()
    data = float(number.group()) if fraction or exponent else int(whole)
    return Value("number", data, at, text), number.end()


def array_at(text, at):
    items, end = [], spaces(text, at + 1)
    while text[end : end + 1] != "]" or items:
        item, end = value_at(text, end)
        items.append(item)
        end = spaces(text, end)
        if text[end : end + 1] == "]":
            break
        end = after(text, end, ",")
    return Value("array", items, at, text), end + 1


def object_at(text, at):
    members, end = [], spaces(text, at + 1)
    while text[end : end + 1] != "}" or members:
        name_at = end
        if text[end : end + 1] != '"':
            raise JSONDecodeError("Expecting property name enclosed in double quotes", text, end)
        name, end = scanstring(text, end + 1, True)
        value, end = value_at(text, after(text, spaces(text, end), ":"))
        members.append(Member(name, value, name_at))
        end = spaces(text, end)
        if text[end : end + 1] == "}":
            break
        end = after(text, end, ",")
    return Value("object", members, at, text), end + 1


def after(text, at, mark):
    """Returns where the text goes on behind that mark."""
    if text[at : at + 1] != mark:
        raise JSONDecodeError(f"Expecting '{mark}' delimiter", text, at)
    return spaces(text, at + 1)
