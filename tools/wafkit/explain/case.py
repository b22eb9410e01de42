"""A refusal together with the file that it speaks of: the value, its place, its rule and what is read there."""

import difflib
import json
import re

from .. import placed_json
from . import file_text, formats

LONGEST = 160
RULE = re.compile(r"\$\.(WebACL|RuleGroups\[\d+\](?:\.RuleGroup)?)\.Rules\[(\d+)\]")
KINDS = {"string": "a text", "number": "a number", "object": "an object", "array": "a list"}
KINDS["constant"] = "a truth value"


class Case:
    """What explanations look at. Without a file, or where its text isn't read, `root` is None."""

    def __init__(self, refusal, role, name=None, data=None):
        self.refusal, self.role, self.name, self.data = refusal, role, name, data
        self.first_line = 0
        if data is not None and role == "log" and refusal.line is not None:
            lines = data.split(b"\n")
            self.data = lines[refusal.line - 1] if refusal.line <= len(lines) else b""
            self.first_line = refusal.line - 1
        self.root = file_text.value_of(self.data) if data is not None else None
        self.path = refusal.path
        self.expected = formats.expected_at(role, self.path) if self.path else None

    @property
    def value(self):
        """The value at the path, or None where it is absent or null, or there is no file."""
        found = self.root.at(self.path) if self.root and self.path else None
        return None if found is None or (found.kind == "constant" and found.data is None) else found

    @property
    def parent(self):
        """The path of the object that should have the member at the path's end."""
        return re.sub(r"(\.[^.\[]*|\[\d+\])$", "", self.path)

    @property
    def step(self):
        """The member or the index at the path's end, or None at the top."""
        steps = formats.steps_of(self.path)
        return steps[-1] if steps else None

    def plain(self, path):
        """Returns the plain value at that path, or None."""
        found = self.root.at(path) if self.root else None
        return None if found is None else found.plain()

    def where(self, value):
        """Returns the file, line and column of a value, or None."""
        return None if value is None else f"{self.name}:{value.line + self.first_line}:{value.column}"

    def nearest(self):
        """Returns the value at the path, or else the innermost one around it that is there."""
        path = self.path
        while self.root and path:
            found = self.root.at(path)
            if found is not None:
                return found
            path = re.sub(r"(\.[^.\[]*|\[\d+\])$", "", path)
        return self.root

    def rule(self, path=None):
        """Returns which rule the path is in, or None."""
        found = RULE.match(path or self.path or "")
        if not found:
            return None
        holder, index = f"$.{found.group(1)}", int(found.group(2))
        kind = "web ACL" if holder == "$.WebACL" else "rule group"
        rule = self.plain(f"{holder}.Rules[{index}]")
        if not isinstance(rule, dict):
            return f"rule {index + 1} of the {kind}"
        owner = self.plain(f"{holder}.Name")
        return f"{shown(rule.get('Name'))}, rule {index + 1} of the {kind} {shown(owner)}"


def shown(value):
    """Returns a value as a short JSON text on one line."""
    plain = value.plain() if isinstance(value, placed_json.Value) else value
    text = json.dumps(plain)
    return text if len(text) <= LONGEST else text[:LONGEST] + ".."


def kind_of(value):
    """Returns the JSON kind of a placed value in words."""
    return "null" if value.kind == "constant" and value.data is None else KINDS[value.kind]


def likest(name, names):
    """Returns the name of the list that this one seems to be meant as, or None."""
    folded = {other.lower().replace("_", ""): other for other in names}
    key = str(name).lower().replace("_", "").replace("-", "").replace(" ", "")
    close = difflib.get_close_matches(key, folded, n=1, cutoff=0.7)
    return folded[close[0]] if close else None
