"""A finding of lint: where it is, what was found there and what to write instead."""

import json

# So much of a value is shown in a finding.
MOST_SHOWN = 80


class Finding:
    """One finding: the file, the place in its text, the path, the rule, what was found and what to write."""

    def __init__(self, rule, path, place, found, write):
        self.rule, self.path, self.found, self.write = rule, path, found, write
        self.text, self.offset = place.text, place.offset
        self.file = ""

    @property
    def line(self):
        """The number of the line, from 1."""
        return self.text.count("\n", 0, self.offset) + 1

    @property
    def column(self):
        """The number of the character within the line, from 1."""
        return self.offset - self.text.rfind("\n", 0, self.offset)

    def as_line(self):
        """Returns the finding as one line of plain text, as compilers write theirs."""
        return f"{self.file}:{self.line}:{self.column}: {self.rule} {self.path}: {self.found}; {self.write}"

    def as_json(self):
        """Returns the finding as one line of JSON."""
        members = {"file": self.file, "line": self.line, "column": self.column, "rule": self.rule}
        return json.dumps({**members, "path": self.path, "found": self.found, "write": self.write})


class Place:
    """A place in a text that is no value: the name of a member."""

    def __init__(self, text, offset):
        self.text, self.offset = text, offset


def shown(data):
    """Returns a value as JSON on one line, of printable ASCII alone, cut where it is long."""
    text = json.dumps(data)
    return text if len(text) <= MOST_SHOWN else f"{text[:MOST_SHOWN]}.."
