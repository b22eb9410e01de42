"""Refusals: the lines that the program prints where it doesn't answer."""

import re

ROLE = r"(?P<role>bundle|request|answers|old|new|log)(?::(?P<line>\d+))?"
CODE = r"(?P<code>E\d+)(?: (?P<detail>.*))?"
FORMS = (
    re.compile(rf"(?P<kind>refused) {ROLE} {CODE}"),
    re.compile(rf"(?P<kind>){CODE}"),
    re.compile(rf"(?P<kind>read fault) {ROLE}"),
    re.compile(rf"(?P<kind>too long) {ROLE}"),
    re.compile(r"(?P<kind>not reviewable) (?P<role>old|new|bundle) (?P<code>N\d) (?P<detail>.*)"),
    re.compile(r"(?P<kind>usage): .*"),
    re.compile(r"(?P<kind>memory)"),
)
# The kinds of lines with which the program answers.
ANSWERS = ("decision ", "capacity ", "review ", "impact ", "statement ", "group ", "token ", "line ")


class Refusal:
    """A refusal: its text and kind, and as far as it has them a file's role, a log's line, a code and its detail."""

    def __init__(self, text, parts):
        self.text, self.kind = text, parts["kind"] or "refused"
        self.role, self.code, self.detail = parts.get("role"), parts.get("code"), parts.get("detail")
        self.line = int(parts["line"]) if parts.get("line") else None

    @property
    def path(self):
        """The path in its detail, or None."""
        return self.detail.split(" ")[0] if self.detail and self.detail.startswith("$") else None

    @property
    def limit(self):
        """The limit behind the path of E11, or None."""
        words = self.detail.split(" ") if self.detail else []
        return int(words[-1]) if self.code == "E11" and len(words) > 1 and words[-1].isdigit() else None


def read(text):
    """Returns the first refusal among the lines of a text, or None."""
    for line in text.splitlines():
        line = line.strip().strip("`")
        for form in FORMS:
            parts = form.fullmatch(line)
            if parts:
                return Refusal(line, parts.groupdict())
    return None


def is_answer(text):
    """Returns whether the text is what the program prints where it answers."""
    return not text.strip() or text.startswith(ANSWERS)
