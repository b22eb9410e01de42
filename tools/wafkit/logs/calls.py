"""Calls of the program on bundles, lines and answers, and what it printed."""

import collections
import os
import re

from .. import program, status
from ..fault import Fault

CHANGED = re.compile(rb"line (\d+) old (.+) new (.+)")
REFUSED = re.compile(rb"refused log:(\d+) (.*)")

# What `evaluate` prints: the decision, and the rule that ended the evaluation (`default`, `4 admin`, `1 a / 2 b`).
Outcome = collections.namedtuple("Outcome", "decision rule")


class RefusedLine(Exception):
    """The program refused a line of a log: its number, and the code with its detail."""

    def __init__(self, number, why):
        super().__init__(number, why)
        self.number, self.why = number, why


def questions_of(path):
    """Returns what `keys` prints of a bundle, or ends the command as the program did."""
    code, printed = program.run("keys", os.path.abspath(path))
    return judged(code, printed, f"{path}: the program printed")


def keys(path):
    """Returns what `keys` prints of a bundle that was made of one that the program took."""
    return judged(*program.call("keys", path), "the program printed")


def evaluate(bundle, request, answers):
    """Returns the outcome of a request; all three are paths."""
    printed = judged(*program.call("evaluate", bundle, request, answers), "the program printed")
    lines = dict(line.split(" ", 1) for line in reversed(printed.decode().splitlines()) if " " in line)
    return Outcome(lines["decision"], lines["rule"])


def impact(old, new, log, answers):
    """Returns the lines of a log that are decided otherwise, by their numbers, with both decisions; all four are
    paths."""
    code, printed = program.call("impact", old, new, log, answers)
    refused = REFUSED.match(printed) if code == status.UNREADABLE else None
    if refused:
        raise RefusedLine(int(refused.group(1)), refused.group(2).decode("utf-8", "replace"))
    if code not in (0, 1):
        judged(code, printed, "the program printed")
    found = (CHANGED.fullmatch(line) for line in printed.splitlines())
    return {int(one.group(1)): (one.group(2).decode(), one.group(3).decode()) for one in found if one}


def judged(code, printed, text):
    """Returns what was printed, where the program answered; else the command ends with its line and its status."""
    if code != 0:
        said = printed.decode("utf-8", "replace").strip() or f"nothing, and ended with status {code}"
        raise Fault(f"{text} {said}", code if code > 0 else status.MISSING)
    return printed
