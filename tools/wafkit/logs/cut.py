"""A revision cut before the first rule that asks a question without an answer, with a decision of its own behind the
cut: what is decided before it is decided so whatever the answer is."""

import json
import os

from . import calls, questions, unseen_parts
from .record import object_of

# Statements that never hold, and always: an Or and an And of nothing.
ALWAYS = {False: {"OrStatement": {"Statements": []}}, True: {"AndStatement": {"Statements": []}}}


class Cutter:
    """Cuts one revision; which questions a rule asks is what the program prints of a bundle of this rule alone."""

    def __init__(self, revision, marker):
        self.revision, self.marker = revision, marker
        self.asked, self.paths = {}, {}

    def cut(self, told, work):
        """Returns the path of the bundle of the rules before the first that asks a question which a line doesn't
        answer, written into that folder. Its default decision is BLOCK with the marker as its code; where no rule asks
        one, the whole revision with its own default decision. Rules that are told whether they match have a statement
        that says so."""
        if not told.unknown:
            return self.revision.path
        settled = dict(told.settled)
        place = next((it for it, rule in enumerate(self.revision.rules) if self.asks(rule, told, work)), None)
        if place is None and not settled:
            return self.revision.path
        if (work, place, told.settled) not in self.paths:
            truths = ((rule, settled.get(rule.name)) for rule in self.revision.rules[:place])
            rules = [rule.value if it is None else {**rule.value, "Statement": ALWAYS[it]} for rule, it in truths]
            self.paths[work, place, told.settled] = self.written(rules, work, {} if place is None else self.marked())
        return self.paths[work, place, told.settled]

    def asks(self, rule, told, work):
        """Returns whether a rule asks a question without an answer."""
        return rule.name not in dict(told.settled) and bool(self.questions(rule, work) & set(told.unknown))

    def questions(self, rule, work):
        if rule not in self.asked:
            path = self.written([rule.value], work, {})
            self.asked[rule] = unseen_parts.looked_at(rule).union(questions.read(calls.keys(path)))
        return self.asked[rule]

    def marked(self):
        return {"DefaultAction": {"Block": {"CustomResponse": {"ResponseCode": self.marker}}}}

    def written(self, rules, work, changed):
        acl = {**self.revision.acl, "Rules": rules, **changed}
        path = os.path.join(work, f"cut-{self.marker}-{len(os.listdir(work))}.json")
        with open(path, "w", encoding="utf-8") as file:
            json.dump({**self.revision.bundle, "WebACL": acl}, file)
        return path

    @property
    def decision(self):
        """The decision of a request that reaches the cut."""
        return f"BLOCK {self.marker}"


def cutters(*revisions):
    """Returns a cutter for each revision, with codes that none of them answers with."""
    used = {403}
    for revision in revisions:
        used |= codes(revision.bundle)
    free = [code for code in range(599, 199, -1) if code not in used]
    return [Cutter(revision, code) for revision, code in zip(revisions, free)]


def codes(bundle):
    """Returns all response codes in a bundle."""
    waiting, found = [bundle], set()
    while waiting:
        value = waiting.pop()
        if isinstance(value, dict):
            code = object_of(value, "CustomResponse").get("ResponseCode")
            found |= {code} if isinstance(code, int) else set()
            waiting += value.values()
        elif isinstance(value, list):
            waiting += value
    return found
