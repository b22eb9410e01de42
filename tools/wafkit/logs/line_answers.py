"""The answers of a line: what it tells of each question, and which questions it doesn't tell of."""

import collections
import json

from . import rule_matches, token_answers, unseen_parts
from .group_verdicts import GroupVerdicts
from .record import Record
from .statement_truths import ByRules, Direct


# The answers by question; the questions that the line doesn't answer, also those of parts that it doesn't hold; and the
# names of rules that look at such a part, with whether they matched.
Told = collections.namedtuple("Told", "answers unknown settled")


class Teller:
    """Tells the answers of lines to the questions of one or two revisions, of which `deployed` wrote the log."""

    def __init__(self, asked, deployed):
        self.questions = tuple(dict.fromkeys(it for revision in asked for it in revision.questions))
        self.deployed = deployed
        self.direct, self.by_rules = Direct(asked, deployed), ByRules(asked, deployed)
        self.groups = GroupVerdicts(asked, deployed)
        self.settled = unseen_parts.Settled(asked, deployed)

    def tell(self, line):
        """Returns what a line tells."""
        if not self.questions and not self.settled.asked:
            return Told({}, (), frozenset())
        record = Record(line)
        tried = rule_matches.of(self.deployed, record)
        told = self.by_rules.truths(tried)
        for question in self.questions:
            if question.kind == "statement":
                direct = self.direct.truth(question, record)
                told[question] = told.get(question) if direct is None else direct
            elif question.kind == "token":
                told[question] = token_answers.validity(question, record)
        tokens = {it: told[it] for it in self.questions if it.kind == "token"}
        told.update(self.groups.verdicts(record, tried, tokens))
        answers = {it: told[it] for it in self.questions if told.get(it) is not None}
        unknown = tuple(it for it in self.questions if it not in answers)
        unseen = self.settled.unseen(record)
        return Told(answers, (*unknown, *unseen), self.settled.truths(unseen, tried) if unseen else frozenset())


def text(answers):
    """Returns a file of answers, as the program writes one."""
    groups, statements, tokens = [], [], []
    for question, answer in answers.items():
        if question.kind == "group":
            groups.append({"Key": question.key, "Labels": answer[1], "Verdict": answer[0]})
        elif question.kind == "statement":
            statements.append({"Key": question.key, "Match": answer})
        else:
            kind, seconds = question.key.split(" ")
            tokens.append({"ImmunityTime": int(seconds), "Kind": kind, "Valid": answer})
    found = {"Groups": groups, "Statements": statements, "Tokens": tokens}
    return json.dumps(found, separators=(",", ":"), ensure_ascii=False)
