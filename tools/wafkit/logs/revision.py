"""A revision of a web ACL: its bundle, its rules in the order in which they are tried, and the questions that it
asks."""

import json
import os

from .. import status
from ..fault import Fault
from . import calls, questions
from .record import object_of, objects_of, text_of


class Rule:
    """A rule of the web ACL or of a rule group that it refers to, with what its statement is."""

    def __init__(self, value, group=""):
        self.value, self.group = value, group
        self.name = text_of(value, "Name") or ""
        self.statement = object_of(value, "Statement")
        self.managed = object_of(self.statement, "ManagedRuleGroupStatement")
        self.reference = text_of(object_of(self.statement, "RuleGroupReferenceStatement"), "ARN")
        self.inner = []


class Revision:
    """What a bundle says, read once; the program took it before."""

    def __init__(self, path):
        self.path = os.path.abspath(path)
        self.questions = questions.read(calls.questions_of(path))
        self.bundle = read_json(path)
        self.acl = object_of(self.bundle, "WebACL")
        self.arn, self.name = text_of(self.acl, "ARN"), text_of(self.acl, "Name")
        self.encoded = self.bundle.get("SearchStringEncoding") != "TEXT"
        self.pattern_sets = by_arn(self.bundle, "RegexPatternSets", "RegexPatternSet")
        self.groups = by_arn(self.bundle, "RuleGroups", "RuleGroup")
        self.rules = [self.with_inner(Rule(it)) for it in by_priority(objects_of(self.acl, "Rules"))]

    def with_inner(self, rule):
        group = self.groups.get(rule.reference, {}) if rule.reference else {}
        name = text_of(group, "Name") or ""
        rule.inner = [Rule(it, name) for it in by_priority(objects_of(group, "Rules"))]
        return rule

    def all_rules(self):
        """Returns the rules of the web ACL, and those of the groups that it refers to."""
        return [one for rule in self.rules for one in (rule, *rule.inner)]

    def is_of(self, record):
        """Returns whether a line of a log is of this web ACL: by its ARN, or by the name in its ARN."""
        found = record.text("webaclId")
        if not found:
            return False
        return found == self.arn or found.split("/")[-2:-1] == [self.name]


def read_json(path):
    try:
        with open(path, "rb") as file:
            return json.loads(file.read())
    except (OSError, ValueError) as cause:
        raise Fault(f"{path}: can't be read: {cause}", status.UNREADABLE) from cause


def by_arn(bundle, name, inner):
    """Returns the elements of a list by their ARN, the first of each; one that wraps such an object stands for it."""
    found = {}
    for it in objects_of(bundle, name):
        one = object_of(it, inner) or it
        found.setdefault(text_of(one, "ARN"), one)
    return found


def by_priority(rules):
    return sorted(rules, key=lambda rule: rule["Priority"])
