"""What a line tells of managed rule groups: the verdict by the rule group list, and the labels."""

import json

from . import managed_labels
from .questions import compact, of_managed
from .record import object_of, objects_of, text_of
from .rule_matches import has_list, managed_id

ENDING = ("ALLOW", "BLOCK", "CAPTCHA", "CHALLENGE")
WITH_TOKEN = {"CAPTCHA", "CHALLENGE"}
# What changes what the rules of a group do, and not which of them match.
OVERRIDES = ("RuleActionOverrides", "ExcludedRules", "ScopeDownStatement")


class GroupVerdicts:
    """The managed rule groups that the revisions ask about, and those of the deployed one."""

    def __init__(self, asked, deployed):
        self.deployed = deployed
        self.rules = [rule for rule in deployed.rules if rule.managed]
        found = [it for revision in asked for it in revision.questions if it.kind == "group"]
        self.bodies = {it: json.loads(it.key)["ManagedRuleGroupStatement"] for it in found}
        self.askers = [rule for revision in (*asked, deployed) for rule in revision.rules if rule.managed]

    def verdicts(self, record, tried, tokens):
        """Returns the verdict and the labels for each question that the line answers. `tokens` are the answers to the
        questions of tokens, None where one isn't known."""
        entries = {rule: self.entries(rule, record) for rule in self.rules}
        acted = [rule for rule in self.rules if entries[rule]]
        labels = managed_labels.of_groups(acted, record)
        if labels is None or not has_list(record.value, "ruleGroupList"):
            return {}
        found = {}
        for question, body in self.bodies.items():
            rule = self.source(body)
            if rule is None or rule not in tried.rules or len(entries[rule]) > 1:
                continue
            if entries[rule]:
                verdict = self.verdict(question, rule, entries[rule][0], tokens)
            else:
                verdict = "NONE" if tried.is_past(rule) and self.is_alike_scoped(rule) else None
            if verdict:
                found[question] = (verdict, labels.get(rule, []))
        return found

    def entries(self, rule, record):
        """Returns what the rule group list holds of a rule's group; its id may have the version behind it."""
        name = managed_id(rule)
        return record.rule_groups(lambda it: it == name or it.startswith(f"{name}#"))

    def source(self, body):
        """Returns the one rule of the deployed revision whose group is that of a question, alike but for what its rules
        do, or None."""
        same = [it for it in self.rules if all(it.managed.get(one) == body.get(one) for one in ("VendorName", "Name"))]
        return same[0] if len(same) == 1 and without_overrides(same[0].managed) == without_overrides(body) else None

    def is_alike_scoped(self, rule):
        """Returns whether a group that the log doesn't name is known not to match: it was tried for every request, or
        for the same requests everywhere."""
        mine = rule.managed.get("ScopeDownStatement")
        others = [it.managed for it in self.askers if managed_id(it) == managed_id(rule)]
        return mine is None or all(it.get("ScopeDownStatement") == mine for it in others)

    def verdict(self, question, rule, entry, tokens):
        """Returns the verdict of a group that the log names, or None where its rules don't tell it."""
        end = object_of(entry, "terminatingRule")
        counted = objects_of(entry, "nonTerminatingMatchingRules")
        excluded = [it for it in objects_of(entry, "excludedRules") if text_of(it, "ruleId")]
        if of_managed(rule.managed) == question:
            return logged(end, counted, tokens)
        effective = [action_under(self.bodies[question], it, own) for it, own in matches(end, counted, excluded)]
        if None in effective:
            return None
        ends = [action for action in effective if action in ENDING]
        if not ends:
            # The rules behind one that ended the group weren't tried.
            return None if end else "NONE"
        if len(set(ends)) > 1:
            return None
        is_last = bool(end) and effective[-1] in ENDING and len(ends) == 1
        return ends[0] if is_last or len(effective) == 1 or self.needs_no_labels(question, ends[0]) else None

    def needs_no_labels(self, question, verdict):
        """Returns whether a verdict ends the evaluation, so that no rule asks for the labels of the group."""
        mine = [rule for rule in self.askers if of_managed(rule.managed) == question]
        counted = any("Count" in object_of(rule.value, "OverrideAction") for rule in mine)
        return verdict not in WITH_TOKEN and not counted


def without_overrides(body):
    return compact({name: value for name, value in body.items() if name not in OVERRIDES})


def logged(end, counted, tokens):
    """Returns the verdict of a group whose rules do what they did. A Captcha or Challenge that a valid token passed is
    its verdict, as another immunity time may not pass; with an ending rule behind it, only where all times pass."""
    passed = {text_of(it, "action") for it in counted} & WITH_TOKEN
    verdict = text_of(end, "action")
    if end and verdict not in ENDING:
        return None
    if end and passed:
        return verdict if all(valid for it, valid in tokens.items() if it.key.split(" ")[0] in passed) else None
    if len(passed) > 1:
        return None
    return verdict or (passed.pop() if passed else "NONE")


def matches(end, counted, excluded):
    """Yields the rules of a group that matched, with their own actions: None where the log doesn't say. The ending rule
    comes last."""
    names = {text_of(it, "ruleId") for it in counted}
    for it in [*counted, *([end] if end else [])]:
        yield text_of(it, "ruleId"), text_of(it, "overriddenAction") or text_of(it, "action")
    for it in excluded:
        if text_of(it, "ruleId") not in names:
            yield text_of(it, "ruleId"), None


def action_under(body, name, own):
    """Returns what a rule of a group does under the overrides of a statement."""
    for override in objects_of(body, "RuleActionOverrides"):
        if text_of(override, "Name") == name:
            return next((action.upper() for action in object_of(override, "ActionToUse")), None)
    if any(text_of(it, "Name") == name for it in objects_of(body, "ExcludedRules")):
        return "COUNT"
    return own
