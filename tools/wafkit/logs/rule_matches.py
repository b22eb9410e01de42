"""Which rules of the deployed revision matched the request of a line, and which were tried and didn't.

The line names the rule that ended the evaluation; all rules before it were tried, and of these the ones that matched
are named as non-terminating. What stands behind the ending rule wasn't tried, and isn't told."""

from .record import object_of, objects_of, text_of

DEFAULT = "Default_Action"


class Tried:
    """The rules that were tried, with whether they matched; the rules of the web ACL that stand at or before the
    end."""

    def __init__(self):
        self.matched, self.rules, self.ending = {}, [], None

    def is_past(self, rule):
        """Returns whether the evaluation went on behind that rule of the web ACL."""
        return rule in self.rules and rule is not self.ending


def of(deployed, record):
    """Returns what the line tells of the rules; nothing where it is of another web ACL, or names a rule that isn't
    here."""
    tried = Tried()
    if not deployed.is_of(record):
        return tried
    end = text_of(record.value, "terminatingRuleId")
    ending = None if end == DEFAULT else ending_rule(deployed, end)
    if end is None or (ending is None and end != DEFAULT):
        return tried
    counted = named(record.value) | rates(record)
    tried.ending = ending
    for rule in deployed.rules:
        tried.rules.append(rule)
        if rule is ending or rule.name in counted or has_list(record.value, "nonTerminatingMatchingRules"):
            tried.matched[rule] = rule is ending or rule.name in counted
        if rule.inner and has_list(record.value, "ruleGroupList"):
            tried.matched.update(inside(deployed, rule, rule is ending, record))
        if rule is ending:
            break
    return tried


def has_list(value, name):
    """Returns whether a record has such a list at all: a sampled request has none, so that what isn't in it isn't
    told."""
    return isinstance(value.get(name), list)


def ending_rule(deployed, end):
    """Returns the rule of the web ACL that a line names as the ending one: by its name, or by what it refers to."""
    for rule in deployed.rules:
        if end == rule.name:
            return rule
    found = [rule for rule in deployed.rules if end and end in (rule.reference, managed_id(rule))]
    return found[0] if len(found) == 1 else None


def managed_id(rule):
    """Returns how a log names the managed rule group of a rule, or None."""
    return f"{rule.managed.get('VendorName')}#{rule.managed.get('Name')}" if rule.managed else None


def named(value):
    """Returns the names of the rules that matched without ending the evaluation, those that were excluded among
    them."""
    lists = ("nonTerminatingMatchingRules", "excludedRules")
    return {text_of(it, "ruleId") for name in lists for it in objects_of(value, name)}


def rates(record):
    """Returns the names of the rate-based rules of the web ACL that acted."""
    return {text_of(it, "rateBasedRuleName") for it in record.objects("rateBasedRuleList")}


def inside(deployed, rule, ends, record):
    """Returns which rules of a rule group matched, of those that were tried."""
    if sum(one.reference == rule.reference for one in deployed.rules) != 1:
        return {}
    entries = record.rule_groups(lambda name: name == rule.reference)
    if len(entries) > 1 or (ends and not entries):
        return {}
    entry = entries[0] if entries else {}
    end = text_of(object_of(entry, "terminatingRule"), "ruleId")
    if (end is None and ends) or (end is not None and all(one.name != end for one in rule.inner)):
        return {}
    if entry and not has_list(entry, "nonTerminatingMatchingRules"):
        return {}
    counted, found = named(entry), {}
    for one in rule.inner:
        found[one] = one.name == end or one.name in counted
        if one.name == end:
            break
    return found
