"""Label matches on labels that nothing adds: no rule before them, and no managed group that an answer speaks for."""

from . import json_path
from .finding import Finding, shown
from .nearest_name import nearest

MANAGED = "awswaf:managed:"
# Labels that only the groups that look at tokens add, and these groups.
OF_TOKENS = ("awswaf:managed:token:", "awswaf:managed:captcha:")
TOKEN_GROUPS = {
    "AWSManagedRulesACFPRuleSet",
    "AWSManagedRulesATPRuleSet",
    "AWSManagedRulesAntiDDoSRuleSet",
    "AWSManagedRulesBotControlRuleSet",
}
# Labels that the service adds by itself.
OF_THE_SERVICE = ("awswaf:clientip:", "awswaf:forwardedip:")


class Step:
    """A rule in the order of evaluation: its value and path, the namespace of its labels, and its managed group."""

    def __init__(self, rule, path, namespace, group=None):
        self.rule, self.path, self.namespace, self.group = rule, path, namespace, group

    def labels(self):
        """Returns the labels that the rule adds, behind their namespace."""
        named = [json_path.text_of(it, "Name") for it, _ in json_path.elements(self.rule, "RuleLabels", "")]
        return [self.namespace + name for name in named if name] if self.group is None else []

    def matches(self):
        """Returns the label matches in the rule's statement as their objects and paths."""
        statement = json_path.present(self.rule, "Statement")
        if statement is None:
            return []
        inner = json_path.below(statement, json_path.member(self.path, "Statement"))
        return [(it, at) for it, at in inner if at.endswith(".LabelMatchStatement") and it.kind == "object"]


def findings(bundle):
    """Returns a finding for each label match of which no label can be there where its rule is tried."""
    unmet, met, before, groups = {}, set(), [], []
    steps = steps_of(bundle)
    ever = [label for step in steps for label in step.labels()]
    for step in steps:
        for match, path in step.matches():
            one = finding_of(match, path, step.namespace, before, ever, groups)
            if one is None:
                met.add(path)
            else:
                unmet.setdefault(path, one)
        before += step.labels()
        groups += [step.group] if step.group else []
    return [one for path, one in unmet.items() if path not in met]


def steps_of(bundle):
    """Returns the rules that the web ACL tries, in their order, those of the groups that it refers to in place."""
    acl = json_path.present(bundle, "WebACL")
    by_arn = groups_by_arn(bundle)
    steps = []
    for rule, path in by_priority(json_path.elements(acl, "Rules", "$.WebACL")):
        statement = json_path.present(rule, "Statement")
        reference = json_path.present(statement, "RuleGroupReferenceStatement")
        managed = json_path.present(statement, "ManagedRuleGroupStatement")
        group = json_path.text_of(managed, "Name")
        steps.append(Step(rule, path, namespace_of(acl, "webacl"), group))
        referred, at = by_arn.get(json_path.text_of(reference, "ARN"), (None, ""))
        if reference is not None and referred is not None:
            steps.pop()
            inner = by_priority(json_path.elements(referred, "Rules", at))
            steps += [Step(it, where, namespace_of(referred, "rulegroup")) for it, where in inner]
    return steps


def groups_by_arn(bundle):
    """Returns the rule groups of the bundle with their paths by their ARN, the first of each."""
    found = {}
    for it, path in json_path.elements(bundle, "RuleGroups", "$"):
        group, at = json_path.unwrapped(it, "RuleGroup", path)
        found.setdefault(json_path.text_of(group, "ARN"), (group, at))
    return found


def by_priority(rules):
    """Returns rules with their paths in the order in which they are tried."""

    def priority(rule):
        found = json_path.present(rule[0], "Priority")
        return found.data if found is not None and isinstance(found.data, int) else 0

    return sorted(rules, key=priority)


def namespace_of(owner, kind):
    """Returns the namespace of a web ACL's or group's labels: the one given, or the one made of its ARN and name."""
    given = json_path.text_of(owner, "LabelNamespace")
    parts = (json_path.text_of(owner, "ARN") or "").split(":")
    account = parts[4] if len(parts) > 4 else ""
    return given or f"awswaf:{account}:{kind}:{json_path.text_of(owner, 'Name') or ''}:"


def finding_of(match, path, namespace, before, ever, groups):
    """Returns the finding of a label match, or None where some label that it holds of may be there. `before` are the
    labels of the rules that are tried before, `ever` those of all."""
    key, scope = json_path.text_of(match, "Key"), json_path.text_of(match, "Scope")
    if not key or scope not in ("LABEL", "NAMESPACE"):
        return None
    whole = key if key.startswith("awswaf:") else namespace + key
    if scope == "NAMESPACE" and not whole.endswith(":"):
        whole += ":"
    if any(is_meant(whole, scope, label) for label in before) or may_be_answered(whole, scope, groups):
        return None
    found, write = says(whole, key, namespace, ever)
    if any(is_meant(whole, scope, label) for label in ever):
        found, write = "the rule that adds it is tried later", "give that rule a lesser priority than this one"
    at = json_path.member(path, "Key")
    return Finding("label-never-added", at, match.member("Key"), f"{shown(key)}: {found}", write)


def is_meant(whole, scope, label):
    """Returns whether a match of that scope and whole key holds of the label."""
    return label == whole or (scope == "NAMESPACE" and label.startswith(whole))


def may_be_answered(whole, scope, groups):
    """Returns whether the answer for a managed group before the rule may add such a label."""
    if whole.startswith(OF_TOKENS):
        return any(group in TOKEN_GROUPS for group in groups)
    is_managed = whole.startswith(MANAGED) or (scope == "NAMESPACE" and MANAGED.startswith(whole))
    return is_managed and bool(groups)


def says(whole, key, namespace, ever):
    """Returns what was found and what to write of a label that nothing adds."""
    if whole.startswith(OF_THE_SERVICE):
        found = "the service adds such labels by itself, the program never does, so that this holds of no request"
        kind = "AsnMatchStatement" if ":asn" in whole else "GeoMatchStatement"
        return found, f"write a {kind}, whose truth is an answer, or a RuleLabels of a rule before"
    if whole.startswith(OF_TOKENS):
        found = "no managed group that looks at tokens is tried before, so that no answer adds it"
        return found, "write a rule with Captcha or Challenge, whose token is an answer"
    if whole.startswith(MANAGED):
        return "no managed group is tried before, so that no answer adds it", "put a managed group before this rule"
    near = nearest(whole, ever)
    short = near[len(namespace) :] if near and not key.startswith("awswaf:") and near.startswith(namespace) else near
    write = f"write {shown(short)}" if short else "give it in RuleLabels of a rule before"
    return "no rule that is tried before adds it", write
