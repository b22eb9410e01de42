"""Which managed rule group a label of a line is from: a log has one list of labels for all of them."""

import re

MANAGED = "awswaf:managed:"
# The namespaces of AWS's groups, as the AWS WAF Developer Guide lists them.
NAMESPACES = {
    "AWSManagedRulesACFPRuleSet": "acfp",
    "AWSManagedRulesATPRuleSet": "atp",
    "AWSManagedRulesAdminProtectionRuleSet": "admin-protection",
    "AWSManagedRulesAmazonIpReputationList": "amazon-ip-list",
    "AWSManagedRulesAnonymousIpList": "anonymous-ip-list",
    "AWSManagedRulesAntiDDoSRuleSet": "anti-ddos",
    "AWSManagedRulesBotControlRuleSet": "bot-control",
    "AWSManagedRulesCommonRuleSet": "core-rule-set",
    "AWSManagedRulesKnownBadInputsRuleSet": "known-bad-inputs",
    "AWSManagedRulesLinuxRuleSet": "linux-os",
    "AWSManagedRulesPHPRuleSet": "php-app",
    "AWSManagedRulesSQLiRuleSet": "sql-database",
    "AWSManagedRulesUnixRuleSet": "posix-os",
    "AWSManagedRulesWindowsRuleSet": "windows-os",
    "AWSManagedRulesWordPressRuleSet": "wordpress-app",
}
# Labels of tokens, and the groups that add them.
OF_TOKENS = ("awswaf:managed:token:", "awswaf:managed:captcha:")
TOKEN_GROUPS = (
    "AWSManagedRulesACFPRuleSet",
    "AWSManagedRulesATPRuleSet",
    "AWSManagedRulesAntiDDoSRuleSet",
    "AWSManagedRulesBotControlRuleSet",
)
# What the program takes as a label of an answer.
LABEL = re.compile(r"awswaf:managed:[A-Za-z0-9_:-]*")


def namespace_of(rule):
    """Returns the namespace of a managed rule group's labels, or None where it isn't known."""
    short = NAMESPACES.get(rule.managed.get("Name")) if rule.managed.get("VendorName") == "AWS" else None
    return f"{MANAGED}aws:{short}:" if short else None


def of_groups(rules, record):
    """Returns the labels of each of the managed rule groups that acted, by its rule, or None where they can't be told
    apart."""
    names = record.labels
    if names is None:
        return None
    left = [name for name in dict.fromkeys(names) if name.startswith(MANAGED)]
    if not all(LABEL.fullmatch(name) for name in left):
        return None
    found = {}
    for rule in rules:
        start = namespace_of(rule)
        found[rule] = [name for name in left if start and name.startswith(start)]
        left = [name for name in left if name not in found[rule]]
    askers = [rule for rule in rules if rule.managed.get("Name") in TOKEN_GROUPS]
    if askers:
        found[askers[0]] += [name for name in left if name.startswith(OF_TOKENS)]
        left = [name for name in left if not name.startswith(OF_TOKENS)]
    others = [rule for rule in rules if namespace_of(rule) is None]
    if left and len(others) != 1:
        return None
    for rule in others[:1]:
        found[rule] += left
    return found
