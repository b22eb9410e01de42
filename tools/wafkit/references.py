"""What the rules of a web ACL or of a rule group refer to, with the place of each reference."""

# The members of a statement that refer to something, and the list of a bundle where it stands.
LISTS = {
    "IPSetReferenceStatement": "IPSets",
    "RegexPatternSetReferenceStatement": "RegexPatternSets",
    "RuleGroupReferenceStatement": "RuleGroups",
}
MANAGED = "ManagedRuleGroupStatement"
# Where statements have parts: the member, and the member of it that is a statement or a list of statements.
PARTS = {
    "AndStatement": "Statements",
    "OrStatement": "Statements",
    "NotStatement": "Statement",
    "RateBasedStatement": "ScopeDownStatement",
    MANAGED: "ScopeDownStatement",
}


class Reference:
    """A reference: the list of its kind (None for a managed rule group), what it is, its rule and its path."""

    def __init__(self, wanted, value, rule, path):
        self.wanted, self.value, self.rule, self.path = wanted, value, rule, path

    @property
    def arn(self):
        """The ARN that it names, or None."""
        return self.value.get("ARN")


def of_rules(rules, path):
    """Returns the references of these rules in the order of the file, an outer statement before its parts."""
    found = []
    for index, rule in enumerate(rules if isinstance(rules, list) else []):
        if isinstance(rule, dict):
            found += of_statement(rule.get("Statement"), rule, f"{path}[{index}].Statement")
    return found


def of_statement(statement, rule, path):
    """Returns the references of a statement and its parts."""
    found = []
    for member, value in statement.items() if isinstance(statement, dict) else ():
        if not isinstance(value, dict):
            continue
        at = f"{path}.{member}"
        if member in LISTS or member == MANAGED:
            found.append(Reference(LISTS.get(member), value, rule, at))
        if member in PARTS:
            part = value.get(PARTS[member])
            if isinstance(part, list):
                for index, each in enumerate(part):
                    found += of_statement(each, rule, f"{at}.{PARTS[member]}[{index}]")
            else:
                found += of_statement(part, rule, f"{at}.{PARTS[member]}")
    return found


def of_firewall_manager(web_acl):
    """Returns the references of the first and last rule groups that Firewall Manager set."""
    found = []
    for name in ("PreProcessFirewallManagerRuleGroups", "PostProcessFirewallManagerRuleGroups"):
        for index, group in enumerate(web_acl.get(name) or []):
            path = f"$.WebACL.{name}[{index}].FirewallManagerStatement"
            found += of_statement(group.get("FirewallManagerStatement"), group, path)
    return found
