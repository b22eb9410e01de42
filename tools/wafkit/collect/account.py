"""What an account holds of a web ACL: the get calls of wafv2, in the order in which they are made."""

from .. import references, resource_name, status
from ..fault import Fault

# Answers that say that a rule group of someone else, or one that is gone, can't be read.
UNREADABLE = (
    "WAFNonexistentItemException",
    "WAFInvalidOperationException",
    "WAFInvalidParameterException",
    "WAFInvalidResourceException",
    "WAFExpiredManagedRuleGroupVersionException",
    "AccessDeniedException",
)
FIREWALL_MANAGER = ("PreProcessFirewallManagerRuleGroups", "PostProcessFirewallManagerRuleGroups")


class Account:
    """Reads what one web ACL needs. `notes` says what couldn't be read, and `failures` what must not be missing."""

    def __init__(self, client, refusals, progress):
        self.client, self.refusals, self.progress = client, refusals, progress
        self.notes, self.failures = [], []
        self.lists = {"IPSets": {}, "RegexPatternSets": {}, "RuleGroups": {}}
        self.managed = {}
        self.scope = self.owner = None

    def bundle(self, words):
        """Returns the bundle of the web ACL that these arguments of get-web-acl name."""
        self.progress.found(1)
        self.progress.reading(f"web ACL {words['Name']}")
        bundle = answer(self.client.get_web_acl(**words))
        web_acl = bundle.get("WebACL")
        if web_acl is None:
            raise Fault(f"the service answered without a web ACL {words['Name']}", status.SERVICE)
        name = resource_name.read(web_acl.get("ARN"))
        self.scope, self.owner = words["Scope"], name and name.account
        self.note_firewall_manager(web_acl)
        own = references.of_rules(web_acl.get("Rules"), "$.WebACL.Rules")
        self.read_all(own + references.of_firewall_manager(web_acl))
        for list_name, found in self.lists.items():
            if found:
                bundle[list_name] = list(found.values())
        capacities = self.capacities()
        if capacities:
            bundle["ManagedCapacities"] = capacities
        if self.notes:
            bundle["Notes"] = self.notes
        return bundle

    def read_all(self, found):
        """Reads each of these references once, and then those of the rule groups among them."""
        self.progress.found(len(found))
        for reference in found:
            if reference.wanted is None:
                self.progress.reading(f"managed rule group {reference.value.get('Name')}")
                self.read_managed(reference)
                continue
            self.progress.reading(reference.arn)
            if reference.arn in self.lists[reference.wanted]:
                continue
            if reference.wanted == "RuleGroups":
                self.read_group(reference)
            else:
                self.read_set(reference)

    def read_set(self, reference):
        """Reads an IP set or a pattern set. Nothing can stand in for one: an empty set would decide otherwise."""
        kind, call = {
            "IPSets": ("ipset", self.client.get_ip_set),
            "RegexPatternSets": ("regexpatternset", self.client.get_regex_pattern_set),
        }[reference.wanted]
        name = resource_name.needed(reference.arn, kind)
        try:
            self.lists[reference.wanted][reference.arn] = answer(call(**name.words()))
        except self.refusals as refusal:
            if code_of(refusal) not in UNREADABLE:
                raise
            self.failures.append(f"{reference.arn} can't be read: {refusal}")
            self.lists[reference.wanted][reference.arn] = None

    def read_group(self, reference):
        """Reads a rule group and what it refers to, or lets an empty one of its capacity stand in."""
        name = resource_name.needed(reference.arn, "rulegroup")
        # One of another account has no name, scope and id here.
        words = name.words() if name.account == self.owner else {"ARN": name.arn}
        try:
            group = answer(self.client.get_rule_group(**words))
        except self.refusals as refusal:
            if code_of(refusal) not in UNREADABLE:
                raise
            self.lists["RuleGroups"][name.arn] = self.stand_in(name, reference.rule, refusal)
            return
        self.lists["RuleGroups"][name.arn] = group
        self.read_all(references.of_rules(group["RuleGroup"].get("Rules"), "$.Rules"))

    def stand_in(self, name, rule, refusal):
        """Returns an empty rule group for one that can't be read, of the capacity that the service says it has."""
        capacity, code = self.capacity_of(rule)
        known = f"its capacity is {capacity}"
        if capacity is None:
            known = f"its capacity isn't known ({code}) and counts as 0"
        self.notes.append(
            f"{name.arn} can't be read ({code_of(refusal)}): an empty rule group stands in, in which nothing matches; "
            f"{known}"
        )
        group = {"Name": name.name, "Id": name.id, "Capacity": capacity or 0, "ARN": name.arn, "Rules": []}
        return {"RuleGroup": group}

    def capacity_of(self, rule):
        """Returns what the service says that a rule with a rule group costs, or None and why it doesn't say."""
        if "Statement" not in rule:
            return None, "of Firewall Manager, no rule that check-capacity takes"
        try:
            return self.client.check_capacity(Scope=self.scope, Rules=[rule])["Capacity"], None
        except self.refusals as refusal:
            return None, f"check-capacity: {code_of(refusal)}"

    def read_managed(self, reference):
        """Asks what a managed rule group costs."""
        key = tuple(reference.value.get(name) for name in ("VendorName", "Name", "Version"))
        if key in self.managed:
            return
        vendor, name, version = key
        words = {"VendorName": vendor, "Name": name, "Scope": self.scope}
        if version is not None:
            words["VersionName"] = version
        try:
            self.managed[key] = self.client.describe_managed_rule_group(**words).get("Capacity")
        except self.refusals as refusal:
            if code_of(refusal) not in UNREADABLE:
                raise
            self.managed[key] = None
            of_version = f" in version {version}" if version is not None else ""
            self.notes.append(
                f"the managed rule group {vendor} {name}{of_version} can't be described ({code_of(refusal)}): "
                "its capacity counts as unknown"
            )

    def capacities(self):
        """Returns the known capacities of managed rule groups; versions first, as the first that fits counts."""
        known = []
        for (vendor, name, version), capacity in sorted(self.managed.items(), key=lambda entry: entry[0][2] is None):
            if capacity is not None:
                of_version = {} if version is None else {"Version": version}
                known.append({"VendorName": vendor, "Name": name, **of_version, "Capacity": capacity})
        return known

    def note_firewall_manager(self, web_acl):
        """Notes each of Firewall Manager's first and last rule groups, which the program doesn't evaluate."""
        for member in FIREWALL_MANAGER:
            for group in web_acl.get(member) or []:
                self.notes.append(f"{member}: {group['Name']} is in the bundle, and the program doesn't evaluate it")


def answer(said):
    """Returns an answer of the service without what botocore says of the call."""
    return {name: value for name, value in said.items() if name != "ResponseMetadata"}


def code_of(refusal):
    """Returns the code of an error that the service answered."""
    return refusal.response.get("Error", {}).get("Code", "")
