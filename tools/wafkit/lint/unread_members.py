"""Members that are set, that mean something to the service, and that the program doesn't read."""

from .finding import shown

# Why a member matters, and what to write where there is something to write.
SAYS = {
    "PreProcessFirewallManagerRuleGroups": (
        "Firewall Manager's groups run before all rules of the service and aren't evaluated",
        "put each as a rule of the least priorities into Rules",
    ),
    "PostProcessFirewallManagerRuleGroups": (
        "Firewall Manager's groups run behind all rules of the service and aren't evaluated",
        "put each as a rule of the greatest priorities into Rules",
    ),
    "CustomResponseBodies": ("bodies of responses aren't read", "expect the same decision whatever the bodies are"),
    "CustomResponseBodyKey": (
        "the body of the response isn't read",
        "expect BLOCK and its code alone, whatever the body is",
    ),
    "ResponseHeaders": ("headers of the response aren't read", "expect BLOCK and its code alone, whatever they are"),
    "CustomRequestHandling": (
        "headers that are inserted aren't read",
        "expect the same decision with and without them",
    ),
    "TokenDomains": (
        "token domains aren't read",
        "answer in Tokens whether a token is valid, its domain considered",
    ),
    "DataProtectionConfig": ("data protection isn't read", "expect the same decision; it changes logs alone"),
    "OnSourceDDoSProtectionConfig": (
        "the protection of load balancers from floods isn't read",
        "expect no decision of it: it blocks by itself",
    ),
    "ApplicationConfig": (
        "attributes of the application aren't read",
        "expect the same decision with and without them",
    ),
}
OF_A_GROUP_RULE = {
    "Action": ("a rule with a group acts by OverrideAction, its Action is unread", 'write "OverrideAction"'),
    "RuleLabels": ("labels of a rule with a group aren't added", "put them on rules of the group"),
}
# Both immunity times of a rule.
for kind in ("CaptchaConfig", "ChallengeConfig"):
    OF_A_GROUP_RULE[kind] = (
        "an immunity time of a rule with a group is unread",
        "put it on the web ACL or on rules of the group",
    )
OF_A_RULE = {
    "OverrideAction": ("OverrideAction is read of a rule with a group alone", 'leave it out; "Action" is what acts'),
}


def is_set(value):
    """Returns whether a value says something: null, false and what is empty say nothing."""
    return value.data not in (None, False, "", [])


def says(structure, member):
    """Returns what was found and what to write of a member that is set and unread."""
    of_rules = {"GroupRule": OF_A_GROUP_RULE, "Rule": OF_A_RULE}.get(structure, {})
    unknown = f"{structure} has it and the program doesn't read it", "expect the same decision with and without it"
    why, write = of_rules.get(member.name) or SAYS.get(member.name) or unknown
    return f"{shown(member.name)} is set: {why}", write
