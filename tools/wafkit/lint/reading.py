"""Which members the program reads: a table made of its readers and of docs/FORMATS.md.

Each structure has the name of the service's model where it is one of the service. A member's value is "" where it is
read as it stands, else the name of the structure in it, in brackets where it is a list of these; "*" stands for every
name. Members that aren't named are unread, but for those of KEYED: there the whole object is part of a question, so
that a difference is a difference of questions.
"""

FIELD_AND_TRANSFORMATIONS = {"FieldToMatch": "FieldToMatch", "TextTransformations": "[TextTransformation]"}
IMMUNITIES = {"CaptchaConfig": "CaptchaConfig", "ChallengeConfig": "ChallengeConfig"}
IMMUNITY = {"ImmunityTimeProperty": "ImmunityTimeProperty"}
PATTERN_AND_SCOPE = {"MatchScope": "", "OversizeHandling": ""}
PART = {"Statement": "Statement"}
NAMED = {"Name": ""}

READ = {
    "Bundle": {
        "SearchStringEncoding": "",
        "IPSets": "[IPSet]",
        "RegexPatternSets": "[RegexPatternSet]",
        "ManagedCapacities": "[ManagedCapacity]",
        "RuleGroups": "[RuleGroup]",
        "WebACL": "WebACL",
    },
    "IPSet": {"ARN": "", "IPAddressVersion": "", "Addresses": ""},
    "RegexPatternSet": {"ARN": "", "RegularExpressionList": "[Regex]"},
    "Regex": {"RegexString": ""},
    "ManagedCapacity": {"VendorName": "", "Name": "", "Version": "", "Capacity": ""},
    "RuleGroup": {"ARN": "", "Name": "", "LabelNamespace": "", "Capacity": "", "Rules": "[Rule]"},
    "WebACL": {
        "Name": "",
        "ARN": "",
        "LabelNamespace": "",
        "DefaultAction": "DefaultAction",
        "AssociationConfig": "AssociationConfig",
        "Rules": "[Rule]",
        **IMMUNITIES,
    },
    "AssociationConfig": {"RequestBody": "RequestBody"},
    "RequestBody": {"*": "RequestBodyAssociatedResourceTypeConfig"},
    "RequestBodyAssociatedResourceTypeConfig": {"DefaultSizeInspectionLimit": ""},
    "CaptchaConfig": IMMUNITY,
    "ChallengeConfig": IMMUNITY,
    "ImmunityTimeProperty": {"ImmunityTime": ""},
    "Rule": {"Name": "", "Priority": "", "Action": "RuleAction", "RuleLabels": "[Label]", **PART, **IMMUNITIES},
    # A rule whose statement is a group.
    "GroupRule": {"Name": "", "Priority": "", "OverrideAction": "OverrideAction", **PART},
    "Label": NAMED,
    "DefaultAction": {"Allow": "AllowAction", "Block": "BlockAction"},
    "RuleAction": {
        "Allow": "AllowAction",
        "Block": "BlockAction",
        "Count": "CountAction",
        "Captcha": "CaptchaAction",
        "Challenge": "ChallengeAction",
    },
    "OverrideAction": {"None": "NoneAction", "Count": "CountAction"},
    "AllowAction": {},
    "BlockAction": {"CustomResponse": "CustomResponse"},
    "CountAction": {},
    "CaptchaAction": {},
    "ChallengeAction": {},
    "NoneAction": {},
    "CustomResponse": {"ResponseCode": ""},
    "Statement": {
        "ByteMatchStatement": "ByteMatchStatement",
        "SizeConstraintStatement": "SizeConstraintStatement",
        "RegexMatchStatement": "RegexMatchStatement",
        "RegexPatternSetReferenceStatement": "RegexPatternSetReferenceStatement",
        "IPSetReferenceStatement": "IPSetReferenceStatement",
        "LabelMatchStatement": "LabelMatchStatement",
        "AndStatement": "AndStatement",
        "OrStatement": "OrStatement",
        "NotStatement": "NotStatement",
        "RateBasedStatement": "RateBasedStatement",
        "RuleGroupReferenceStatement": "RuleGroupReferenceStatement",
        "ManagedRuleGroupStatement": "ManagedRuleGroupStatement",
        "SqliMatchStatement": "SqliMatchStatement",
        "XssMatchStatement": "XssMatchStatement",
        "GeoMatchStatement": "",
        "AsnMatchStatement": "",
    },
    "ByteMatchStatement": {"SearchString": "", "PositionalConstraint": "", **FIELD_AND_TRANSFORMATIONS},
    "SizeConstraintStatement": {"ComparisonOperator": "", "Size": "", **FIELD_AND_TRANSFORMATIONS},
    "RegexMatchStatement": {"RegexString": "", **FIELD_AND_TRANSFORMATIONS},
    "RegexPatternSetReferenceStatement": {"ARN": "", **FIELD_AND_TRANSFORMATIONS},
    "IPSetReferenceStatement": {"ARN": "", "IPSetForwardedIPConfig": "IPSetForwardedIPConfig"},
    "IPSetForwardedIPConfig": {"HeaderName": "", "FallbackBehavior": "", "Position": ""},
    "LabelMatchStatement": {"Scope": "", "Key": ""},
    "AndStatement": {"Statements": "[Statement]"},
    "OrStatement": {"Statements": "[Statement]"},
    "NotStatement": PART,
    "RateBasedStatement": {"CustomKeys": "", "ScopeDownStatement": "Statement"},
    "RuleGroupReferenceStatement": {
        "ARN": "",
        "ExcludedRules": "[ExcludedRule]",
        "RuleActionOverrides": "[RuleActionOverride]",
    },
    "ExcludedRule": NAMED,
    "RuleActionOverride": {"Name": "", "ActionToUse": "RuleAction"},
    "ManagedRuleGroupStatement": {"VendorName": "", "Name": "", "Version": "", "ScopeDownStatement": "Statement"},
    "SqliMatchStatement": {"SensitivityLevel": "", **FIELD_AND_TRANSFORMATIONS},
    "XssMatchStatement": FIELD_AND_TRANSFORMATIONS,
    "FieldToMatch": {
        "SingleHeader": "SingleHeader",
        "SingleQueryArgument": "SingleQueryArgument",
        "AllQueryArguments": "",
        "UriPath": "",
        "QueryString": "",
        "Method": "",
        "Body": "Body",
        "Headers": "Headers",
        "Cookies": "Cookies",
    },
    "SingleHeader": NAMED,
    "SingleQueryArgument": NAMED,
    "Body": {"OversizeHandling": ""},
    "Headers": {"MatchPattern": "HeaderMatchPattern", **PATTERN_AND_SCOPE},
    "Cookies": {"MatchPattern": "CookieMatchPattern", **PATTERN_AND_SCOPE},
    "HeaderMatchPattern": {"All": "", "IncludedHeaders": "", "ExcludedHeaders": ""},
    "CookieMatchPattern": {"All": "", "IncludedCookies": "", "ExcludedCookies": ""},
    "TextTransformation": {"Priority": "", "Type": ""},
    "Answers": {"Statements": "[StatementAnswer]", "Groups": "[GroupAnswer]", "Tokens": "[TokenAnswer]"},
    "StatementAnswer": {"Key": "", "Match": ""},
    "GroupAnswer": {"Key": "", "Verdict": "", "Labels": ""},
    "TokenAnswer": {"Kind": "", "ImmunityTime": "", "Valid": ""},
}
# Structures that a question's key has whole.
KEYED = {
    "Statement",
    "RateBasedStatement",
    "ManagedRuleGroupStatement",
    "SqliMatchStatement",
    "XssMatchStatement",
    "FieldToMatch",
}

# Unread members that say nothing of a decision: who and where it is, metrics, and what the service works out itself.
NEUTRAL = {
    "ApplicationIntegrationURL",
    "AvailableLabels",
    "Capacity",
    "ConsumedLabels",
    "Description",
    "Id",
    "LockToken",
    "ManagedByFirewallManager",
    "Name",
    "Notes",
    "ResponseMetadata",
    "RetrofittedByFirewallManager",
    "VisibilityConfig",
}

# Unread members that differ in every record, or that the service works out of the rules.
OF_THE_RECORD = {"AvailableLabels", "Capacity", "ConsumedLabels", "LockToken", "Notes", "ResponseMetadata"}

GROUP_KINDS = ("RuleGroupReferenceStatement", "ManagedRuleGroupStatement")


def structure_of(name, value):
    """Returns the name of the table's structure for an object: a rule whose statement is a group is read otherwise."""
    if name == "Rule":
        statement = value.member("Statement")
        kinds = [kind for kind, it in (statement.members() if statement is not None else []) if it.data is not None]
        return "GroupRule" if any(kind in GROUP_KINDS for kind in kinds) else name
    return name


def child_of(name, member):
    """Returns what the table says of a member: the text of the table, or None where the member is unread."""
    members = READ.get(name, {})
    return members.get(member, members.get("*"))


def is_keyed(name):
    """Returns whether all other members of the structure are part of a question's key."""
    return name in KEYED or name not in READ
