"""Files that the program refuses, with the refusal and what `explain` must say of it."""

import json
from collections import namedtuple

# The command, its files by role in the order of its words, the refusal, and lines that the explanation has.
Row = namedtuple("Row", "name command files refusal says")
ACL_ARN = "arn:aws:wafv2:us-east-1:111122223333:regional/webacl/shop/a1"
IP_ARN = "arn:aws:wafv2:us-east-1:111122223333:regional/ipset/office/b1"
PATTERNS_ARN = "arn:aws:wafv2:us-east-1:111122223333:regional/regexpatternset/bots/b2"
GROUP_ARN = "arn:aws:wafv2:us-east-1:111122223333:regional/rulegroup/shared/c1"
LOOK = {"FieldToMatch": {"UriPath": {}}, "TextTransformations": [{"Priority": 0, "Type": "NONE"}]}
MATCH = {"ByteMatchStatement": {"SearchString": "L2FkbWlu", **LOOK, "PositionalConstraint": "EXACTLY"}}
MANAGED = {"ManagedRuleGroupStatement": {"VendorName": "AWS", "Name": "AWSManagedRulesCommonRuleSet"}}
RATE = {"RateBasedStatement": {"Limit": 100, "AggregateKeyType": "IP"}}
GEO = {"GeoMatchStatement": {"CountryCodes": ["US"]}}
IP = {"IPSetReferenceStatement": {"ARN": IP_ARN}}
IP_SET = {"Name": "office", "ARN": IP_ARN, "IPAddressVersion": "IPV4", "Addresses": ["192.0.2.0/24"]}
REQUEST = {"httpMethod": "GET", "uri": "/", "clientIp": "192.0.2.1", "headers": [{"name": "host", "value": "x"}]}
SHAPE = "means a needed member is absent, or a value is of another kind than is read there"


def rule(statement, name="admin", priority=0, **action):
    return {"Name": name, "Priority": priority, "Statement": statement, **(action or {"Action": {"Block": {}}})}


def bundle(*rules, acl=None, **more):
    held = {"Name": "shop", "ARN": ACL_ARN, "DefaultAction": {"Allow": {}}, "Rules": list(rules), **(acl or {})}
    return {"WebACL": {name: value for name, value in held.items() if value is not None}, **more}


def matching(**members):
    """A bundle with a byte match with these members."""
    statement = {"ByteMatchStatement": {**MATCH["ByteMatchStatement"], **members}}
    return bundle(rule(statement))


def of(name, refusal, given, *says):
    """A row of a bundle."""
    return Row(name, "capacity", {"bundle": given}, f"refused bundle {refusal}", says)


def request(name, refusal, given, *says):
    """A row of a request."""
    return Row(name, "evaluate", {"bundle": bundle(), "request": given}, f"refused request {refusal}", says)


def answers(name, refusal, given, *says):
    """A row of answers."""
    files = {"bundle": bundle(), "request": REQUEST, "answers": given}
    return Row(name, "evaluate", files, f"refused answers {refusal}", says)


def log(name, refusal, given, *says):
    """A row of a log."""
    return Row(name, "impact", {"old": bundle(), "new": bundle(), "log": given}, f"refused {refusal}", says)


def place(given, member, number=0, role="bundle"):
    """Where the value of that member stands for the number-th time in the file, by a search in its text."""
    text, at = json.dumps(given, indent=1), -1
    for _ in range(number + 1):
        at = text.index(member, at + 1)
    at += member.index(": ") + 2
    return f"{role}.json:{text.count(chr(10), 0, at) + 1}:{at - text.rfind(chr(10), 0, at)}"


def nested(levels):
    return b"[" * levels + b"]" * levels


AT = "$.WebACL.Rules[0]"
