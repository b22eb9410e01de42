"""Bundles and lines of logs for tests, in the shapes that AWS publishes."""

import contextlib
import io
import json
import os
import tempfile

from wafkit import main

ACCOUNT = "arn:aws:wafv2:us-east-1:111122223333:regional"
ACL_ARN = f"{ACCOUNT}/webacl/site/a1"
COMMON = "AWS#AWSManagedRulesCommonRuleSet"


def rule(name, priority, statement, action="Block", **more):
    """Returns a rule; an action of a group is its override."""
    is_group = any(kind in statement for kind in ("ManagedRuleGroupStatement", "RuleGroupReferenceStatement"))
    acts = {"OverrideAction" if is_group else "Action": {action: {}}}
    return {"Name": name, "Priority": priority, "Statement": statement, **acts, **more}


def bundle(*rules, **more):
    """Returns a bundle of a web ACL that allows by default."""
    acl = {"Name": "site", "Id": "a1", "ARN": ACL_ARN, "DefaultAction": {"Allow": {}}, "Rules": list(rules)}
    return {"WebACL": acl, **more}


def path_match(path, constraint="STARTS_WITH"):
    """Returns a byte match on the path."""
    none = [{"Priority": 0, "Type": "NONE"}]
    return {
        "ByteMatchStatement": {
            "SearchString": path,
            "FieldToMatch": {"UriPath": {}},
            "TextTransformations": none,
            "PositionalConstraint": constraint,
        }
    }


def sqli(field="QueryString"):
    return {
        "SqliMatchStatement": {"FieldToMatch": {field: {}}, "TextTransformations": [{"Priority": 0, "Type": "URL_DECODE"}]}
    }


def geography(*countries, **more):
    return {"GeoMatchStatement": {"CountryCodes": list(countries), **more}}


def rate(limit, **more):
    return {"RateBasedStatement": {"Limit": limit, "EvaluationWindowSec": 300, "AggregateKeyType": "IP", **more}}


def managed(name="AWSManagedRulesCommonRuleSet", vendor="AWS", **more):
    return {"ManagedRuleGroupStatement": {"VendorName": vendor, "Name": name, **more}}


def request(uri="/", country="US", headers=(), **more):
    named = [{"name": "Host", "value": "site.example"}, *({"name": name, "value": value} for name, value in headers)]
    return {
        "clientIp": "203.0.113.9",
        "country": country,
        "headers": named,
        "uri": uri,
        "args": "",
        "httpVersion": "HTTP/1.1",
        "httpMethod": "GET",
        "requestId": "1-a",
        **more,
    }


def record(end="Default_Action", action="ALLOW", counted=(), groups=(), labels=(), of=None, **more):
    """Returns a record of the log: which rule ended the evaluation, which were counted, and what the groups did."""
    return {
        "timestamp": 1764547200000,
        "formatVersion": 1,
        "webaclId": ACL_ARN,
        "terminatingRuleId": end,
        "terminatingRuleType": "REGULAR",
        "action": action,
        "terminatingRuleMatchDetails": [],
        "httpSourceName": "ALB",
        "httpSourceId": "111122223333-app/site/50dc6c495c0c9188",
        "ruleGroupList": list(groups),
        "rateBasedRuleList": [],
        "nonTerminatingMatchingRules": [matched(name, "COUNT") for name in counted],
        "requestHeadersInserted": None,
        "responseCodeSent": None,
        "httpRequest": of or request(),
        **({"labels": [{"name": name} for name in labels]} if labels else {}),
        **more,
    }


def matched(name, action, overridden=None):
    """Returns how the log names a rule that matched."""
    return {"ruleId": name, "action": action, **({"overriddenAction": overridden} if overridden else {}), "ruleMatchDetails": []}


def group(end=None, counted=(), excluded=None, name=COMMON):
    """Returns an entry of the rule group list."""
    return {
        "ruleGroupId": name,
        "terminatingRule": end,
        "nonTerminatingMatchingRules": list(counted),
        "excludedRules": excluded,
        "customerConfig": None,
    }


class Folder:
    """A folder for the files of a test; it goes at the test's end."""

    def __init__(self, test):
        made = tempfile.TemporaryDirectory()
        test.addCleanup(made.cleanup)
        self.path = made.name

    def json(self, name, value):
        """Returns the path of a file that holds a value; of bundles search strings are plain."""
        if "WebACL" in value:
            value = {"SearchStringEncoding": "TEXT", **value}
        return self.text(name, json.dumps(value))

    def log(self, name, *records):
        """Returns the path of a log."""
        return self.text(name, "".join(json.dumps(one) + "\n" for one in records))

    def text(self, name, text):
        path = os.path.join(self.path, name)
        os.makedirs(os.path.dirname(path), exist_ok=True)
        with open(path, "w", encoding="utf-8") as file:
            file.write(text)
        return path


def wafkit(*words):
    """Returns status, standard output and standard error of the command."""
    out, errors = io.StringIO(), io.StringIO()
    with contextlib.redirect_stdout(out), contextlib.redirect_stderr(errors):
        code = main.main(list(words))
    return code, out.getvalue(), errors.getvalue()
