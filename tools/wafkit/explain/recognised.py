"""What a JSON value seems to be, by the members at its top, where it isn't what the program was to read."""

# Each kind: its name, a test of the top object, and how a bundle or a log comes of it.
CONVERT = "wafkit convert makes {} of it"
BUNDLE, LOG = CONVERT.format("a bundle"), CONVERT.format("a log")


def has_object(value, *names):
    return any(isinstance(value.get(name), dict) for name in names)


def has_list(value, *names):
    return any(isinstance(value.get(name), list) for name in names)


KINDS = (
    ("a bundle", lambda top: has_object(top, "WebACL"), "give it as the bundle"),
    (
        "a CloudFormation template",
        lambda top: has_object(top, "Resources") or "AWSTemplateFormatVersion" in top,
        BUNDLE,
    ),
    (
        "a plan of Terraform",
        lambda top: "terraform_version" in top
        or has_object(top, "planned_values")
        or has_list(top, "resource_changes"),
        BUNDLE,
    ),
    ("an input of create-web-acl", lambda top: "Scope" in top and "DefaultAction" in top, BUNDLE),
    ("an input of check-capacity", lambda top: "Scope" in top and has_list(top, "Rules"), BUNDLE),
    ("a web ACL without the object around it", lambda top: "DefaultAction" in top, 'write {"WebACL": .. } around it'),
    ("what get-ip-set prints", lambda top: has_object(top, "IPSet"), "put it into the list IPSets of a bundle"),
    (
        "what get-regex-pattern-set prints",
        lambda top: has_object(top, "RegexPatternSet"),
        "put it into the list RegexPatternSets of a bundle",
    ),
    (
        "what get-rule-group prints",
        lambda top: has_object(top, "RuleGroup"),
        "put it into the list RuleGroups of a bundle",
    ),
    ("what get-sampled-requests prints", lambda top: has_list(top, "SampledRequests"), LOG),
    ("a sampled request", lambda top: has_object(top, "Request"), LOG),
    (
        "events of CloudWatch Logs",
        lambda top: has_list(top, "events", "logEvents", "results") or "@message" in top or "message" in top,
        LOG,
    ),
    ("records of Firehose", lambda top: has_list(top, "records", "Records"), LOG),
    ("a request", lambda top: has_object(top, "httpRequest") or "httpMethod" in top, "give it as the request"),
    (
        "answers",
        lambda top: has_list(top, "Groups", "Statements", "Tokens"),
        "give it as the answers, behind the request or the log",
    ),
)
# The kind that is right for each role.
RIGHT = {"bundle": "a bundle", "old": "a bundle", "new": "a bundle", "request": "a request", "log": "a request"}


def kind_of(value):
    """Returns what the value seems to be and what to do with it, or None."""
    if isinstance(value, list):
        return ("a list", "wafkit convert makes a log of a list of requests, and a bundle has one object at its top")
    if isinstance(value, dict):
        return next(((name, cure) for name, fits, cure in KINDS if fits(value)), None)
    return None


def swapped(role, value):
    """Returns what a file of that role seems to be instead and what to do, or None."""
    found = kind_of(value)
    return found if found and found[0] != RIGHT.get(role, "answers") else None
