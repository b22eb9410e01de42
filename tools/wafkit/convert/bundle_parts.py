"""A bundle, put together from a web ACL and what it refers to."""

import json

from ..fault import Fault
from .placeholder import KINDS

REFERENCES = {
    "IPSetReferenceStatement": "IPSets",
    "RegexPatternSetReferenceStatement": "RegexPatternSets",
    "RuleGroupReferenceStatement": "RuleGroups",
}
CALLS = {"IPSets": "get-ip-set", "RegexPatternSets": "get-regex-pattern-set", "RuleGroups": "get-rule-group"}


class Thing:
    """A web ACL, set or group with all members that the API prints, and the name under which its source knows it."""

    def __init__(self, kind, source_name, value):
        self.kind, self.source_name, self.value = kind, source_name, value

    def name(self):
        """Returns how a user may name it: as its source does, and in brackets as the service does."""
        return f"{self.source_name} ({self.value.get('Name')})"


def assemble(things, wanted, remarks):
    """Returns the bundle of the web ACL that is wanted, by either name, or of the only one, with all the rest."""
    web_acl = chosen([thing for thing in things if thing.kind == "webacl"], wanted)
    bundle = {"WebACL": web_acl.value}
    for thing in things:
        if thing.kind != "webacl":
            bundle.setdefault(KINDS[thing.kind], []).append(thing.value)
        elif thing is not web_acl:
            remarks.warn(f"{thing.name()} is left out: a bundle has one web ACL, {web_acl.name()}")
    return bundle


def chosen(web_acls, wanted):
    fitting = [one for one in web_acls if wanted is None or wanted in (one.source_name, one.value.get("Name"))]
    if len(fitting) == 1:
        return fitting[0]
    names = ", ".join(one.name() for one in web_acls)
    if not web_acls:
        raise Fault("no web ACL: a bundle has one")
    raise Fault(f"{len(fitting)} web ACLs of {len(web_acls)} fit: --web-acl NAME names one of {names}")


def warn_of_missing(bundle, remarks):
    """Says which ARNs the rules refer to that no list of the bundle has: the program refuses such a bundle."""
    known = {kind: {arn_of(one) for one in list_of(bundle.get(kind))} for kind in CALLS}
    for statement, arn in references(bundle):
        kind = REFERENCES[statement]
        if arn not in known[kind]:
            remarks.warn(
                f"{statement} refers to {json.dumps(arn)}, which {kind} lacks: "
                f"give the answer of {CALLS[kind]} as a further file"
            )


def arn_of(element):
    """Returns the ARN of a set or group, as it stands or as its get call prints it."""
    if not isinstance(element, dict):
        return None
    inner = [item for item in element.values() if isinstance(item, dict) and isinstance(item.get("ARN"), str)]
    return element.get("ARN") if isinstance(element.get("ARN"), str) else inner[0]["ARN"] if inner else None


def list_of(value):
    return value if isinstance(value, list) else []


def references(value):
    """Yields each kind of statement and ARN that a reference anywhere within the value has."""
    if isinstance(value, dict):
        for name, item in value.items():
            if name in REFERENCES and isinstance(item, dict) and isinstance(item.get("ARN"), str):
                yield name, item["ARN"]
            yield from references(item)
    elif isinstance(value, list):
        for item in value:
            yield from references(item)


def text_of(bundle):
    """Returns the bundle as it is printed."""
    return json_text(bundle, indent=2)


def json_text(value, **form):
    """Returns a line or lines of JSON, or ends the command where a part has no value in JSON, as a set of YAML."""
    try:
        return json.dumps(value, allow_nan=False, **form) + "\n"
    except (TypeError, ValueError) as cause:
        raise Fault(f"an input holds what JSON has no value for: {cause}") from cause
