"""Answers of the API (of the aws CLI, or dumped from boto3) and inputs of its calls, as a bundle."""

from ..fault import Fault
from . import placeholder, search_strings
from .placeholder import identity

LISTS = ("IPSets", "RegexPatternSets", "ManagedCapacities", "RuleGroups")
INNER = {"IPSet": "IPSets", "RegexPatternSet": "RegexPatternSets", "RuleGroup": "RuleGroups"}


def kind_of(value):
    """Returns what an object is: `bundle` (a web ACL's answer is one), a list of a bundle, `web ACL`, `input`, `rules`
    for check-capacity's input; None for what is none of these."""
    if not isinstance(value, dict):
        return None
    if isinstance(value.get("WebACL"), dict):
        return "bundle"
    for name, where in INNER.items():
        if isinstance(value.get(name), dict):
            return where
    if "DefaultAction" in value:
        return "input" if "Scope" in value else "web ACL"
    if "Scope" in value:
        return "rules" if isinstance(value.get("Rules"), list) and "Capacity" not in value else None
    if "ARN" not in value:
        return None
    named = {"Addresses": "IPSets", "RegularExpressionList": "RegexPatternSets", "Capacity": "RuleGroups"}
    return next((where for name, where in named.items() if name in value), None)


def bundle_of(files, options, remarks):
    """Returns the bundle of the web ACL among the values of the files, with the sets and groups that are there."""
    bundle = {}
    add(bundle, files, options, remarks)
    if "WebACL" not in bundle:
        raise Fault("no web ACL: a bundle has one")
    return bundle


def add(bundle, files, options, remarks):
    """Puts what the values of the files have into a bundle."""
    place = placeholder.Place(options.account, options.region)
    for name, value in files:
        for index, one in enumerate(value if isinstance(value, list) else [value]):
            path = f"{name}: $" + (f"[{index}]" if isinstance(value, list) else "")
            merge(bundle, one, path, options, place, remarks)
    remarks.end_if_hindered()


def merge(bundle, value, path, options, place, remarks):
    """Puts what one answer or input has into the bundle."""
    kind = kind_of(value)
    if kind is None:
        raise Fault(
            f"{path}: no answer of get-web-acl, get-ip-set, get-regex-pattern-set or get-rule-group, "
            "no input of create-web-acl, update-web-acl or check-capacity, and no bundle"
        )
    as_text = options.search_strings == "text" or value.get("SearchStringEncoding") == "TEXT"
    value = search_strings.packed(value, as_text, path, remarks)
    value.pop("SearchStringEncoding", None)
    if value.pop("ResponseMetadata", None) is not None:
        remarks.warn(f"{path}.ResponseMetadata is left out: it tells of the call, not of the web ACL")
    if kind in LISTS:
        bundle.setdefault(kind, []).append(value)
        return
    if "WebACL" in bundle:
        raise Fault(f"{path}: a second web ACL: a bundle has one")
    makers = {"bundle": dict, "web ACL": lambda it: {"WebACL": it}}
    made = makers[kind](value) if kind in makers else of_input(value, kind, path, place, remarks)
    for name, item in made.items():
        if name in LISTS and isinstance(item, list):
            bundle.setdefault(name, []).extend(item)
        else:
            bundle[name] = item


def of_input(value, kind, path, place, remarks):
    """Returns the bundle of an input: what the service will add is made up, and said."""
    scope, name = value.get("Scope"), value.get("Name", "check-capacity")
    its_id = value.get("Id") or identity("webacl", name)
    arn = place.arn("webacl", name, its_id, scope)
    rest = {key: item for key, item in value.items() if key not in ("Scope", "Tags", "LockToken")}
    if kind == "rules":
        remarks.warn(f"{path}: check-capacity takes no name and no default action: {name} and Allow stand for them")
        rest = {"Name": name, "DefaultAction": {"Allow": {}}, **rest}
    if "Tags" in value:
        remarks.warn(f"{path}.Tags is left out: the API prints no tags with a web ACL")
    remarks.warn(f"{path}: {arn} stands for the web ACL's ARN")
    placeholder.warn_of_account(place, remarks)
    found = {"WebACL": {**rest, "ARN": arn, "Id": its_id}}
    return {**found, "LockToken": value["LockToken"]} if "LockToken" in value else found
