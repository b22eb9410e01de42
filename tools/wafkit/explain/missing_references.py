"""References of a bundle to what isn't in its lists (E8): all at once, with how to get each."""

from .. import references, resource_name

WRAPPERS = {"IPSets": "IPSet", "RegexPatternSets": "RegexPatternSet", "RuleGroups": "RuleGroup"}
CALLS = {"IPSets": "get-ip-set", "RegexPatternSets": "get-regex-pattern-set", "RuleGroups": "get-rule-group"}


def elements(bundle, name):
    """Returns the elements of a list of the bundle with their paths, each as what it wraps, if it wraps something."""
    found, listed = [], bundle.get(name)
    for index, element in enumerate(listed if isinstance(listed, list) else []):
        path, wrapped = f"$.{name}[{index}]", element.get(WRAPPERS[name]) if isinstance(element, dict) else None
        if isinstance(wrapped, dict):
            found.append((f"{path}.{WRAPPERS[name]}", wrapped))
        elif isinstance(element, dict):
            found.append((path, element))
    return found


def missing(bundle):
    """Returns the references of the bundle that are in no list of their kind, as they are looked up."""
    web_acl = bundle.get("WebACL")
    found = references.of_rules(web_acl.get("Rules"), "$.WebACL.Rules") if isinstance(web_acl, dict) else []
    for path, group in elements(bundle, "RuleGroups"):
        found += references.of_rules(group.get("Rules"), f"{path}.Rules")
    present = {name: [element.get("ARN") for _, element in elements(bundle, name)] for name in WRAPPERS}
    known = {name: {arn for arn in arns if isinstance(arn, str)} for name, arns in present.items()}
    return [each for each in found if each.wanted and isinstance(each.arn, str) and each.arn not in known[each.wanted]]


def place_elsewhere(bundle, arn, wanted):
    """Returns the path of the element with that ARN in another list, or None."""
    for name in WRAPPERS:
        if name != wanted:
            for path, element in elements(bundle, name):
                if element.get("ARN") == arn:
                    return path
    return None


def cure(bundle, reference):
    """Returns how the bundle gets what is missing."""
    elsewhere = place_elsewhere(bundle, reference.arn, reference.wanted)
    if elsewhere:
        return f"{elsewhere} has this ARN: it belongs into the list {reference.wanted}"
    name = resource_name.read(reference.arn)
    if name is None:
        return f"write the ARN of an element of {reference.wanted}: this is none of the service"
    words = f"--scope {name.scope} --name {name.name} --id {name.id} --region {name.region}"
    return f"put into {reference.wanted} what this prints: aws wafv2 {CALLS[reference.wanted]} {words}"
