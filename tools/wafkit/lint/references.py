"""What a bundle says twice and must say alike: rules that overrides name, managed capacities, and limits of bodies."""

from . import json_path
from .finding import Finding, shown
from .label_matches import groups_by_arn
from .nearest_name import advice

SERVICE_DEFAULT = '{"RequestBody": {"CLOUDFRONT": {"DefaultSizeInspectionLimit": "KB_16"}}}'


def override_findings(bundle):
    """Returns a finding for each override or exclusion of a rule that the referred group hasn't."""
    found, by_arn = [], groups_by_arn(bundle)
    acl = json_path.present(bundle, "WebACL")
    for rule, path in json_path.elements(acl, "Rules", "$.WebACL"):
        statement = json_path.present(rule, "Statement")
        reference = json_path.present(statement, "RuleGroupReferenceStatement")
        group, at = by_arn.get(json_path.text_of(reference, "ARN"), (None, ""))
        if reference is None or group is None:
            continue
        names = [json_path.text_of(it, "Name") for it, _ in json_path.elements(group, "Rules", at)]
        where = json_path.member(json_path.member(path, "Statement"), "RuleGroupReferenceStatement")
        for member in ("ExcludedRules", "RuleActionOverrides"):
            for it, here in json_path.elements(reference, member, where):
                name = json_path.text_of(it, "Name")
                if name is not None and name not in names:
                    says = f"{shown(name)} is no rule of the group, so that it counts for nothing"
                    write = advice(name, [known for known in names if known])
                    named = json_path.member(here, "Name")
                    found.append(Finding("unknown-rule", named, it.member("Name"), says, write))
    return found


def capacity_findings(bundle):
    """Returns a finding for each managed capacity of a group that no rule of the web ACL has."""
    acl = json_path.present(bundle, "WebACL")
    used = []
    for rule, _ in json_path.elements(acl, "Rules", "$.WebACL"):
        managed = json_path.present(json_path.present(rule, "Statement"), "ManagedRuleGroupStatement")
        used.append(tuple(json_path.text_of(managed, name) for name in ("VendorName", "Name", "Version")))
    found = []
    for it, path in json_path.elements(bundle, "ManagedCapacities", "$"):
        vendor, name, version = (json_path.text_of(it, each) for each in ("VendorName", "Name", "Version"))
        wanted = [use for use in used if use[:2] == (vendor, name) and version in (None, use[2])]
        if not wanted:
            versioned = f" {shown(version)}" if version else ""
            says = f"no rule has the managed group {shown(vendor)} {shown(name)}{versioned}, so that this is unread"
            known = [use[1] for use in used if use[1]]
            write = "write the Version of the rule" if name in known else "leave it out"
            if name and known and name not in known:
                write = advice(name, known)
            found.append(Finding("unused-capacity", path, it, says, write))
    return found


def body_limit_findings(bundle):
    """Returns a finding where the limit of a body isn't the one that the service takes."""
    acl = json_path.present(bundle, "WebACL")
    body = json_path.present(json_path.present(acl, "AssociationConfig"), "RequestBody")
    members = body.members() if body is not None else []
    limits = {name: json_path.text_of(it, "DefaultSizeInspectionLimit") for name, it in members if it.data is not None}
    said = body_limit_of(json_path.text_of(acl, "ARN") or "", limits)
    path = "$.WebACL.AssociationConfig"
    return [Finding("body-limit", path, body or acl, *said)] if said and acl is not None else []


def body_limit_of(arn, limits):
    """Returns what was found of the limits of a web ACL's body by kind of resource and what to write, or None."""
    is_global, is_regional = ":global/" in arn, ":regional/" in arn
    if is_global and not limits:
        found = "a global web ACL without a limit of bodies: the service inspects 16,384 bytes, the program 8,192"
        return found, f'write "AssociationConfig": {SERVICE_DEFAULT}'
    if is_global and "CLOUDFRONT" not in limits:
        found = "a global web ACL with limits of bodies of other resources alone, which the program takes"
        return found, f'write "AssociationConfig": {SERVICE_DEFAULT}'
    if is_regional and "CLOUDFRONT" in limits:
        found = "a regional web ACL with a limit of CLOUDFRONT, which it protects nothing of: the program takes it"
        return found, "name the kind of resource that it protects; a load balancer has none"
    if len(set(limits.values())) > 1:
        found = f"limits of bodies that differ, {shown(limits)}: the program takes the least for all"
        return found, "leave alone the limit of the resource that the web ACL protects"
    return None
