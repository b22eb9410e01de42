"""A plan or state of Terraform, as `terraform show -json` prints it: its resources of AWS WAF, as a bundle."""

import copy

from ..fault import Fault
from . import placeholder
from .bundle_parts import Thing, assemble
from .input_text import json_value
from .placeholder import identity
from .plan_members import api_value
from .plan_references import References, items, member, resources_of
from .search_strings import packed
from .service_members import shape

TYPES = {
    "aws_wafv2_web_acl": ("webacl", "WebACL"),
    "aws_wafv2_ip_set": ("ipset", "IPSet"),
    "aws_wafv2_regex_pattern_set": ("regexpatternset", "RegexPatternSet"),
    "aws_wafv2_rule_group": ("rulegroup", "RuleGroup"),
}
REFERRED = {
    "ip_set_reference_statement": "aws_wafv2_ip_set",
    "regex_pattern_set_reference_statement": "aws_wafv2_regex_pattern_set",
    "rule_group_reference_statement": "aws_wafv2_rule_group",
}
# Attributes of the provider alone; tags are said to be left out, the scope stands in the ARN.
PROVIDER = (
    *("id", "lock_token", "region", "scope", "tags", "tags_all"),
    *("name_prefix", "application_integration_url", "timeouts"),
)
# What nobody knows before the service has made the thing, and the program doesn't ask.
COMPUTED = (*PROVIDER, "arn", "name", "capacity")


class Plan:
    """The resources of a plan or state, with the ARNs that stand for those that aren't known yet."""

    def __init__(self, plan, options, place, remarks):
        self.options, self.place, self.remarks = options, place, remarks
        self.is_plan = "planned_values" in plan
        now = resources_of(member(member(plan, "planned_values" if self.is_plan else "values"), "root_module"))
        read = resources_of(member(member(member(plan, "prior_state"), "values"), "root_module"))
        # A data source that was read while planning stands in the prior state.
        addresses = {one.address for one in now}
        self.resources = now + [one for one in read if one.mode == "data" and one.address not in addresses]
        self.unknown = {}
        for change in items(plan, "resource_changes"):
            if isinstance(change, dict):
                self.unknown[str(change.get("address"))] = member(member(change, "change"), "after_unknown")
        self.references = References(plan, self.resources)
        self.known = {}

    def waf(self):
        """Returns the resources that a bundle has a place for. As data sources, web ACLs and groups have no rules."""
        return [
            one
            for one in self.resources
            if one.type in TYPES and not (one.mode == "data" and TYPES[one.type][0] in ("webacl", "rulegroup"))
        ]

    def known_as(self, resource):
        """Returns name, id and ARN of a resource."""
        if resource.address not in self.known:
            kind, _ = TYPES[resource.type]
            name, values = resource.values.get("name"), resource.values
            if not isinstance(name, str):
                name = (values.get("name_prefix") or "") + resource.name
                self.remarks.warn(f"{resource.address} has no name yet: {name} stands for it")
            its_id = values.get("id") if isinstance(values.get("id"), str) else identity(kind, resource.address)
            arn = values.get("arn") or self.options.values.get(f"{resource.address}.arn")
            if not isinstance(arn, str):
                arn = self.place.arn(kind, name, its_id, values.get("scope"), values.get("region"))
                self.remarks.warn(f"{resource.address} isn't deployed: {arn} stands for its ARN")
            self.known[resource.address] = (name, its_id, arn)
        return self.known[resource.address]

    def filled(self, resource):
        """Returns the values of a resource with the ARNs that aren't known yet."""
        unknown = {name: one for name, one in self.unknown.get(resource.address, {}).items() if name not in COMPUTED}
        values, expressions = copy.deepcopy(resource.values), self.references.expressions(resource)
        return self.fill(values, unknown, expressions, resource.address, (resource, None))

    def fill(self, value, unknown, expression, path, where):
        """Returns a value with what isn't known in it filled in; `where` is the resource and the statement's name."""
        if unknown is True:
            return self.unknown_value(expression, path, where)
        if isinstance(unknown, dict):
            value = value if isinstance(value, dict) else {}
            for name, part in unknown.items():
                if holds_true(part):
                    inner = expression.get(name) if isinstance(expression, dict) else None
                    step = (where[0], name if name in REFERRED else where[1] if name == "arn" else None)
                    value[name] = self.fill(value.get(name), part, inner, f"{path}.{name}", step)
        elif isinstance(unknown, list):
            value = value if isinstance(value, list) else []
            for index, part in enumerate(unknown):
                if holds_true(part):
                    value.extend([None] * (index + 1 - len(value)))
                    inner = item_of(expression, index, value[index], path.endswith(".rule"))
                    value[index] = self.fill(value[index], part, inner, f"{path}[{index}]", where)
        return value

    def unknown_value(self, expression, path, where):
        resource, statement = where
        if path in self.options.values:
            given = self.options.values[path]
            return next((self.known_as(one)[2] for one in self.waf() if one.address == given), given)
        found = self.references.targets(resource, expression, REFERRED[statement]) if statement else []
        if len(found) == 1:
            return self.known_as(found[0])[2]
        several = f", and refers to {', '.join(one.address for one in found)}" if found else ""
        text = f"{path}: isn't known before the plan is applied{several}; --value '{path}=VALUE' gives it"
        self.remarks.obstacle(text)
        return None

    def things(self):
        """Returns the web ACLs, sets and groups of the plan."""
        found = [(one, self.known_as(one), self.filled(one)) for one in self.waf()]
        self.remarks.end_if_hindered()
        things = []
        for resource, (name, its_id, arn), values in found:
            kind, shape_name = TYPES[resource.type]
            rest = {key: item for key, item in values.items() if key not in PROVIDER and key != "rule_json"}
            if values.get("tags"):
                text = "is left out: the API prints no tags with a web ACL, set or group"
                self.remarks.warn(f"{resource.address}.tags {text}")
            value = api_value(shape(shape_name), rest, resource.address, self.remarks)
            if isinstance(values.get("rule_json"), str) and values["rule_json"]:
                value["Rules"] = self.raw_rules(values["rule_json"], f"{resource.address}.rule_json")
            if isinstance(value.get("Rules"), list):
                value["Rules"].sort(key=priority_of)
            things.append(Thing(kind, resource.address, {**value, "Name": name, "Id": its_id, "ARN": arn}))
        self.remarks.end_if_hindered()
        return things

    def raw_rules(self, text, path):
        """Returns the rules of `rule_json`, which are the API's, with plain search strings."""
        return packed(json_value(text, path), True, path, self.remarks)


def priority_of(rule):
    found = rule.get("Priority") if isinstance(rule, dict) else None
    return found if isinstance(found, int) else 0


def holds_true(unknown):
    """Returns whether anything in a value of `after_unknown` is unknown."""
    if isinstance(unknown, (dict, list)):
        return any(holds_true(part) for part in (unknown.values() if isinstance(unknown, dict) else unknown))
    return unknown is True


def item_of(expressions, index, value, is_rule):
    """Returns the expressions of one block of several. Rules are a set, whose order isn't that of the configuration:
    theirs are found by a constant name or priority."""
    if not isinstance(expressions, list):
        return expressions if not is_rule else None
    if not is_rule:
        return expressions[index] if index < len(expressions) else None
    for name in ("name", "priority"):
        wanted = value.get(name) if isinstance(value, dict) else None
        fitting = [one for one in expressions if member(one, name).get("constant_value") == wanted]
        if wanted is not None and len(fitting) == 1:
            return fitting[0]
    return None


def bundle_of(plan, options, remarks):
    """Returns the bundle of the plan's web ACL."""
    place = placeholder.Place(options.account, options.region)
    read = Plan(plan, options, place, remarks)
    if not read.resources:
        raise Fault("$: no resources in planned_values, or in the values of a state")
    things = read.things()
    if any(f":{place.account}:" in thing.value["ARN"] for thing in things):
        placeholder.warn_of_account(place, remarks)
    taken = {one.address for one in read.waf()}
    for one in read.resources:
        if one.type.startswith("aws_wafv2_") and one.address not in taken:
            remarks.warn(f"{one.address} is left out: a bundle has no place for it")
    return assemble(things, options.web_acl, remarks)
