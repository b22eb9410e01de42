"""A CloudFormation template: its resources of AWS WAF, as a bundle."""

from ..fault import Fault
from . import placeholder
from .bundle_parts import Thing, assemble
from .placeholder import identity
from .service_members import scalar, shape
from .template_members import api_value, with_patterns
from .template_values import UNKNOWN, Values, section

TYPES = {
    "AWS::WAFv2::WebACL": ("webacl", "WebACL"),
    "AWS::WAFv2::IPSet": ("ipset", "IPSet"),
    "AWS::WAFv2::RegexPatternSet": ("regexpatternset", "RegexPatternSet"),
    "AWS::WAFv2::RuleGroup": ("rulegroup", "RuleGroup"),
}
# What the API's answers have no member for.
PLACELESS = ("Scope", "Tags")
KNOWN_TRANSFORMS = ("AWS::LanguageExtensions", "AWS::Serverless-2016-10-31")


class Template:
    """The resources of a template under given parameters."""

    def __init__(self, template, options, place, remarks):
        self.place, self.remarks, self.options = place, remarks, options
        self.given_pseudo = {name: value for name, value in options.parameters.items() if name.startswith("AWS::")}
        given = {name: value for name, value in options.parameters.items() if name not in self.given_pseudo}
        self.resources = resources_of(template)
        self.values = Values(template, given, options.values, self.pseudo, remarks)
        self.values.attribute = self.attribute
        self.identities = {}
        warn_of_transforms(template, remarks)

    def pseudo(self, name):
        """Returns the value of a pseudo parameter, given or made up, or None."""
        if name in self.given_pseudo:
            return self.given_pseudo[name]
        place = self.place
        suffix = "amazonaws.com.cn" if place.partition == "aws-cn" else "amazonaws.com"
        where = f"arn:{place.partition}:cloudformation:{place.region}:{place.account}"
        stack = f"{where}:stack/stack/{identity('stack', 'stack')}"
        made_up = {"AWS::StackName": "stack", "AWS::StackId": stack, "AWS::NotificationARNs": []}
        if name in made_up:
            shown = made_up[name] or "an empty list"
            self.remarks.warn(f"{name} isn't known: {shown} stands for it; --parameter {name}=VALUE gives it")
            return made_up[name]
        known = {"AWS::AccountId": place.account, "AWS::Region": place.region, "AWS::Partition": place.partition}
        return {**known, "AWS::URLSuffix": suffix}.get(name)

    def exists(self, logical_id):
        """Returns whether the resource's condition holds, or it has none."""
        condition = self.resources[logical_id].get("Condition")
        return condition is None or self.values.condition(condition, f"$.Resources.{logical_id}.Condition") is True

    def known_as(self, logical_id):
        """Returns name, id, scope and ARN of a resource."""
        if logical_id not in self.identities:
            kind, _ = TYPES[type_of(self.resources[logical_id])]
            self.identities[logical_id] = (logical_id, identity(kind, logical_id), "REGIONAL", UNKNOWN)
            name, scope = self.property(logical_id, "Name"), self.property(logical_id, "Scope")
            if name is None:
                name = logical_id
                self.remarks.warn(f"{logical_id} has no Name: CloudFormation makes one up, and {name} stands for it")
            its_id = identity(kind, logical_id)
            arn = self.options.values.get(f"GetAtt:{logical_id}.Arn")
            if arn is None:
                arn = self.place.arn(kind, name, its_id, scope)
                self.remarks.warn(f"{logical_id} isn't deployed: {arn} stands for its ARN")
            self.identities[logical_id] = (name, its_id, scope, arn)
        return self.identities[logical_id]

    def property(self, logical_id, name):
        """Returns the text that a property resolves to, or None."""
        path = f"$.Resources.{logical_id}.Properties.{name}"
        properties = self.properties(logical_id)
        value = self.values.resolve(properties[name], path) if name in properties else None
        return scalar("string", value, path, self.remarks) if isinstance(value, (str, int, float)) else None

    def properties(self, logical_id):
        """Returns the unresolved properties of a resource."""
        properties = self.resources[logical_id].get("Properties")
        if not isinstance(properties, dict):
            raise Fault(f"$.Resources.{logical_id}.Properties: an object is wanted")
        return properties

    def attribute(self, logical_id, name):
        """Answers Ref (`name` None) and Fn::GetAtt on a resource of AWS WAF; None where it can't."""
        if logical_id not in self.resources or type_of(self.resources[logical_id]) not in TYPES:
            return None
        if not self.exists(logical_id):
            return None
        its_name, its_id, scope, arn = self.known_as(logical_id)
        kind, _ = TYPES[type_of(self.resources[logical_id])]
        if name == "LabelNamespace" and kind in ("webacl", "rulegroup"):
            return f"awswaf:{self.place.account}:{kind}:{its_name}:"
        return {None: f"{its_name}|{its_id}|{scope}", "Arn": arn, "Id": its_id}.get(name)

    def resolved(self, logical_id):
        """Returns the resource's properties that the bundle has a place for, with functions resolved."""
        path, found = f"$.Resources.{logical_id}.Properties", {}
        for name, value in self.properties(logical_id).items():
            if name == "Tags":
                self.remarks.warn(f"{path}.Tags is left out: the API prints no tags with a web ACL, set or group")
            if name not in PLACELESS:
                found[name] = value
        return self.values.resolve(found, path)

    def things(self):
        """Returns the web ACLs, sets and groups that the template makes."""
        waf = [name for name, one in self.resources.items() if type_of(one) in TYPES and self.exists(name)]
        found = [(name, self.resolved(name), self.known_as(name)) for name in waf]
        self.remarks.end_if_hindered()
        things = []
        for logical_id, properties, (name, its_id, _, arn) in found:
            kind, shape_name = TYPES[type_of(self.resources[logical_id])]
            path = f"$.Resources.{logical_id}.Properties"
            if kind == "regexpatternset":
                properties = with_patterns(properties)
            value = api_value(shape(shape_name), properties, path, self.remarks)
            things.append(Thing(kind, logical_id, {"ARN": arn, "Id": its_id, **value, "Name": name}))
        self.remarks.end_if_hindered()
        return things


def type_of(resource):
    return str(resource.get("Type"))


def resources_of(template):
    named = template.get("Resources")
    for name in named if isinstance(named, dict) else ():
        if str(name).startswith("Fn::"):
            raise Fault(f"$.Resources.{name}: can't be resolved within the template")
    resources = section(template, "Resources")
    if not resources:
        raise Fault("$.Resources: no resources")
    return resources


def warn_of_transforms(template, remarks):
    named = template.get("Transform") or []
    for name in named if isinstance(named, list) else [named]:
        if name not in KNOWN_TRANSFORMS:
            remarks.warn(f"the transform {name} changes the template before it is deployed; it is read as it stands")


def bundle_of(template, options, remarks):
    """Returns the bundle of the template's web ACL."""
    place = placeholder.Place(
        options.account or options.parameters.get("AWS::AccountId"),
        options.region or options.parameters.get("AWS::Region"),
    )
    read = Template(template, options, place, remarks)
    things = read.things()
    placeholder.warn_of_account(place, remarks)
    for name, one in read.resources.items():
        kind = type_of(one)
        if kind.startswith("AWS::WAFv2::") and kind not in TYPES:
            remarks.warn(f"{name} is left out: a bundle has no place for {kind}")
        elif kind in TYPES and name not in [thing.source_name for thing in things]:
            remarks.warn(f"{name} is left out: its condition doesn't hold")
    return assemble(things, options.web_acl, remarks)
