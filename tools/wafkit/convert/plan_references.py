"""What an unknown ARN in a Terraform plan refers to, by the references that the plan's configuration has."""

import json
import re

STEP = re.compile(r"module\.([^.\[]+)(?:\[[^\]]*\])?\.?")
RESOURCE = re.compile(r"(aws_wafv2_\w+)\.([\w-]+)(?:\[(\d+|\"[^\"]*\")\])?")
REPEATING = ("each.key", "each.value", "count.index")
MOST_STEPS = 50


class Resource:
    """A resource of a plan: where it stands, and its values."""

    def __init__(self, entry, module):
        self.address, self.type, self.name = (str(entry.get(one, "")) for one in ("address", "type", "name"))
        self.index, self.mode = entry.get("index"), entry.get("mode", "managed")
        self.values = entry.get("values") if isinstance(entry.get("values"), dict) else {}
        self.module, self.modules = module, tuple(STEP.findall(module))


    def is_made_by(self, entry):
        """Returns whether a resource of its module's configuration makes this one."""
        names = (entry.get("type"), entry.get("name"), entry.get("mode", "managed"))
        return names == (self.type, self.name, self.mode)


class References:
    """Finds resources by references, in the configuration of a plan."""

    def __init__(self, plan, resources):
        configuration = plan.get("configuration")
        self.root = member(configuration, "root_module")
        self.resources = resources

    def module(self, names):
        """Returns the configuration of the module that these names lead to."""
        found = self.root
        for name in names:
            found = member(member(member(found, "module_calls"), name), "module")
        return found

    def expressions(self, resource):
        """Returns the expressions of a resource's configuration."""
        for entry in items(self.module(resource.modules), "resources"):
            if isinstance(entry, dict) and resource.is_made_by(entry):
                return member(entry, "expressions")
        return {}

    def targets(self, referrer, expression, wanted_type):
        """Returns the resources of a type that an expression of the referrer refers to."""
        found = self.follow(referrer, referrer.modules, expression, 0)
        return list({one.address: one for one in found if one.type == wanted_type}.values())

    def follow(self, referrer, modules, expression, steps):
        references = [one for one in items(expression, "references") if isinstance(one, str)]
        found = []
        for reference in references:
            if steps < MOST_STEPS and not any(is_front(reference, other) for other in references):
                found.extend(self.one(referrer, modules, reference, references, steps + 1))
        return found

    def one(self, referrer, modules, reference, references, steps):
        """Returns the resources that one reference leads to, through variables and outputs of modules."""
        parts = re.split(r"[.\[]", reference)
        if parts[0] == "var" and modules and len(parts) > 1:
            call = member(member(self.module(modules[:-1]), "module_calls"), modules[-1])
            return self.follow(referrer, modules[:-1], member(member(call, "expressions"), parts[1]), steps)
        if parts[0] == "module" and len(parts) > 2:
            inner = modules + (parts[1],)
            name = next((part for part in parts[2:] if part and not part.endswith("]")), "")
            output = member(member(self.module(inner), "outputs"), name)
            return self.follow(referrer, inner, member(output, "expression"), steps)
        named = RESOURCE.match(reference)
        return self.instances(referrer, modules, named, references) if named else []

    def instances(self, referrer, modules, named, references):
        wanted = ("managed", modules, named[1], named[2])
        fitting = [one for one in self.resources if (one.mode, one.modules, one.type, one.name) == wanted]
        near = [one for one in fitting if one.module == referrer.module] or fitting
        if named[3] is not None:
            return [one for one in near if one.index == json.loads(named[3])]
        if len(near) > 1 and any(one.startswith(REPEATING) for one in references):
            return [one for one in near if one.index == referrer.index]
        return near


def is_front(reference, other):
    """Returns whether a reference is only the front of another one: a plan lists `a.b.arn` and also `a.b`."""
    return other != reference and other.startswith(reference) and other[len(reference)] in ".["


def member(value, name):
    """Returns a member that is an object, or an empty one."""
    found = value.get(name) if isinstance(value, dict) else None
    return found if isinstance(found, dict) else {}


def items(value, name):
    """Returns a member that is a list, or an empty one."""
    found = value.get(name) if isinstance(value, dict) else None
    return found if isinstance(found, list) else []


def resources_of(module, address=""):
    """Returns all resources of a module of planned values, a state or prior state, with those of its modules."""
    found = [Resource(entry, address) for entry in items(module, "resources") if isinstance(entry, dict)]
    for child in items(module, "child_modules"):
        if isinstance(child, dict):
            found.extend(resources_of(child, str(child.get("address", ""))))
    return found
