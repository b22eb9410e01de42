"""The values of a CloudFormation template: intrinsic functions are resolved within the template, and nowhere else."""

import json
import re

from .. import status
from ..fault import Fault
from .service_members import base64_of

# What AWS::NoValue leaves, and what a value is that can't be resolved (its obstacle has been noted).
NO_VALUE, UNKNOWN = object(), object()
VARIABLE = re.compile(r"\$\{(!?)([^{}]*)\}")
DYNAMIC = re.compile(r"\{\{resolve:[^{}]*\}\}")


class Values:
    """Resolves values of a template. `attribute(logical_id, name)` answers Ref (`name` None) and Fn::GetAtt on
    resources of AWS WAF, or None where it can't."""

    def __init__(self, template, given, known, pseudo, remarks):
        self.mappings = section(template, "Mappings")
        self.condition_texts = section(template, "Conditions")
        self.parameters = parameter_values(section(template, "Parameters"), given)
        self.parameter_types = section(template, "Parameters")
        self.known, self.pseudo, self.remarks = known, pseudo, remarks
        self.conditions, self.attribute = {}, lambda logical_id, name: None
        self.functions = {
            "Ref": self.ref,
            "Condition": self.condition_function,
            "Fn::GetAtt": self.get_att,
            "Fn::Sub": self.sub,
            "Fn::Join": self.join,
            "Fn::Select": self.select,
            "Fn::Split": self.split,
            "Fn::FindInMap": self.find_in_map,
            "Fn::If": self.choice,
            "Fn::Base64": self.base64,
            "Fn::ImportValue": self.import_value,
            "Fn::Equals": self.equals,
            "Fn::And": self.all_hold,
            "Fn::Or": self.one_holds,
            "Fn::Not": self.none_holds,
        }

    def resolve(self, value, path):
        """Returns the value with all functions resolved; NO_VALUE and UNKNOWN stand for what they say."""
        if isinstance(value, dict):
            name = next(iter(value), None)
            if len(value) == 1 and (name in self.functions or str(name).startswith("Fn::")):
                return self.function(name, value[name], path)
            found = {key: self.resolve(item, f"{path}.{key}") for key, item in value.items()}
            return {key: item for key, item in found.items() if item is not NO_VALUE}
        if isinstance(value, list):
            found = [self.resolve(item, f"{path}[{index}]") for index, item in enumerate(value)]
            return [item for item in found if item is not NO_VALUE]
        if value is None:
            return self.hindered(path, "null, which CloudFormation takes nowhere")
        return self.dynamic(value, path) if isinstance(value, str) else value

    def function(self, name, argument, path):
        if name not in self.functions:
            return self.hindered(path, f"{name} can't be resolved within the template")
        return self.functions[name](argument, path)

    def hindered(self, path, text, key=None):
        """Notes that something can't be resolved, or returns what `--value` gives for it."""
        if key in self.known:
            return self.known[key]
        self.remarks.obstacle(f"{path}: {text}" + (f"; --value {json.dumps(key)[1:-1]}=VALUE gives it" if key else ""))
        return UNKNOWN

    def dynamic(self, text, path):
        for found in DYNAMIC.findall(text):
            value = self.hindered(path, f"{found} stands outside of the template", found[2:-2])
            if value is UNKNOWN:
                return UNKNOWN
            text = text.replace(found, value)
        return text

    def ref(self, name, path):
        if not isinstance(name, str):
            return self.malformed("Ref", path)
        if name == "AWS::NoValue":
            return NO_VALUE
        if name in self.parameters:
            return self.parameter(name, path)
        if name.startswith("AWS::"):
            value = self.pseudo(name)
            return self.hindered(path, f"{name} is no pseudo parameter") if value is None else value
        value = self.attribute(name, None)
        if value is None:
            return self.hindered(path, f"Ref {name} can't be resolved within the template", f"Ref:{name}")
        return value

    def parameter(self, name, path):
        value, kind = self.parameters[name], str(self.parameter_types.get(name, {}).get("Type", "String"))
        if value is None:
            self.remarks.obstacle(f"{path}: the parameter {name} has no value: --parameter {name}=VALUE gives it")
            return UNKNOWN
        if isinstance(value, str) and ("List" in kind):
            return [part.strip() for part in value.split(",")] if value else []
        return value

    def get_att(self, argument, path):
        parts = argument.split(".", 1) if isinstance(argument, str) else self.resolve(argument, path)
        if parts is UNKNOWN or (isinstance(parts, list) and UNKNOWN in parts):
            return UNKNOWN
        if not isinstance(parts, list) or len(parts) != 2:
            return self.malformed("Fn::GetAtt", path)
        name = ".".join(str(part) for part in parts)
        value = self.attribute(str(parts[0]), str(parts[1]))
        if value is None:
            return self.hindered(path, f"Fn::GetAtt {name} can't be resolved within the template", f"GetAtt:{name}")
        return value

    def import_value(self, argument, path):
        name = self.resolve(argument, path)
        if name is UNKNOWN:
            return UNKNOWN
        text = f"Fn::ImportValue {shown(name)} is the export of another stack"
        return self.hindered(path, text, f"ImportValue:{name}")

    def malformed(self, name, path):
        self.remarks.obstacle(f"{path}: {name} doesn't have the arguments that it takes")
        return UNKNOWN

    def arguments(self, name, argument, path, least, most):
        """Returns the resolved arguments of a function, or None once an obstacle was noted."""
        found = self.resolve(argument, path)
        if found is UNKNOWN or (isinstance(found, list) and UNKNOWN in found):
            return None
        if not isinstance(found, list) or not least <= len(found) <= most:
            self.malformed(name, path)
            return None
        return found

    def sub(self, argument, path):
        text, variables = argument if isinstance(argument, list) and len(argument) == 2 else (argument, {})
        if not isinstance(text, str) or not isinstance(variables, dict):
            return self.malformed("Fn::Sub", path)
        text, parts, end = self.dynamic(text, path), [], 0
        if text is UNKNOWN:
            return UNKNOWN
        for found in VARIABLE.finditer(text):
            value = "${%s}" % found[2] if found[1] else self.variable(found[2].strip(), variables, path)
            if not isinstance(value, (str, int, float)):
                return UNKNOWN if value is UNKNOWN else self.malformed("Fn::Sub", path)
            parts += [text[end : found.start()], text_of(value)]
            end = found.end()
        return "".join(parts) + text[end:]

    def variable(self, name, variables, path):
        if name in variables:
            return self.resolve(variables[name], f"{path}.{name}")
        return self.get_att(name, path) if "." in name else self.ref(name, path)

    def join(self, argument, path):
        found = self.arguments("Fn::Join", argument, path, 2, 2)
        if found is None:
            return UNKNOWN
        delimiter, parts = found
        if not isinstance(parts, list) or any(isinstance(part, (list, dict)) for part in parts):
            return self.malformed("Fn::Join", path)
        return UNKNOWN if UNKNOWN in parts else text_of(delimiter).join(text_of(part) for part in parts)

    def select(self, argument, path):
        found = self.arguments("Fn::Select", argument, path, 2, 2)
        if found is None:
            return UNKNOWN
        index, parts = text_of(found[0]), found[1]
        if not isinstance(parts, list) or not index.isdigit() or int(index) >= len(parts):
            return self.malformed("Fn::Select", path)
        return parts[int(index)]

    def split(self, argument, path):
        found = self.arguments("Fn::Split", argument, path, 2, 2)
        if found is None:
            return UNKNOWN
        if not all(isinstance(part, str) for part in found) or not found[0]:
            return self.malformed("Fn::Split", path)
        return found[1].split(found[0])

    def find_in_map(self, argument, path):
        found = self.arguments("Fn::FindInMap", argument, path, 3, 4)
        if found is None:
            return UNKNOWN
        value = self.mappings
        for name in found[:3]:
            value = value.get(text_of(name)) if isinstance(value, dict) else None
        if value is None and len(found) == 4 and isinstance(found[3], dict) and "DefaultValue" in found[3]:
            return found[3]["DefaultValue"]
        if value is None:
            place = ".".join(text_of(name) for name in found[:3])
            return self.hindered(path, f"Fn::FindInMap finds nothing at {place}")
        return value

    def base64(self, argument, path):
        text = self.resolve(argument, path)
        if text is UNKNOWN or not isinstance(text, str):
            return UNKNOWN if text is UNKNOWN else self.malformed("Fn::Base64", path)
        return base64_of(text)

    def choice(self, argument, path):
        if not isinstance(argument, list) or len(argument) != 3 or not isinstance(argument[0], str):
            return self.malformed("Fn::If", path)
        holds = self.condition(argument[0], path)
        taken = 1 if holds is True else 2
        return UNKNOWN if holds is UNKNOWN else self.resolve(argument[taken], f"{path}[{taken}]")

    def condition(self, name, path):
        """Returns whether a condition of the template holds, or UNKNOWN."""
        if name not in self.condition_texts:
            return self.hindered(path, f"the condition {shown(name)} isn't in the template")
        if name not in self.conditions:
            self.conditions[name] = UNKNOWN  # for one that asks for itself
            holds = self.resolve(self.condition_texts[name], f"$.Conditions.{name}")
            if not isinstance(holds, bool) and holds is not UNKNOWN:
                holds = self.malformed("a condition", f"$.Conditions.{name}")
            self.conditions[name] = holds
        if self.conditions[name] is UNKNOWN:
            return self.hindered(path, f"the condition {name} can't be resolved within the template")
        return self.conditions[name]

    def condition_function(self, argument, path):
        # A resource's own member Condition stands beside others and never comes here.
        return self.condition(argument, path) if isinstance(argument, str) else self.malformed("Condition", path)

    def equals(self, argument, path):
        found = self.arguments("Fn::Equals", argument, path, 2, 2)
        return UNKNOWN if found is None else text_of(found[0]) == text_of(found[1])

    def truths(self, name, argument, path, least):
        found = self.arguments(name, argument, path, least, 10)
        if found is not None and not all(isinstance(truth, bool) for truth in found):
            self.malformed(name, path)
            return None
        return found

    def all_hold(self, argument, path):
        found = self.truths("Fn::And", argument, path, 2)
        return UNKNOWN if found is None else all(found)

    def one_holds(self, argument, path):
        found = self.truths("Fn::Or", argument, path, 2)
        return UNKNOWN if found is None else any(found)

    def none_holds(self, argument, path):
        found = self.truths("Fn::Not", argument, path, 1)
        return UNKNOWN if found is None else not any(found)


def section(template, name):
    """Returns a section of the template, which is an object, or empty."""
    found = template.get(name, {})
    if not isinstance(found, dict) or not all(isinstance(item, dict) for item in found.values()):
        raise Fault(f"$.{name}: an object of objects is wanted")
    return found


def parameter_values(declared, given):
    """Returns each parameter's value: the one given, else its default, else None. A default that names a parameter of
    Systems Manager is no value."""
    for name, value in given.items():
        if name not in declared:
            raise Fault(f"--parameter {name}: the template has no such parameter", status.USAGE)
        allowed = declared[name].get("AllowedValues")
        if isinstance(allowed, list) and value not in [text_of(item) for item in allowed]:
            raise Fault(f"--parameter {name}: not one of its AllowedValues", status.USAGE)
    values = {}
    for name, one in declared.items():
        values[name] = None if str(one.get("Type", "")).startswith("AWS::SSM::") else one.get("Default")
    return {**values, **given}


def text_of(value):
    """Returns a scalar as CloudFormation writes it into a text."""
    return ("true" if value else "false") if isinstance(value, bool) else str(value)


def shown(name):
    return name if isinstance(name, str) else json.dumps(name)
