"""A value against the service's model and the table of what is read: names, kinds, values and members that are set."""

import re

from . import json_path, reading, unread_members
from .finding import Finding, Place, shown
from .nearest_name import advice
from .service_model import WRAPPED

# What the model's kinds are in JSON.
KINDS = {
    "structure": ("object",),
    "map": ("object",),
    "list": ("array",),
    "integer": ("number",),
    "long": ("number",),
    "float": ("number",),
    "double": ("number",),
    "boolean": ("constant",),
}
NAMES = {"object": "an object", "array": "a list", "number": "a number", "string": "a text"}
NAMES["constant"] = "true or false"
# Structures of which the service takes exactly one member.
ONE_MEMBER = {
    "Statement",
    "FieldToMatch",
    "HeaderMatchPattern",
    "CookieMatchPattern",
    "JsonMatchPattern",
    "RateBasedStatementCustomKey",
    "RuleAction",
    "OverrideAction",
    "DefaultAction",
    "FirewallManagerStatement",
}
# Members whose values decide nothing, and which the service itself prints otherwise than its model says.
UNJUDGED = {"Id", "Description"}
# Members that the model asks for and that a bundle needn't have: what the service gives a web ACL or set when it makes
# it, and metrics.
NOT_NEEDED = {("WebACL", "ARN"), ("IPSet", "Name")}
NEVER_NEEDED = {"Id", "VisibilityConfig"}


class ShapeCheck:
    """Collects the findings of a value by a shape."""

    def __init__(self, model):
        self.model, self.findings = model, []

    def add(self, *parts):
        """Adds a finding of these parts."""
        self.findings.append(Finding(*parts))

    def value(self, value, shape, path, quiet=False):
        """Adds the findings of that value; where `quiet`, unread members aren't named, for all is unread or a key."""
        if json_path.is_absent(value) or getattr(shape, "is_document_type", False):
            return
        wanted = KINDS.get(shape.type_name, ("string",))
        if value.kind not in wanted:
            found = f"{shown(value.plain())} is {NAMES[value.kind]}"
            self.add("wrong-kind", path, value, found, f"write {NAMES[wanted[0]]}")
        elif shape.type_name == "map":
            self.map(value, shape, path, quiet)
        elif value.kind == "object":
            self.object(value, shape, path, quiet)
        elif value.kind == "array":
            self.limits(len(value.items()), shape, "elements", value, path)
            for index, it in enumerate(value.items()):
                self.element(it, shape.member, json_path.element(path, index), quiet)
        else:
            self.scalar(value, shape, path)

    def element(self, value, shape, path, quiet):
        """Adds the findings of an element of a list, which may stand in a member of its own."""
        if json_path.is_absent(value):
            self.add("wrong-kind", path, value, "null in a list", "leave it out")
        elif shape.name in WRAPPED and json_path.unwrapped(value, shape.name, path)[1] != path:
            self.object(value, self.model.shape(f"Wrapped{shape.name}"), path, quiet)
        else:
            self.value(value, shape, path, quiet)

    def map(self, value, shape, path, quiet):
        """Adds the findings of an object whose names are values."""
        known = getattr(shape.key, "enum", [])
        for member in value.data:
            at = json_path.member(path, member.name)
            if known and member.name not in known:
                self.unknown(member, at, f"is none of {shape.key.name}", known)
            self.value(member.value, shape.value, at, quiet)

    def object(self, value, shape, path, quiet):
        """Adds the findings of an object: its names, what it lacks, and its members."""
        structure = reading.structure_of(shape.name, value)
        set_members = [member for member in value.data if not json_path.is_absent(member.value)]
        for member in value.data:
            at = json_path.member(path, member.name)
            if member.name not in shape.members:
                self.unknown(member, at, f"is no member of {shape.name}", list(shape.members))
            elif member.name not in UNJUDGED:
                self.member(member, shape, structure, at, quiet)
        names = {member.name for member in set_members}
        for name in shape.required_members:
            if name not in names and name not in NEVER_NEEDED and (shape.name, name) not in NOT_NEEDED:
                found = f"{shape.name} without {name}, which the service asks for"
                self.add("missing-member", path, value, found, f"write {shown(name)}")
        known = names & set(shape.members)
        if shape.name in ONE_MEMBER and len(known) > 1:
            found = f"{len(known)} members of {shape.name}: {', '.join(sorted(known))}"
            self.add("one-member", path, value, found, "write exactly one of them")

    def member(self, member, shape, structure, path, quiet):
        """Adds the findings of a member that the model knows."""
        child = reading.child_of(structure, member.name)
        is_key = reading.is_keyed(structure)
        if child is None and not quiet and not is_key and member.name not in reading.NEUTRAL:
            if unread_members.is_set(member.value):
                found, write = unread_members.says(structure, member)
                self.add("unread-member", path, Place(member.value.text, member.offset), found, write)
        below_is_quiet = quiet or (child is None and not shape.name.startswith("Wrapped"))
        self.value(member.value, shape.members[member.name], path, below_is_quiet)

    def unknown(self, member, path, says, known):
        """Adds the finding of a member whose name isn't known."""
        found = f"{shown(member.name)} {says}"
        self.add("unknown-member", path, Place(member.value.text, member.offset), found, advice(member.name, known))

    def scalar(self, value, shape, path):
        """Adds the findings of a text, number or truth by the model's names, lengths, ranges and patterns."""
        enum = getattr(shape, "enum", [])
        if value.kind == "string" and enum:
            if value.data not in enum:
                found = f"{shown(value.data)} is none of {shape.name}"
                self.add("unknown-value", path, value, found, advice(value.data, enum))
        elif value.kind == "string":
            self.limits(len(value.data), shape, "characters", value, path)
            pattern = shape.metadata.get("pattern")
            if pattern and value.data and not is_spelled(pattern, value.data):
                found = f"{shown(value.data)} isn't a text of {shape.name}"
                self.add("out-of-range", path, value, found, f"write a text that matches {pattern}")
        elif value.kind == "number":
            if isinstance(value.data, float) and shape.type_name in ("integer", "long"):
                self.add("wrong-kind", path, value, f"{shown(value.data)} isn't whole", "write a whole number")
            self.limits(value.data, shape, "", value, path)

    def limits(self, count, shape, unit, value, path):
        """Adds the finding of a number, length or count that the model's range excludes."""
        least, most = shape.metadata.get("min"), shape.metadata.get("max")
        if (least is not None and count < least) or (most is not None and count > most):
            found = f"{shown(value.data)} is out of the range of {shape.name}"
            if unit:
                found = f"{shape.name} has {count} {unit}"
            to = f"at least {least}" if most is None else f"at most {most}" if least is None else f"{least} to {most}"
            self.add("out-of-range", path, value, found, f"write {to} {unit}".rstrip())


def is_spelled(pattern, text):
    """Returns whether a text has the model's pattern; a pattern that Python doesn't read bars nothing."""
    try:
        return re.search(re.sub(r"\$$", r"\\Z", pattern), text) is not None
    except re.error:
        return True
