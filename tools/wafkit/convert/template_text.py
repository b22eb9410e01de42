"""The text of a CloudFormation template in YAML, read as data only.

The loader is PyYAML's safe one with constructors for CloudFormation's short forms. Numbers and dates stay the texts
that they are, so that `Version: 1.10` and an account that begins with 0 keep their digits; the service's model says
later what is a number. Truth values are read as YAML 1.1 does (`NO` is false), as CloudFormation reads them.
"""

from .. import fault
from ..fault import Fault

SHORT_FORMS = ("Ref", "Condition")


def functions(yaml, base):
    """Returns a loader that refuses what CloudFormation refuses (aliases) and two members of one name."""

    class Loader(base):
        def compose_node(self, parent, index):
            if self.check_event(yaml.events.AliasEvent):
                raise yaml.MarkedYAMLError(None, None, "an alias, which neither CloudFormation nor this reader takes",
                                           self.peek_event().start_mark)
            return super().compose_node(parent, index)

        def construct_mapping(self, node, deep=False):
            names = set()
            for name_node, _ in node.value:
                name = self.construct_object(name_node, deep=True)
                if not isinstance(name, (str, int, float, bool)) or name in names:
                    problem = f"no name, or one that stands twice: {name!r}"
                    raise yaml.MarkedYAMLError(None, None, problem, name_node.start_mark)
                names.add(name)
            return super().construct_mapping(node, deep)

    return Loader


def short_form(loader, suffix, node):
    """Returns the long form that a tag `!suffix` stands for."""
    value = long_value(loader, node)
    if suffix == "GetAtt" and isinstance(value, str):
        value = value.split(".", 1)
    return {suffix if suffix in SHORT_FORMS else f"Fn::{suffix}": value}


def long_value(loader, node):
    if node.id == "mapping":
        return loader.construct_mapping(node, deep=True)
    if node.id == "sequence":
        return loader.construct_sequence(node, deep=True)
    return loader.construct_scalar(node)


def template_loader(yaml):
    """Returns the loader for templates."""
    loader = functions(yaml, yaml.SafeLoader)
    loader.add_multi_constructor("!", short_form)
    for kind in ("int", "float", "timestamp", "binary"):
        loader.add_constructor(f"tag:yaml.org,2002:{kind}", lambda self, node: self.construct_scalar(node))
    return loader


def plain_loader(yaml):
    """Returns the loader for what the aws CLI prints or takes as YAML: dates stay texts, numbers are numbers."""
    loader = functions(yaml, yaml.SafeLoader)
    loader.add_constructor("tag:yaml.org,2002:timestamp", lambda self, node: self.construct_scalar(node))
    # Bytes are written in base64, as the API prints a blob.
    loader.add_constructor("tag:yaml.org,2002:binary", lambda self, node: "".join(self.construct_scalar(node).split()))
    return loader


def yaml_value(text, name, loader_of):
    """Returns the value of a YAML text, or ends the command with the place of its fault."""
    yaml = fault.package("yaml", "convert of a YAML text", "PyYAML")
    try:
        return yaml.load(text, Loader=loader_of(yaml))  # a subclass of SafeLoader
    except yaml.MarkedYAMLError as cause:
        mark = cause.problem_mark or cause.context_mark
        place = f" at line {mark.line + 1} column {mark.column + 1}" if mark else ""
        raise Fault(f"{name}: no YAML text that can be read: {cause.problem or cause.context}{place}") from cause
    except (yaml.YAMLError, ValueError) as cause:
        raise Fault(f"{name}: no YAML text that can be read: {' '.join(str(cause).split())}") from cause
