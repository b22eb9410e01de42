"""Members of one name in one object, of which readers of JSON keep one."""

from . import json_path
from .finding import Finding, Place, shown


def findings(value):
    """Returns a finding for each member whose name stands again behind it in its object."""
    found = []
    for it, path in json_path.below(value, "$"):
        last = {member.name: member for member in it.data} if it.kind == "object" else {}
        for member in it.data if last else []:
            if last[member.name] is not member:
                read = Finding("", path, Place(it.text, last[member.name].offset), "", "")
                says = f"{shown(member.name)} stands again at line {read.line}, column {read.column}; only that is read"
                at = json_path.member(path, member.name)
                place = Place(it.text, member.offset)
                found.append(Finding("duplicate-member", at, place, says, "leave one of them out"))
    return found
