"""What differs between two revisions and isn't read, so that EQUAL says nothing of it."""

from . import json_path, reading
from .finding import Finding, Place, shown
from .service_model import WRAPPED

# By what elements of two lists are the same one.
NAMED_BY = {"Rule": ("Name",), "IPSet": ("ARN",), "RegexPatternSet": ("ARN",), "RuleGroup": ("ARN",)}
NAMED_BY["ManagedCapacity"] = ("VendorName", "Name", "Version")


class UnreadDifferences:
    """Collects the unread members that differ; the place of each is in NEW, or in OLD where NEW hasn't it."""

    def __init__(self):
        self.of_old, self.of_new = [], []

    def object(self, old, new, structure, old_path, new_path):
        """Adds the unread members in which two objects differ; one of them may be None. What is read only, or is part
        of a question, is told by the program itself."""
        for name, sides in members_of(old, new).items():
            child = reading.child_of(structure, name)
            at = json_path.member(old_path, name), json_path.member(new_path, name)
            values = [it.value if it else None for it in sides]
            if child is None:
                if not reading.is_keyed(structure) and (None not in (old, new) or name not in reading.NEUTRAL):
                    self.unread(name, sides, at)
            elif child.startswith("["):
                self.list(*values, child[1:-1], *at)
            elif child:
                named = reading.structure_of(child, values[1] or values[0])
                self.object(*values, named, *at)

    def list(self, old, new, child, old_path, new_path):
        """Adds those of two lists, whose elements of one name are compared."""
        pairs = {}
        for side, (value, path) in enumerate(((old, old_path), (new, new_path))):
            for index, it in enumerate(value.items() if value is not None else []):
                at = json_path.element(path, index)
                if child in WRAPPED:
                    it, at = json_path.unwrapped(it, child, at)
                name = tuple(json_path.text_of(it, each) for each in NAMED_BY.get(child, ()) if it.kind == "object")
                pairs.setdefault(name or index, [(None, ""), (None, "")])[side] = (it, at)
        for (before, old_at), (after, new_at) in pairs.values():
            named = reading.structure_of(child, after or before)
            self.object(before, after, named, old_at, new_at)

    def unread(self, name, sides, at):
        """Adds an unread member where it differs; of two objects the innermost members that differ."""
        before, after = (plain(it.value) if it else None for it in sides)
        if before == after or name in reading.OF_THE_RECORD:
            return
        if isinstance(before, dict) and isinstance(after, dict):
            for inner, both in members_of(*(it.value for it in sides)).items():
                self.unread(inner, both, [json_path.member(path, inner) for path in at])
            return
        says = f"{shown(name)} isn't read: {shown(before) if sides[0] else 'nothing'} became "
        says += shown(after) if sides[1] else "nothing"
        side = 1 if sides[1] else 0
        place = Place(sides[side].value.text, sides[side].offset)
        one = Finding("unread-difference", at[side], place, says, "compare it by eye: EQUAL says nothing of it")
        (self.of_new if side else self.of_old).append(one)


def members_of(old, new):
    """Returns the members that are there of two objects by their name: that of OLD and that of NEW, or None."""
    members = {}
    for side, value in enumerate((old, new)):
        for member in value.data if value is not None and value.kind == "object" else []:
            if not json_path.is_absent(member.value):
                members.setdefault(member.name, [None, None])[side] = member
    return members


def plain(value):
    """Returns a value without members that are null, which count as absent."""
    if value.kind == "object":
        return {name: plain(it) for name, it in value.members() if not json_path.is_absent(it)}
    return [plain(it) for it in value.items()] if value.kind == "array" else value.data


def findings(old, new):
    """Returns the findings of OLD and those of NEW."""
    found = UnreadDifferences()
    found.object(old, new, "Bundle", "$", "$")
    return found.of_old, found.of_new
