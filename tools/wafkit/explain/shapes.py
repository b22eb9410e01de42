"""Values of another kind, number or name than is read at their place (E2, E3, E4): what was found, and the cure."""

import re

from . import formats, recognised
from .case import kind_of, likest, shown


def of_shape(case):
    """E2: what is absent or of another kind."""
    told = swapped(case)
    if told:
        return told
    value, expected = case.value, case.expected
    if case.root is None:
        return [("allowed", expected.says)] if expected else []
    if value is None:
        return of_absent(case)
    told = [("found", f"{kind_of(value)}: {shown(value)}")]
    if expected is None:
        return told
    told.append(("allowed", expected.says))
    if expected.kind == "object" and expected.words and value.kind == "object":
        return told + [("cure", one_member_cure(case))]
    return told + [("cure", kind_cure(value, expected))]


def swapped(case):
    """Says that the file is something else than its role, where it seems so."""
    if case.root is None or not case.path or len(formats.steps_of(case.path)) > 1:
        return None
    other = recognised.swapped(case.role, case.root.plain())
    if other is None:
        return None
    role = {"old": "bundle", "new": "bundle", "log": "line of a log"}.get(case.role, case.role)
    return [("found", f"{other[0]}, where the {role} is read"), ("cure", other[1])]


def of_absent(case):
    """Says what the object has in place of the member that is absent."""
    holder, example = case.root.at(case.parent), case.expected.example if case.expected else "{}"
    names = [name for name, _ in holder.members()] if holder is not None else []
    told = [("found", absent_text(case, names))]
    if case.expected:
        told.append(("allowed", f"{case.step}: {case.expected.says}"))
    if case.step in names:
        return told + [("cure", f"give it a value, as {example}")]
    near = likest(case.step, [name for name in names if not case_reads(case, name)])
    if near:
        return told + [("cure", f'write "{case.step}" for "{near}"')]
    return told + [("cure", f'add "{case.step}": {example}')]


def absent_text(case, names):
    """Returns what is said of a member that isn't there or is null, among members of these names."""
    if case.step in names:
        return f"{case.step} is null, which counts as absent"
    return f"no {case.step}; the object has {', '.join(map(shown, names)) or 'no members'}"


def case_reads(case, name):
    """Returns whether a member of that name is read beside the absent one."""
    holder = formats.expected_at(case.role, case.parent)
    return holder is not None and name in holder.members


def one_member_cure(case):
    """The cure where an object must have exactly one member of some names."""
    names = [name for name, value in case.value.members() if not (value.kind == "constant" and value.data is None)]
    if len(names) == 1:
        near = likest(names[0], case.expected.words)
        return f'write "{near}" for "{names[0]}"' if near else f"write one of these names for {shown(names[0])}"
    if not names:
        return f"write one of them, as {case.expected.example}"
    return f"it has {len(names)} members, {', '.join(names)}: keep one, and write another statement for each other"


def kind_cure(value, expected):
    """The cure where a value is of another kind."""
    if expected.kind == "array" and value.kind in ("object", "string"):
        return f"write a list, with this in it: [{shown(value)}]"
    if expected.kind in ("number", "boolean") and value.kind == "string":
        return f"write it without quotes: {value.data.lower()}"
    if expected.kind == "string" and value.kind in ("number", "constant"):
        return f'write it in quotes: "{shown(value)}"'
    return f"write {expected.says}, as {expected.example}"


def of_number(case):
    """E3: a number out of its range, also inside of a statement that has a key."""
    if case.value is None:
        return [("allowed", case.expected.says)] if case.expected else []
    if case.value.kind == "object":
        stray = stray_number(case.value)
        if stray is None:
            return [("found", shown(case.value))]
        told = [("found", f"{number_text(stray)} at {case.where(stray)}")]
        told.append(("allowed", "whole numbers in a statement that has a key, whatever they are for"))
        return told + [("cure", f"write a whole number: {whole_text(stray.data)}")]
    told = [("found", number_text(case.value))]
    if case.expected is None:
        return told
    told.append(("allowed", case.expected.says))
    if isinstance(case.value.data, float) and case.value.data.is_integer():
        return told + [("cure", f"write it without a point and an exponent: {whole_text(case.value.data)}")]
    return told + [("cure", f"write {case.expected.says}")]


def number_text(value):
    """Returns the number as it is written."""
    return value.text[value.offset :].split(",")[0].split("}")[0].split("]")[0].strip()


def whole_text(number):
    return str(round(number)) if abs(number) < 2**63 else "one of 64 bits"


def stray_number(value):
    """Returns the first number of a statement that isn't whole or is too large, its scope-down left out, or None."""
    if value.kind == "number":
        whole = isinstance(value.data, int) and number_text(value) != "-0"
        return None if whole and -(2**63) <= value.data < 2**64 else value
    inner = [part for name, part in value.members() if name != "ScopeDownStatement"] + list(value.items())
    return next((found for found in map(stray_number, inner) if found is not None), None)


def of_name(case):
    """E4: a text that is none of the names, or has other characters."""
    told = [("found", shown(case.value))] if case.value is not None else []
    if case.expected is None:
        return told
    told.append(("allowed", case.expected.says))
    if case.value is None or case.value.kind != "string":
        return told
    if case.expected.words:
        near = likest(case.value.data, case.expected.words)
        return told + [("cure", f'write "{near}"' if near else "write one of these names, in capital letters")]
    if not case.value.data:
        return told + [("cure", "write a text that isn't empty")]
    return told + [("cure", letters_cure(case.value.data, case.expected))]


def letters_cure(text, expected):
    """The cure where a text has characters that it may not have."""
    if expected is formats.MANAGED_LABEL and not text.startswith("awswaf:managed:"):
        return f'write the whole label, as "awswaf:managed:aws:GROUP:{text}"'
    marks = "" if expected is formats.NAME else ":"
    strays = sorted(set(re.findall(rf"[^A-Za-z0-9_{marks}-]", text)))
    if expected is formats.TOKEN:
        strays = sorted(set(re.findall(r"[^A-Za-z0-9!#$%&'*+.^_`|~-]", text)))
    if strays:
        return f"write it without {', '.join(map(repr, strays))}"
    return f"it has {len(text)} characters: write a shorter one"
