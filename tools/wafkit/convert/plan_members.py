"""Values of Terraform's resources of AWS WAF as the members that the API has.

The provider writes the API's names in small letters with `_` between, lists often in the singular; a structure is a
list of one block, and an absent one a list of none. Search strings are plain.
"""

from .service_members import plain_search_string, scalar

# Plurals that aren't made with an s.
PLURALS = {"customresponsebody": "customresponsebodies", "regularexpression": "regularexpressionlist"}


def member_of(shape, name):
    """Returns the name of the API's member that an attribute or block of the provider is, or None."""
    members = {member.lower(): member for member in shape.members}
    wanted = name.replace("_", "").lower()
    return next((members[one] for one in (wanted, f"{wanted}s", PLURALS.get(wanted)) if one in members), None)


def api_value(shape, data, path, remarks):
    """Returns a value of a plan as the API's value of that shape. What the API has no member for goes through under its
    own name, with a warning."""
    if shape.type_name == "structure":
        return structure(shape, block_of(data), path, remarks)
    if shape.type_name == "map":
        return mapping(shape, data, path, remarks)
    if shape.type_name == "list":
        return listed(shape, data, path, remarks)
    return scalar(shape.type_name, data, path, remarks)


def block_of(data):
    """Returns the one block of a list; an empty block may be written null."""
    if isinstance(data, list) and len(data) == 1:
        data = data[0]
        return {} if data is None else data
    return data


def structure(shape, data, path, remarks):
    if not isinstance(data, dict):
        remarks.warn(f"{path}: one block is wanted; what stands there goes through as it is")
        return data
    found = {}
    for name, item in data.items():
        member, place = member_of(shape, name), f"{path}.{name}"
        if item is None or (item in ([], "", {}) and member not in shape.required_members):
            continue  # how a plan writes what isn't set
        if member is None:
            remarks.warn(f"{place}: the service has no such member; it goes through as it is")
            found[name] = item
        elif shape.name == "ByteMatchStatement" and member == "SearchString":
            found[member] = plain_search_string(item, place, remarks)
        else:
            found[member] = api_value(shape.members[member], item, place, remarks)
    return found


def listed(shape, data, path, remarks):
    items = data if isinstance(data, list) else [data]
    found = []
    for index, item in enumerate(items):
        names = item.get("identifiers") if isinstance(item, dict) else None
        if isinstance(names, list) and "Identifier" in getattr(shape.member, "members", {}):
            found.extend({"Identifier": one} for one in names)
        else:
            item = [item] if shape.member.type_name == "structure" else item
            found.append(api_value(shape.member, item, f"{path}[{index}]", remarks))
    return found


def mapping(shape, data, path, remarks):
    """Returns a map: blocks with a `key`, or one block whose own blocks are named as the keys are, in small letters."""
    found = {}
    for index, block in enumerate(data if isinstance(data, list) else [data]):
        place = f"{path}[{index}]"
        if not isinstance(block, dict):
            remarks.warn(f"{place}: a block is wanted; it is left out")
        elif "key" in block:
            rest = {name: item for name, item in block.items() if name != "key"}
            found[str(block["key"])] = api_value(shape.value, rest, place, remarks)
        else:
            for name, item in block.items():
                if item not in (None, [], {}):
                    found[name.upper()] = api_value(shape.value, item, f"{place}.{name}", remarks)
    return found
