"""A resource's properties in CloudFormation as the members that the API has.

The two schemas have the same names but for `Arn` (`ARN` in the API), search strings (plain, or base64 in
`SearchStringBase64`; the API prints base64 under `SearchString`) and a pattern set's list (texts; objects with
`RegexString` in the API). CloudFormation also takes numbers and truth values as texts, and some objects as JSON texts.
"""

import json

from .service_members import is_base64, plain_search_string, scalar


def api_value(shape, data, path, remarks):
    """Returns a resolved value of a template as the API's value of that shape. Members that the API doesn't have go
    through as they are, with a warning."""
    if shape.type_name == "structure":
        return structure(shape, data, path, remarks)
    if shape.type_name == "list" and isinstance(data, list):
        return [api_value(shape.member, item, f"{path}[{index}]", remarks) for index, item in enumerate(data)]
    if shape.type_name == "map" and isinstance(data, dict):
        return {name: api_value(shape.value, item, f"{path}.{name}", remarks) for name, item in data.items()}
    if shape.type_name in ("list", "map"):
        remarks.warn(f"{path}: a {shape.type_name} is wanted; what stands there goes through as it is")
        return data
    return scalar(shape.type_name, data, path, remarks)


def structure(shape, data, path, remarks):
    data = object_of(data)
    if not isinstance(data, dict):
        remarks.warn(f"{path}: an object is wanted; what stands there goes through as it is")
        return data
    if shape.name == "ByteMatchStatement":
        data = with_search_string(data, path, remarks)
    found = {}
    for name, item in data.items():
        its_name = "ARN" if name == "Arn" and "ARN" in shape.members else name
        if its_name in shape.members:
            found[its_name] = api_value(shape.members[its_name], item, f"{path}.{name}", remarks)
        else:
            remarks.warn(f"{path}.{name}: the service has no such member; it goes through as it is")
            found[name] = item
    return found


def object_of(data):
    """Returns the object that a JSON text holds, which CloudFormation takes where the schema says object or string."""
    if not isinstance(data, str):
        return data
    try:
        return json.loads(data) if data.strip().startswith("{") else data
    except ValueError:
        return data


def with_search_string(statement, path, remarks):
    """Returns a ByteMatchStatement whose search string is base64 under the API's name."""
    rest = {name: item for name, item in statement.items() if name not in ("SearchString", "SearchStringBase64")}
    plain, packed = statement.get("SearchString"), statement.get("SearchStringBase64")
    if (plain is None) == (packed is None):
        remarks.obstacle(f"{path}: one of SearchString and SearchStringBase64 is wanted")
        return rest
    if packed is not None:
        if not isinstance(packed, str) or not is_base64(packed):
            remarks.obstacle(f"{path}.SearchStringBase64: isn't base64")
        return {"SearchString": packed, **rest}
    return {"SearchString": plain_search_string(plain, f"{path}.SearchString", remarks), **rest}


def with_patterns(properties):
    """Returns a pattern set's properties with the list of patterns that the API has."""
    patterns = properties.get("RegularExpressionList")
    if not isinstance(patterns, list):
        return properties
    objects = [one if isinstance(one, dict) else {"RegexString": one} for one in patterns]
    return {**properties, "RegularExpressionList": objects}
