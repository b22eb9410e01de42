"""The service's members, by botocore's model of it: their names and kinds, and values brought to those kinds."""

import base64
import binascii
import functools
import re

from .. import fault

WHOLE = re.compile(r"[+-]?[0-9]+\Z")
TRUTHS = {"true": True, "false": False}


@functools.lru_cache(maxsize=None)
def service():
    """Returns botocore's model of the service. It is read from botocore's own files: no session, no credentials."""
    loaders = fault.package("botocore.loaders", "convert of a template or plan", "botocore")
    model = fault.package("botocore.model", "convert of a template or plan", "botocore")
    return model.ServiceModel(loaders.Loader().load_service_model("wafv2", "service-2"), "wafv2")


def shape(name):
    """Returns botocore's shape of that name, as `WebACL`."""
    return service().shape_for(name)


def scalar(kind, data, path, remarks):
    """Returns a value that isn't a structure, list or map as the kind that the service's model asks for, where a
    template may write it otherwise; what can't be one goes through as it is, with a warning."""
    if kind in ("integer", "long", "timestamp", "double", "float"):
        return number(data, path, remarks)
    if kind == "boolean":
        return truth(data, path, remarks)
    if isinstance(data, str):
        return data
    if isinstance(data, bool):
        word = "true" if data else "false"
        remarks.warn(f"{path}: a text is wanted, and YAML reads a word here as {word}: put another word in quotes")
        return word
    if isinstance(data, (int, float)):
        return str(data)
    return kept(data, path, "a text", remarks)


def number(data, path, remarks):
    if isinstance(data, str) and WHOLE.match(data.strip()):
        return int(data)
    if isinstance(data, float) and data.is_integer():
        return int(data)
    if isinstance(data, int) and not isinstance(data, bool):
        return data
    return kept(data, path, "a whole number", remarks)


def truth(data, path, remarks):
    if isinstance(data, str) and data.lower() in TRUTHS:
        return TRUTHS[data.lower()]
    return data if isinstance(data, bool) else kept(data, path, "true or false", remarks)


def kept(data, path, wanted, remarks):
    remarks.warn(f"{path}: {wanted} is wanted; what stands there goes through as it is")
    return data


def base64_of(text):
    """Returns the base64 of a text's UTF-8, as the aws CLI prints a blob."""
    return base64.b64encode(text.encode("utf-8", "surrogatepass")).decode("ascii")


def plain_search_string(data, path, remarks):
    """Returns a plain search string as the API prints it; what is no text goes through as it is, with a warning."""
    text = scalar("string", data, path, remarks)
    return base64_of(text) if isinstance(text, str) else text


def is_base64(text):
    """Returns whether a text is canonical base64 of the standard alphabet, as the program wants it."""
    try:
        return base64.b64encode(base64.b64decode(text.encode("ascii"), validate=True)).decode("ascii") == text
    except (binascii.Error, ValueError):
        return False
