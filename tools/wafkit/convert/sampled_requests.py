"""Requests that get-sampled-requests answers, as records of the log of AWS WAF."""

from datetime import datetime, timezone

from ..fault import Fault

# The names of the members in the log, where they aren't the API's in small letters at the front.
NAMES = {"ClientIP": "clientIp", "URI": "uri", "Method": "httpMethod", "HTTPVersion": "httpVersion"}
BODYLESS = "a sampled request holds no body, and no query string but one in its URI: rules on these find none"


def is_sample(value):
    """Returns whether an object is one sampled request."""
    return isinstance(value.get("Request"), dict) and "Weight" in value


def record(sample, place, remarks):
    """Returns the record of a sampled request. All its members are kept, under the names that the log has."""
    if not isinstance(sample, dict) or not isinstance(sample.get("Request"), dict):
        raise Fault(f"{place}.Request: an object is wanted")
    remarks.warn(BODYLESS)
    request = renamed(sample["Request"])
    if not isinstance(request.get("uri"), str):
        raise Fault(f"{place}.Request.URI: a text is wanted")
    request["uri"], _, request["args"] = request["uri"].partition("?")
    rest = renamed({name: item for name, item in sample.items() if name != "Request"})
    if "timestamp" in rest:
        rest["timestamp"] = milliseconds(rest["timestamp"])
    return {**rest, "httpRequest": request}


def renamed(value):
    """Returns the value with its members' names as the log writes them."""
    if isinstance(value, list):
        return [renamed(item) for item in value]
    if not isinstance(value, dict):
        return value
    return {NAMES.get(name, name[:1].lower() + name[1:]): renamed(item) for name, item in value.items()}


def milliseconds(moment):
    """Returns a time that the aws CLI or Python writes, in milliseconds since 1970; another value as it is."""
    if isinstance(moment, (int, float)) and not isinstance(moment, bool):
        return int(moment * 1000)
    if not isinstance(moment, str):
        return moment
    try:
        read = datetime.fromisoformat(moment.replace("Z", "+00:00"))
    except ValueError:
        return moment
    return int((read if read.tzinfo else read.replace(tzinfo=timezone.utc)).timestamp() * 1000)
