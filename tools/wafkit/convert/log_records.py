"""Records of the log of AWS WAF, taken out of what wraps them: lines, arrays, CloudWatch Logs, Firehose, samples.

A record is an object with `httpRequest`, or a request alone. Records come out in the order in which they stand.
"""

import base64
import binascii
import json
import re

from ..fault import Fault
from . import sampled_requests
from .bundle_parts import json_text
from .input_text import DECODER, Repeated, text_of_bytes

SPACES = re.compile(r"[\s,]*")
# What `aws logs tail` and exports to S3 write before a message: a time, and for the first also the stream's name.
PREFIX = re.compile(r"\d{4}-\d\d-\d\dT[0-9:.]+(?:Z|[+-]\d\d:?\d\d)[ \t]+(?:[^\s{]+[ \t]+)?(?=\{)")


def records(text, name, remarks):
    """Returns the records that a text has; `name` is what it is called in a fault."""
    found = []
    for value, place in values(text, name):
        found.extend(records_of(value, place, remarks))
    return found


def values(text, name):
    """Yields the JSON values that stand in a text, one after another or separated by white space, with their places."""
    at, line, counted = SPACES.match(text, 0).end(), 1, 0
    while at < len(text):
        line, counted = line + text.count("\n", counted, at), at
        prefix = PREFIX.match(text, at)
        place = f"{name} line {line}"
        try:
            value, at = DECODER.raw_decode(text, prefix.end() if prefix else at)
        except json.JSONDecodeError as cause:
            raise Fault(f"{name}: no JSON text: {cause.msg} at line {cause.lineno} column {cause.colno}") from cause
        except Repeated as cause:
            raise Fault(f"{place}: two members of one name: {json.dumps(str(cause))}") from cause
        except ValueError as cause:
            raise Fault(f"{place}: no JSON text: {cause}") from cause
        yield value, place
        at = SPACES.match(text, at).end()


def records_of(value, place, remarks):
    """Yields the records that a value is or wraps."""
    if isinstance(value, list):
        for index, item in enumerate(value):
            yield from records_of(item, f"{place}[{index}]", remarks)
        return
    if not isinstance(value, dict):
        raise Fault(f"{place}: no record of AWS WAF's log, and nothing that wraps some")
    if is_record(value):
        yield value
    elif isinstance(value.get("SampledRequests"), list):
        for index, sample in enumerate(value["SampledRequests"]):
            yield sampled_requests.record(sample, f"{place}.SampledRequests[{index}]", remarks)
    elif sampled_requests.is_sample(value):
        yield sampled_requests.record(value, place, remarks)
    else:
        for text, inner_place in wrapped(value, place, remarks):
            yield from records(text, inner_place, remarks)


def is_record(value):
    """Returns whether an object is a record, or a request alone."""
    alone = all(name in value for name in ("httpMethod", "uri", "clientIp"))
    return alone or isinstance(value.get("httpRequest"), dict)


def wrapped(value, place, remarks):
    """Yields the texts that a wrapper of CloudWatch Logs, Firehose or Kinesis holds."""
    if value.get("messageType") == "CONTROL_MESSAGE":
        remarks.warn(f"{place}: a control message of CloudWatch Logs, which holds no records")
        return
    for name in ("logEvents", "events"):
        if isinstance(value.get(name), list):
            yield from messages(value[name], f"{place}.{name}")
            return
    if isinstance(value.get("results"), list):
        yield from queried(value["results"], f"{place}.results")
        return
    if isinstance(value.get("awslogs"), dict):
        yield unpacked(value["awslogs"].get("data"), f"{place}.awslogs.data"), f"{place}.awslogs.data"
        return
    for name in ("records", "Records"):
        if isinstance(value.get(name), list):
            yield from deliveries(value[name], f"{place}.{name}")
            return
    if isinstance(value.get("message"), str):
        yield value["message"], f"{place}.message"
        return
    raise Fault(f"{place}: no record of AWS WAF's log, and nothing that wraps some")


def messages(events, place):
    for index, event in enumerate(events):
        message = event.get("message") if isinstance(event, dict) else None
        if not isinstance(message, str):
            raise Fault(f"{place}[{index}].message: a text is wanted")
        yield message, f"{place}[{index}].message"


def queried(rows, place):
    """Yields the messages of an answer of CloudWatch Logs Insights: rows of fields and values."""
    for index, row in enumerate(rows):
        fields = [one for one in row if isinstance(one, dict)] if isinstance(row, list) else []
        found = [one.get("value") for one in fields if one.get("field") == "@message"]
        if len(found) != 1 or not isinstance(found[0], str):
            raise Fault(f"{place}[{index}]: the field @message is wanted")
        yield found[0], f"{place}[{index}]"


def deliveries(entries, place):
    for index, entry in enumerate(entries):
        inner = entry.get("kinesis", entry) if isinstance(entry, dict) else {}
        data = inner.get("data") if isinstance(inner, dict) else None
        yield unpacked(data, f"{place}[{index}].data"), f"{place}[{index}].data"


def unpacked(data, place):
    """Returns the text that base64 holds, packed or not."""
    if not isinstance(data, str):
        raise Fault(f"{place}: a text in base64 is wanted")
    try:
        return text_of_bytes(base64.b64decode(data.encode("ascii"), validate=True), place)
    except (binascii.Error, ValueError) as cause:
        raise Fault(f"{place}: isn't base64") from cause


def lines_of(found):
    """Returns the log: a record a line."""
    return "".join(json_text(record, separators=(",", ":")) for record in found)
