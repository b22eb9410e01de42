"""The command convert: templates, plans, answers and inputs of the API to a bundle, logs to a record a line."""

import json
import sys

from .. import status
from ..fault import Fault
from . import api_answers, bundle_parts, input_text, log_records, plan, template, template_text
from .remarks import PROGRAM_LIMIT, Remarks

KINDS = {
    "template": "a CloudFormation template, in JSON or YAML",
    "plan": "what terraform show -json prints of a plan or state",
    "api": "answers of the API, also dumped from boto3, and inputs of create-web-acl, update-web-acl or check-capacity",
    "log": "records of the log of AWS WAF, alone, in arrays or in wrappers, and sampled requests",
}
SOURCES = {"template": template, "plan": plan}
# Members of which a log's wrapper or record has at least one.
LOG_NAMES = ("SampledRequests", "logEvents", "events", "results", "awslogs", "records", "Records", "messageType")


def add_arguments(parser):
    """Adds the words of the command."""
    files = "several are parts of one log; or answers of the API, also beside a template or plan"
    parser.add_argument("files", nargs="+", metavar="FILE", help=files)
    parser.add_argument("--from", dest="kind", choices=KINDS, help="what the files are, instead of recognising it")
    parser.add_argument("--parameter", action="append", default=[], metavar="NAME=VALUE",
                        help="a parameter or pseudo parameter of a template")
    parser.add_argument("--value", action="append", default=[], metavar="WHAT=VALUE",
                        help="what stands outside of a template or plan, by the name that the refusal has")
    parser.add_argument("--web-acl", metavar="NAME", help="which web ACL, where there are several")
    parser.add_argument("--account", help="the account in ARNs and label namespaces that are made up")
    parser.add_argument("--region", help="the region in ARNs that are made up (us-east-1)")
    parser.add_argument("--search-strings", choices=("base64", "text"), default="base64",
                        help="how answers and inputs of the API write search strings (base64)")


def run(arguments):
    """Prints the bundle or log that the files are, and the warnings, and returns the status."""
    arguments.parameters = pairs(arguments.parameter, "--parameter")
    arguments.values = pairs(arguments.value, "--value")
    remarks = Remarks()
    try:
        output = converted(arguments, remarks)
    except RecursionError as cause:
        raise Fault("an input is nested too deep to be read") from cause
    except Fault:
        remarks.print_warnings()
        raise
    remarks.print_warnings()
    sys.stdout.write(output)
    sys.stdout.flush()
    return status.DONE


def pairs(words, flag):
    found = {}
    for word in words:
        name, mark, value = word.partition("=")
        if not mark or not name:
            raise Fault(f"{flag} {word}: NAME=VALUE is wanted", status.USAGE)
        found[name] = value
    return found


def converted(arguments, remarks):
    texts = [(name, input_text.text_of_file(name)) for name in arguments.files]
    read = [(name, *recognised(text, name, arguments.kind)) for name, text in texts]
    kinds = [kind for _, kind, _ in read]
    if set(kinds) == {"log"}:
        return log_of(texts, remarks)
    sources = [(kind, value) for _, kind, value in read if kind in SOURCES]
    if "log" in kinds or len(sources) > 1:
        named = ", ".join(f"{name} ({kind})" for name, kind, _ in read)
        raise Fault(f"these files don't make one bundle or log: {named}", status.USAGE)
    answers = [(name, value) for name, kind, value in read if kind == "api"]
    return bundle_text(sources, answers, arguments, remarks)


def bundle_text(sources, answers, arguments, remarks):
    """Returns the bundle of a template or plan, if there is one, with what the answers of the API add."""
    if sources:
        kind, value = sources[0]
        bundle = SOURCES[kind].bundle_of(value, arguments, remarks)
        api_answers.add(bundle, answers, arguments, remarks)
    else:
        bundle = api_answers.bundle_of(answers, arguments, remarks)
    bundle_parts.warn_of_missing(bundle, remarks)
    if remarks.warnings:
        bundle["Notes"] = [*(bundle["Notes"] if isinstance(bundle.get("Notes"), list) else []), *remarks.warnings]
    return bundle_parts.text_of(bundle)


def recognised(text, name, wanted):
    """Returns the kind of a text, the wanted one or what it looks like, and its value (none of a log)."""
    if wanted == "log":
        return "log", None
    if not text.strip():
        raise Fault(f"{name}: holds nothing")
    if text.lstrip()[:1] not in ("{", "[") and not log_records.PREFIX.match(text):
        value = template_text.yaml_value(text, name, template_text.template_loader)
        kind = wanted or kind_of(value)
        if kind == "api":
            value = template_text.yaml_value(text, name, template_text.plain_loader)
    elif wanted is None and is_many(text):
        return "log", None
    else:
        value = input_text.json_value(text, name)
        kind = wanted or kind_of(value)
    if kind is None:
        kinds = "; ".join(f"{kind} is {meaning}" for kind, meaning in KINDS.items())
        raise Fault(f"{name}: what it is isn't recognised: --from KIND states it, where {kinds}")
    if kind not in ("api", "log") and not isinstance(value, dict):
        raise Fault(f"{name}: $: a {kind} is an object")
    return kind, value


def is_many(text):
    """Returns whether the text begins with a JSON value and has another one behind it, or a time before it: a log."""
    if log_records.PREFIX.match(text):
        return True
    text = text.lstrip()
    try:
        _, end = json.JSONDecoder().raw_decode(text)
    except ValueError:
        return False
    rest = text[end:].lstrip()
    return rest[:1] in ("{", "[", ",") or bool(log_records.PREFIX.match(rest))


def kind_of(value):
    """Returns the kind that a value looks like, or None."""
    if isinstance(value, list):
        kinds = {kind_of(item) for item in value}
        return kinds.pop() if len(kinds) == 1 and kinds <= {"api", "log"} else None
    if not isinstance(value, dict):
        return None
    if "AWSTemplateFormatVersion" in value or isinstance(value.get("Resources"), dict):
        return "template"
    if "planned_values" in value or ("format_version" in value and "values" in value):
        return "plan"
    if api_answers.kind_of(value):
        return "api"
    if any(name in value for name in LOG_NAMES) or log_records.is_record(value):
        return "log"
    return "log" if "Request" in value and "Weight" in value else None


def log_of(texts, remarks):
    found = []
    for name, text in texts:
        found.extend(log_records.records(text, name, remarks))
    if not found:
        remarks.warn("no records: the log is empty")
    output = log_records.lines_of(found)
    if len(output) > PROGRAM_LIMIT:
        remarks.warn(f"the log has {len(output)} bytes, and the program takes {PROGRAM_LIMIT}: cut it in parts")
    return output
