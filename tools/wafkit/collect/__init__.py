"""The command `collect`: a web ACL and all that it refers to, from an account, as one bundle."""

import base64
import json
import sys

from .. import resource_name, status
from ..fault import Fault, package
from . import progress
from .account import Account


def add_arguments(parser):
    parser.add_argument("--arn", help="the ARN of the web ACL")
    parser.add_argument("--name", help="the name of the web ACL, with --scope and --id")
    parser.add_argument("--scope", choices=("REGIONAL", "CLOUDFRONT"), help="CLOUDFRONT is asked in us-east-1")
    parser.add_argument("--id", help="the id of the web ACL")
    parser.add_argument("--region", help="the region; that of the ARN or of the profile where it isn't given")
    parser.add_argument("--profile", help="the profile of the AWS configuration to use")


def run(arguments):
    """Prints the bundle, names on standard error what couldn't be read, and returns the status."""
    words, region = place_of(arguments)
    exceptions = package("botocore.exceptions", "collect", "botocore")
    parsers = package("botocore.parsers", "collect", "botocore")
    try:
        client = client_of(arguments.profile, region)
        with progress.shown() as shown:
            account = Account(client, exceptions.ClientError, shown)
            bundle = account.bundle(words)
    except (exceptions.BotoCoreError, exceptions.ClientError, parsers.ResponseParserError) as refusal:
        # One line, whatever the service or botocore writes.
        raise Fault(" ".join(str(refusal).split()), status.SERVICE) from refusal
    return told(bundle, account)


def client_of(profile, region):
    """Returns the client of the service, made as the AWS CLI makes its own."""
    boto3 = package("boto3", "collect", "boto3")
    session = boto3.session.Session(profile_name=profile, region_name=region)
    try:
        return session.client("wafv2")
    except ValueError as error:  # as of an endpoint in the configuration that is no URL
        raise Fault(" ".join(str(error).split()), status.SERVICE) from error


def told(bundle, account):
    """Prints the bundle with its notes, or the failures alone where a set is missing, for which nothing stands in."""
    for failure in account.failures:
        print(f"wafkit: {' '.join(failure.split())}", file=sys.stderr)
    if account.failures:
        return status.SERVICE
    for note in account.notes:
        print(f"wafkit: warning: {note}", file=sys.stderr)
    # Half of a surrogate pair stands as its escape, which is what JSON has for it.
    sys.stdout.buffer.write(text_of(bundle).encode(errors="backslashreplace") + b"\n")
    sys.stdout.buffer.flush()
    return status.DONE


def text_of(bundle):
    """Returns the bundle as the AWS CLI prints answers: blobs in base64, dates in ISO 8601."""
    return json.dumps(bundle, indent=4, ensure_ascii=False, default=plain)


def plain(value):
    """Returns the JSON value of a blob or a date."""
    if isinstance(value, (bytes, bytearray)):
        return base64.b64encode(value).decode("ascii")
    return value.isoformat()


def place_of(arguments):
    """Returns the arguments of get-web-acl and the region to ask in, or None for that of the profile."""
    named = (arguments.name, arguments.scope, arguments.id)
    if arguments.arn is not None:
        if any(named):
            raise Fault("collect takes --arn, or --name, --scope and --id", status.USAGE)
        name = resource_name.needed(arguments.arn, "webacl")
        return name.words(), agreed(arguments.region, name.region, "the ARN")
    if not all(named):
        raise Fault("collect needs --arn, or all of --name, --scope and --id", status.USAGE)
    words = {"Name": arguments.name, "Scope": arguments.scope, "Id": arguments.id}
    if arguments.scope == "CLOUDFRONT":
        return words, agreed(arguments.region, resource_name.CLOUDFRONT_REGION, "the scope CLOUDFRONT")
    return words, arguments.region


def agreed(given, known, by):
    """Returns the region that the ARN or the scope means, which a given one must not contradict."""
    if given is not None and given != known:
        raise Fault(f"--region {given} isn't {known}, the region of {by}", status.USAGE)
    return known
