"""Web ACLs, clients and environments for the tests of `collect`."""

import importlib.util
import os
from unittest import mock

VISIBLE = {"SampledRequestsEnabled": True, "CloudWatchMetricsEnabled": True, "MetricName": "m"}
# Runs one command of wafkit as `./wafkit` does.
DRIVER = (
    "import sys; sys.path.insert(0, sys.argv.pop(1)); from wafkit import main;"
    "main.COMMANDS = {name: main.COMMANDS[name] for name in sys.argv[1:2]}; sys.exit(main.main(sys.argv[1:]))"
)


def has(*packages):
    return all(importlib.util.find_spec(package) for package in packages)


def environment(home, **more):
    """An environment with no credentials but the ones that are given, and no configuration."""
    plain = {
        "PATH": os.environ.get("PATH", ""),
        "HOME": home,
        "AWS_CONFIG_FILE": os.devnull,
        "AWS_SHARED_CREDENTIALS_FILE": os.devnull,
        "AWS_EC2_METADATA_DISABLED": "true",
        "AWS_MAX_ATTEMPTS": "1",
        "PYTHONDONTWRITEBYTECODE": "1",
    }
    return {**plain, **more}


def client_with(**more):
    """A client that reads no file of configuration, with credentials that are none."""
    import boto3

    with mock.patch.dict(os.environ, environment(os.devnull), clear=True):
        session = boto3.session.Session("testing", "testing", region_name="us-east-1")
        return session.client("wafv2", **more)


def rule(name, priority, statement, **action):
    return {"Name": name, "Priority": priority, "Statement": statement, "VisibilityConfig": VISIBLE, **action}


def field(statement):
    return {**statement, "FieldToMatch": {"UriPath": {}}, "TextTransformations": [{"Priority": 0, "Type": "NONE"}]}


def byte_match(search):
    return {"ByteMatchStatement": field({"SearchString": search, "PositionalConstraint": "CONTAINS"})}
