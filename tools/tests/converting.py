"""Runs the command convert within a test."""

import argparse
import contextlib
import importlib.util
import io
import json
import os
import tempfile

from wafkit import convert
from wafkit.fault import Fault

DATA = os.path.join(os.path.dirname(os.path.realpath(__file__)), "convert")


def has(*packages):
    """Returns whether these packages are installed."""
    return all(importlib.util.find_spec(name) for name in packages)


def data(name):
    """Returns the path of a file of the tests' own inputs."""
    return os.path.join(DATA, name)


def run(*words):
    """Returns status, output and standard error of `wafkit convert` with these words."""
    parser = argparse.ArgumentParser()
    convert.add_arguments(parser)
    output, errors = io.StringIO(), io.StringIO()
    with contextlib.redirect_stdout(output), contextlib.redirect_stderr(errors):
        try:
            code = convert.run(parser.parse_args(list(words)))
        except Fault as fault:
            print(f"wafkit: {fault}", file=errors)
            code = fault.code
    return code, output.getvalue(), errors.getvalue()


def run_on(contents, *words):
    """Does so on files of these contents: texts, bytes, or values that are written as JSON."""
    with tempfile.TemporaryDirectory() as directory:
        paths = []
        for index, content in enumerate(contents):
            paths.append(os.path.join(directory, f"input{index}"))
            if not isinstance(content, (str, bytes)):
                content = json.dumps(content)
            with open(paths[-1], "wb") as file:
                file.write(content.encode("utf-8") if isinstance(content, str) else content)
        code, output, errors = run(*paths, *words)
        return code, output.replace(directory + os.sep, ""), errors.replace(directory + os.sep, "")


def bundle_on(test, contents, *words):
    """Returns the bundle that the contents become, or fails the test."""
    code, output, errors = run_on(contents, *words)
    test.assertEqual(code, 0, errors)
    return json.loads(output)
