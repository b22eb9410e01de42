"""The words of wafkit."""

import argparse
import importlib
import sys

from . import status
from .fault import Fault

# Each command is a module of this package with `add_arguments(parser)` and `run(arguments)`, which returns the status.
COMMANDS = {
    "collect": "a web ACL and all that it refers to, from an account, as one bundle",
    "convert": "a template, a plan, an input of the API or logs, as a bundle or a log",
    "lint": "what a bundle says and the program doesn't read, or the service wouldn't take",
    "explain": "what a refusal of the program means, where it is, and its cure",
    "answers": "what each line of a log says of the questions that a web ACL asks",
    "impact": "what a change does to the requests of logs, line by line with the answers that each line has",
    "backtest": "what the program decides on a log, beside what the service decided",
}


def parser_of(commands):
    parser = argparse.ArgumentParser(prog="wafkit", description="Tools beside the proved program wafreview.")
    choices = parser.add_subparsers(dest="command", required=True, metavar="COMMAND")
    for name, answers in commands.items():
        module = importlib.import_module(f"wafkit.{name}")
        choice = choices.add_parser(name, help=answers, description=f"Gives {answers}.")
        module.add_arguments(choice)
        choice.set_defaults(run=module.run)
    return parser


def main(words):
    """Runs the command that the words are and returns its status."""
    arguments = parser_of(COMMANDS).parse_args(words)
    try:
        return arguments.run(arguments)
    except Fault as fault:
        print(f"wafkit: {fault}", file=sys.stderr)
        return fault.code
    except BrokenPipeError:
        return status.UNREADABLE
