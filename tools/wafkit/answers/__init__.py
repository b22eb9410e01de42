"""The command `answers`: what each line of a log says of the questions that a web ACL asks."""

import collections
import sys

from .. import status
from ..fault import Fault
from ..logs import line_answers, log_file
from ..logs.revision import Revision


def add_arguments(parser):
    """Adds the words of the command."""
    parser.add_argument("bundle", metavar="BUNDLE", help="the bundle of the web ACL that wrote the log")
    parser.add_argument("log", metavar="LOG", help="a log, a record a line")
    parser.add_argument("--line", type=int, metavar="N", help="print the answers of that line alone, as a file")


def run(arguments):
    """Prints the answers of each line, then each question that some line doesn't answer; returns 1 where there is
    one."""
    revision = Revision(arguments.bundle)
    teller = line_answers.Teller([revision], revision)
    unknown = collections.OrderedDict()
    is_there = False
    for number, line in enumerate(log_file.lines(arguments.log), 1):
        if not line or arguments.line not in (None, number):
            continue
        is_there = True
        told = teller.tell(line)
        for question in told.unknown:
            unknown.setdefault(question, []).append(number)
        answers = line_answers.text(told.answers)
        print(answers if arguments.line else f"line {number} {answers}")
    if arguments.line and not is_there:
        raise Fault(f"{arguments.log}: has no record on line {arguments.line}")
    out = sys.stderr if arguments.line else sys.stdout
    for question, lines in unknown.items():
        print(f"not known {question.kind} {question.key} lines {len(lines)} first {lines[0]}", file=out)
    return status.FOUND if unknown else status.DONE
