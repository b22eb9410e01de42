"""The command `impact`: what a change of a web ACL does to the requests of logs."""

import os
import sys

from .. import status
from ..fault import Fault
from ..logs import calls, log_file
from ..logs.printed import shown
from . import html_report, json_report, markdown_report, text_report, workers
from .findings import Findings

REPORTS = {"json": json_report, "markdown": markdown_report, "html": html_report}


def add_arguments(parser):
    """Adds the words of the command."""
    parser.add_argument("old", metavar="OLD", help="the bundle of the revision that wrote the logs")
    parser.add_argument("new", metavar="NEW", help="the bundle of the revision to come")
    parser.add_argument("logs", metavar="LOG", nargs="+", help="logs, a record a line, also packed; or folders of logs")
    form = parser.add_mutually_exclusive_group()
    for name, printed in (
        ("json", "print one JSON object"),
        ("markdown", "print a comment for a pull request"),
        ("html", "print one page with a chart"),
    ):
        form.add_argument(f"--{name}", dest="form", action="store_const", const=name, help=printed)
    parser.add_argument("--scheduler", metavar="ADDRESS", help="replay on the workers of this dask.distributed cluster")


def run(arguments):
    """Prints the report. Returns 0 where each line is decided alike, 1 where some isn't or isn't known, and 3 where a
    file has a fault, which is named."""
    for bundle in (arguments.old, arguments.new):
        calls.questions_of(bundle)
    paths = [os.path.abspath(path) for path in (arguments.old, arguments.new)]
    logs = log_file.paths_of(arguments.logs)
    if not logs:
        raise Fault("the folders hold no file")
    with Findings() as findings:
        for piece, result in workers.results(*paths, logs, arguments.scheduler):
            findings.add(piece, result)
        findings.end_file()
        for fault in findings.faults:
            print(f"wafkit: {shown(fault)}", file=sys.stderr)
        REPORTS.get(arguments.form, text_report).write(findings)
        if findings.faults:
            return status.UNREADABLE
        return status.FOUND if findings.summary.changed or findings.summary.not_known else status.DONE
