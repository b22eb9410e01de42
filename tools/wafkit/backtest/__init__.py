"""The command `backtest`: what the program decides on a log, beside what the service decided."""

import collections
import functools
import os
import sys
import uuid

from .. import status
from ..logs import calls, log_file, pool
from ..logs.printed import shown
from . import tester

# So many lines a process takes at a time.
BATCH = 200


def add_arguments(parser):
    """Adds the words of the command."""
    parser.add_argument("bundle", metavar="BUNDLE", help="the bundle of the web ACL that wrote the log")
    parser.add_argument("log", metavar="LOG", help="a log, a record a line, also packed by gzip")


def run(arguments):
    """Prints the lines on which the program and the log differ, a table of these, and the counts. Returns 0 where all
    agree, 1 where some don't or aren't known, and 3 where some line has a fault, which is named."""
    calls.questions_of(arguments.bundle)
    counts, table = collections.Counter(), collections.Counter()
    for number, result in results(os.path.abspath(arguments.bundle), arguments.log):
        counts[result.verdict] += 1
        place = f"{shown(arguments.log)}:{number}"
        if result.verdict == "fault":
            print(f"wafkit: {place}: {shown(result.ours)}", file=sys.stderr)
        elif result.verdict == "differ":
            table[result.logged, result.ours] += 1
            print(f"{place} {pair(result.logged, result.ours)}")
        elif result.verdict == "not known":
            print(f"{place} not known")
    for (logged, ours), count in sorted(table.items(), key=lambda it: (-it[1], it[0])):
        print(f"summary lines {count} {pair(logged, ours)}")
    said = " ".join(f"{name} {counts[name]}" for name in ("agree", "differ", "not known", "other"))
    print(f"backtest lines {sum(counts.values()) - counts['fault']} {said}")
    if counts["fault"]:
        return status.UNREADABLE
    return status.DONE if counts["agree"] == sum(counts.values()) else status.FOUND


def pair(logged, ours):
    log = f"log {shown(logged.decision)} rule {shown(logged.rule)}"
    return f"{log} program {ours.decision} rule {ours.rule}"


def results(bundle, log):
    """Yields each line's number with what came of it, in their order."""
    found, run = batches(log), uuid.uuid4().hex
    first, second = next(found, None), next(found, None)
    if second is None:
        if first:
            yield from zip(first[0], tester.tested_lines(bundle, run, first[1]))
        return
    tasks = (one for some in ((first, second), found) for one in some)
    with pool.processes() as processes:
        submit = functools.partial(submitted, processes, bundle, run)
        for (numbers, _), future in pool.in_order(submit, tasks, 2 * pool.cores()):
            yield from zip(numbers, future.result())


def submitted(processes, bundle, run, batch):
    return processes.submit(tester.tested_lines, bundle, run, batch[1])


def batches(log):
    """Yields numbers and lines of the records, so many at a time."""
    numbers, lines = [], []
    for number, line in enumerate(log_file.lines(log), 1):
        if not line:
            continue
        numbers.append(number)
        lines.append(line)
        if len(lines) == BATCH:
            yield numbers, lines
            numbers, lines = [], []
    if lines:
        yield numbers, lines
