"""The report for a terminal: a line for each event, and the summary by rules, decisions and country."""

import sys

from ..logs.printed import shown


def write(findings):
    """Prints the events in the order of the lines, then what changes most, then the counts."""
    for event in findings.events():
        print(line_of(event))
    summary = findings.summary
    if not write_table(summary):
        for old, new, country, count in summary.sorted_changes():
            print(f"summary lines {count} country {shown(country)} old {outcome(old)} new {outcome(new)}")
    for question, count in sorted(summary.questions.items()):
        print(f"not known lines {count} {shown(question)}")
    counts = f"lines {summary.lines} changed {summary.changed} not known {summary.not_known}"
    print(f"impact logs {findings.logs} {counts}")


def line_of(event):
    """Returns the line of an event."""
    place = f"{shown(event['log'])}:{event['line']}"
    if "notKnown" in event:
        return f"{place} not known"
    old, new = (f"{event[it]['decision']} rule {event[it]['rule']}" for it in ("old", "new"))
    return f"{place} old {old} new {new}"


def outcome(one):
    return f"{one.decision} rule {one.rule}"


def write_table(summary):
    """Prints the summary as a table on a terminal where rich is there, and returns whether it did."""
    if not sys.stdout.isatty() or not summary.changes:
        return False
    try:
        from rich import console, table, text
    except ImportError:
        return False
    found = table.Table("lines", "country", "old", "new")
    for old, new, country, count in summary.sorted_changes():
        cells = (str(count), shown(country), outcome(old), outcome(new))
        found.add_row(*(text.Text(cell) for cell in cells))
    console.Console().print(found)
    return True
