"""The report as a comment for a pull request."""

import itertools

from ..logs.printed import shown
from .headline import headline

# So many requests are listed.
LISTED = 20
# By this line a workflow finds its own comment.
MARK = "<!-- wafkit impact -->"


def write(findings):
    """Prints the headline, the summary, the first requests, and what isn't known."""
    summary = findings.summary
    print(MARK)
    print(f"### {headline(findings)}\n")
    if summary.changes:
        print("| requests | country | old | new |\n|---:|---|---|---|")
        for old, new, country, count in summary.sorted_changes():
            print(f"| {count} | {code(country)} | {outcome(old._asdict())} | {outcome(new._asdict())} |")
        print()
        write_requests(findings)
    if summary.questions:
        print(f"The log doesn't say how {summary.not_known} requests are decided. Open are, with their number:\n")
        for question, count in sorted(summary.questions.items()):
            print(f"- {count}: {code(question)}")
        print()
    if findings.faults:
        print("These logs were left out:\n")
        for fault in findings.faults:
            print(f"- {code(fault)}")


def write_requests(findings):
    print(f"<details><summary>The first {min(LISTED, findings.summary.changed)} of them</summary>\n")
    print("| line | request | old | new |\n|---|---|---|---|")
    changes = (event for event in findings.events() if "old" in event)
    for event in itertools.islice(changes, LISTED):
        place = code(f"{event['log']}:{event['line']}")
        request = code(f"{event.get('httpMethod', '')} {event.get('uri', '')}")
        print(f"| {place} | {request} | {outcome(event['old'])} | {outcome(event['new'])} |")
    print("\n</details>\n")


def outcome(one):
    return f"{code(one['decision'])} by {code(one['rule'])}"


def code(text):
    """Returns a text as it stands, whatever Markdown or HTML would make of its signs."""
    plain = "".join(it if it.isalnum() or it in " -/:," else f"&#{ord(it)};" for it in shown(text))
    return f"<code>{plain}</code>"
