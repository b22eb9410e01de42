"""The report as JSON: counts, summary, and all events."""

import json
import sys


def write(findings):
    """Prints one object; the events are written one after another, as they may be many."""
    summary = findings.summary
    head = {
        "logs": findings.logs,
        "lines": summary.lines,
        "changed": summary.changed,
        "notKnown": summary.not_known,
        "faults": findings.faults,
        "summary": [
            {"old": old._asdict(), "new": new._asdict(), "country": country, "lines": count}
            for old, new, country, count in summary.sorted_changes()
        ],
        "openQuestions": dict(sorted(summary.questions.items())),
    }
    out = sys.stdout
    out.write(json.dumps(head, indent=1)[:-2] + ',\n "events": [')
    for place, event in enumerate(findings.events()):
        out.write((",\n  " if place else "\n  ") + json.dumps(event))
    out.write("\n ]\n}\n")
