"""The report as one page: no script, nothing from elsewhere, and every text of a log or a bundle escaped."""

import html
import itertools

from ..logs.printed import shown
from .headline import headline

# So many requests are listed.
LISTED = 1000
# So many pairs of rules are in the chart; the table has all.
BARS = 20
STYLE = """
body { font: 15px/1.5 system-ui, sans-serif; max-width: 70rem; margin: 2rem auto; padding: 0 1rem; color: #1b1f24; }
h1 { font-size: 1.7rem; margin-bottom: .2rem; } h2 { font-size: 1.15rem; margin-top: 2rem; }
p { color: #57606a; margin-top: 0; } table { border-collapse: collapse; width: 100%; }
th, td { text-align: left; padding: .3rem .6rem; border-bottom: 1px solid #d8dee4; vertical-align: top; }
td { overflow-wrap: anywhere; }
th { color: #57606a; font-weight: 600; } th.count, td.count { text-align: right; font-variant-numeric: tabular-nums; }
.bar { display: flex; align-items: center; margin: .35rem 0; } .bar .name { flex: 0 0 26rem; padding-right: .8rem; }
.bar .track { flex: 1; } .bar .fill { background: #0969da; height: 1.1rem; border-radius: 2px; min-width: 2px; }
.bar .count { flex: 0 0 5rem; text-align: right; font-variant-numeric: tabular-nums; }
.ALLOW { color: #1a7f37; font-weight: 600; } .BLOCK { color: #cf222e; font-weight: 600; }
.CAPTCHA, .CHALLENGE { color: #9a6700; font-weight: 600; } code { font-size: .85em; }
"""
HEAD = """<!DOCTYPE html>
<html lang="en"><head><meta charset="utf-8"><meta name="viewport" content="width=device-width">
<meta http-equiv="Content-Security-Policy" content="default-src 'none'; style-src 'unsafe-inline'">
<title>wafkit impact</title><style>{}</style></head><body>"""


def write(findings):
    """Prints the page: the headline, the chart, the summary, the requests, and what isn't known."""
    summary = findings.summary
    print(HEAD.format(STYLE))
    print(f"<h1>{text(headline(findings))}</h1>")
    print(f"<p>Replayed through both revisions by wafreview; logs: {findings.logs}.</p>")
    if summary.changes:
        write_chart(summary)
        write_summary(summary)
        write_requests(findings)
    if summary.not_known:
        write_open(findings)
    if findings.faults:
        print("<h2>Logs that were left out</h2><ul>")
        print("\n".join(f"<li>{text(fault)}</li>" for fault in findings.faults) + "</ul>")
    print("</body></html>")


def write_chart(summary):
    print("<h2>Changes by rule</h2>")
    bars = summary.by_rule()[:BARS]
    for (old, new), count in bars:
        name = f"{outcome(old._asdict())} &rarr; {outcome(new._asdict())}"
        fill = f'<div class="fill" style="width:{100 * count / bars[0][1]:.1f}%"></div>'
        print(f'<div class="bar"><div class="name">{name}</div><div class="track">{fill}</div>', end="")
        print(f'<div class="count">{count}</div></div>')


def write_summary(summary):
    print("<h2>By rule, decision and country</h2>")
    print('<table><tr><th class="count">requests</th><th>country</th><th>old</th><th>new</th></tr>')
    for old, new, country, count in summary.sorted_changes():
        cells = f"<td>{text(country)}</td><td>{outcome(old._asdict())}</td><td>{outcome(new._asdict())}</td>"
        print(f'<tr><td class="count">{count}</td>{cells}</tr>')
    print("</table>")


def write_requests(findings):
    print(f"<h2>Requests, the first {min(LISTED, findings.summary.changed)}</h2>")
    print("<table><tr><th>line</th><th>request</th><th>old</th><th>new</th></tr>")
    changes = (event for event in findings.events() if "old" in event)
    for event in itertools.islice(changes, LISTED):
        cells = f"<td>{outcome(event['old'])}</td><td>{outcome(event['new'])}</td>"
        print(f"<tr>{place(event)}{request(event)}{cells}</tr>")
    print("</table>")


def write_open(findings):
    summary = findings.summary
    print(f"<h2>Not known: {summary.not_known} requests</h2>")
    print("<p>Their lines don't answer these questions.</p>")
    print('<table><tr><th class="count">requests</th><th>question</th></tr>')
    for question, count in sorted(summary.questions.items()):
        print(f'<tr><td class="count">{count}</td><td><code>{text(question)}</code></td></tr>')
    print("</table><h2>Their lines</h2><table><tr><th>line</th><th>request</th></tr>")
    lines = (event for event in findings.events() if "notKnown" in event)
    for event in itertools.islice(lines, LISTED):
        print(f"<tr>{place(event)}{request(event)}</tr>")
    print("</table>")


def place(event):
    return f"<td>{text(event['log'])}:{event['line']}</td>"


def request(event):
    return f"<td><code>{text(event.get('httpMethod', ''))} {text(event.get('uri', ''))}</code></td>"


def outcome(one):
    word = one["decision"].split(" ")[0]
    return f'<span class="{text(word)}">{text(one["decision"])}</span> by {text(one["rule"])}'


def text(found):
    """Returns a text as it stands in a page."""
    return html.escape(shown(found))
