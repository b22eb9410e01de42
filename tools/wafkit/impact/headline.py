"""The sentence that says how many requests change, for each report that is read first by it."""


def headline(findings):
    """Returns the sentence."""
    summary = findings.summary
    if not summary.changed and not summary.not_known:
        said = f"None of {summary.lines} requests is decided otherwise"
    else:
        said = f"{summary.changed} of {summary.lines} requests are decided otherwise"
    if summary.not_known:
        said += f", and of {summary.not_known} it isn't known"
    return said
