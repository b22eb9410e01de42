"""All answers that questions may have which a line doesn't answer."""

import itertools

from .record import object_of, objects_of, text_of

VERDICTS = ("NONE", "ALLOW", "BLOCK", "CAPTCHA", "CHALLENGE")
MANAGED = "awswaf:managed:"


def of(questions, labels, most):
    """Returns the possible answers to these questions, each as a dictionary, or None where there are more than so many.
    `labels` are those that tell all labels of managed rule groups apart."""
    choices = []
    count = 1
    for question in questions:
        if question.kind == "request":
            # What isn't in a request may be anything.
            return None
        choices.append(2 if question.kind != "group" else len(VERDICTS) << len(labels))
        count *= choices[-1]
        if count > most:
            return None
    each = [verdicts(labels) if question.kind == "group" else (False, True) for question in questions]
    return [dict(zip(questions, chosen)) for chosen in itertools.product(*each)]


def verdicts(labels):
    subsets = [list(some) for size in range(len(labels) + 1) for some in itertools.combinations(labels, size)]
    return [(verdict, some) for verdict in VERDICTS for some in subsets]


def labels_of(revisions):
    """Returns labels of managed rule groups of which each set of such labels is alike to one for all label matches of
    the revisions: each label that is asked for, and one in each namespace that is asked for and is none of these."""
    found = set()
    keys = [key for revision in revisions for key in label_keys(revision)]
    behind = "x" * (1 + max((len(key) for _, key in keys), default=0))
    for scope, key in keys:
        if scope == "LABEL" and key.startswith(MANAGED):
            found.add(key)
        elif scope == "NAMESPACE":
            whole = key if key.endswith(":") else key + ":"
            if whole.startswith(MANAGED):
                found.add(whole + behind)
            elif MANAGED.startswith(whole):
                found.add(MANAGED + behind)
    return sorted(found)


def label_keys(revision):
    """Returns scope and key of each label match that asks for whole labels."""
    waiting = [rule.statement for rule in revision.all_rules()]
    found = []
    while waiting:
        for body in waiting.pop().values():
            if not isinstance(body, dict):
                continue
            key = text_of(body, "Key") or ""
            if key.startswith("awswaf:") and text_of(body, "Scope"):
                found.append((body["Scope"], key))
            waiting += objects_of(body, "Statements")
            waiting += [object_of(body, name) for name in ("Statement", "ScopeDownStatement")]
    return found
