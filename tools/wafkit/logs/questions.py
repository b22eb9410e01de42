"""The questions of a web ACL, as the program prints them, and the keys that its statements would have.

Only keys that the program printed are questions; the keys that are made here say which statement of the bundle such a
question comes from.
"""

import base64
import collections
import json

from .record import objects_of, text_of

# `kind` is statement, group or token; `key` is the text behind it, of a token its kind and its immunity time.
Question = collections.namedtuple("Question", "kind key")


def read(printed):
    """Returns the questions in the text that `keys` printed, in its order."""
    lines = printed.decode().splitlines()
    return tuple(Question(*line.split(" ", 1)) for line in lines)


def compact(value):
    """Returns a value as the program writes it in a key."""
    return json.dumps(value, sort_keys=True, separators=(",", ":"), ensure_ascii=False)


def without_scope_down(body):
    return {name: value for name, value in body.items() if name != "ScopeDownStatement"}


def of_statement(kind, body, encoded, pattern_sets):
    """Returns the question that a statement asks where it is opaque. `encoded` says whether search strings are base64
    already; `pattern_sets` are the pattern sets by ARN."""
    if kind == "ByteMatchStatement" and not encoded and text_of(body, "SearchString") is not None:
        body = {**body, "SearchString": base64.b64encode(body["SearchString"].encode()).decode()}
    statement = {kind: body}
    if kind == "RegexPatternSetReferenceStatement":
        patterns = objects_of(pattern_sets.get(text_of(body, "ARN")), "RegularExpressionList")
        statement["RegularExpressionList"] = [text_of(it, "RegexString") for it in patterns]
    return Question("statement", compact(statement))


def of_rate(group, rule, body):
    """Returns the question of a rate-based statement of a rule, in a group or in the web ACL itself."""
    statement = {"RateBasedStatement": without_scope_down(body)}
    return Question("statement", compact({"Group": group, "Rule": rule, "Statement": statement}))


def of_managed(body):
    """Returns the question of a managed rule group."""
    return Question("group", compact({"ManagedRuleGroupStatement": without_scope_down(body)}))
