"""Parts of a request that the program can't see in a line: the body, which the service doesn't log; what it redacts; and the
labels that it adds by itself. A rule that looks at one of these can't be replayed as it stands."""

from .questions import Question
from .record import REDACTED, object_of, objects_of, text_of

LABELS = "labels of the service"
# Labels that the service adds by itself begin so, and the program adds none of these.
OF_THE_SERVICE = ("awswaf:clientip:", "awswaf:forwardedip:")
# Methods whose requests mostly have no body; one that has says so by a header.
BODILESS = ("GET", "HEAD", "OPTIONS", "TRACE", "DELETE")
FIELDS = {
    "Body": "body",
    "UriPath": "uri",
    "QueryString": "args",
    "SingleQueryArgument": "args",
    "AllQueryArguments": "args",
    "Headers": "headers",
    "Cookies": "header cookie",
}


def unseen_in(record):
    """Returns the names of the parts that a line doesn't hold as the service saw them."""
    found = {LABELS} | {name for name in ("uri", "args") if record.request.get(name) == REDACTED}
    hidden = {name for name, value in record.headers() or () if value == REDACTED}
    if hidden:
        found |= {"headers"} | {f"header {name}" for name in hidden}
    return found | ({"body"} if has_unseen_body(record) else set())


def has_unseen_body(record):
    """Returns whether a request had a body, or may have had one, that its line doesn't hold."""
    if record.request is record.value or record.request.get("body") is not None:
        return False
    size = record.value.get("requestBodySize")
    if isinstance(size, int):
        return size > 0
    headers = dict(record.headers() or ())
    if "content-length" in headers or "transfer-encoding" in headers:
        return headers.get("content-length") != "0"
    return record.request.get("httpMethod") not in BODILESS


def looked_at(rule):
    """Returns the questions of the parts at which a rule looks, or a rule of the group that it refers to."""
    found = parts(rule.statement)
    for one in rule.inner:
        found |= parts(one.statement)
    return {Question("request", part) for part in found}


def parts(statement):
    """Returns the names of the parts at which a statement looks, or one inside it."""
    found = set()
    for kind, body in statement.items():
        if not isinstance(body, dict):
            continue
        for field, value in object_of(body, "FieldToMatch").items():
            found.add(f"header {(text_of(value, 'Name') or '').lower()}" if field == "SingleHeader" else FIELDS.get(field))
        header = text_of(object_of(body, "IPSetForwardedIPConfig"), "HeaderName")
        if header:
            found.add(f"header {header.lower()}")
        if kind == "LabelMatchStatement" and is_of_the_service(text_of(body, "Key") or "", text_of(body, "Scope")):
            found.add(LABELS)
        for one in (object_of(body, "Statement"), object_of(body, "ScopeDownStatement"), *objects_of(body, "Statements")):
            found |= parts(one)
    return found - {None}


def is_of_the_service(key, scope):
    """Returns whether a label match may ask for a label that the service adds by itself."""
    whole = key if scope == "LABEL" or key.endswith(":") else key + ":"
    return whole.startswith(OF_THE_SERVICE) or (scope == "NAMESPACE" and any(it.startswith(whole) for it in OF_THE_SERVICE))


class Settled:
    """The rules that look at such parts and are alike in all revisions: where the log says whether one matched, it is
    replayed with a statement that always holds, or never."""

    def __init__(self, asked, deployed):
        looked = [looked_at(rule) for revision in asked for rule in revision.rules]
        self.asked = frozenset().union(*looked)
        values = [{rule.name: rule.value for rule in revision.rules} for revision in asked]
        plain = [rule for rule in deployed.rules if not rule.inner and not rule.managed]
        alike = [it for it in plain if all(one.get(it.name, it.value) == it.value for one in values)]
        self.rules = [(rule, looked_at(rule)) for rule in alike]

    def unseen(self, record):
        """Returns the questions of the parts that some rule looks at and a line doesn't hold, in one order."""
        return tuple(sorted(self.asked & {Question("request", part) for part in unseen_in(record)}))

    def truths(self, unseen, tried):
        """Returns the names of the rules that look at these parts and of which the line tells whether they matched, with
        that."""
        looking = [rule for rule, parts_of_it in self.rules if parts_of_it & set(unseen) and rule in tried.matched]
        return frozenset((rule.name, tried.matched[rule]) for rule in looking)
