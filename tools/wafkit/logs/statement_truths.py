"""What a line tells of statements that the program leaves to answers: by the country, the autonomous system and the
fingerprint that it holds, and by the rules that it says matched or not."""

import base64
import binascii
import json

from . import questions
from .record import object_of, objects_of, text_of

FINGERPRINTS = {"JA3Fingerprint": "ja3Fingerprint", "JA4Fingerprint": "ja4Fingerprint"}


class Direct:
    """What a line tells by itself, whichever rules it names."""

    def __init__(self, asked, deployed):
        found = [it for revision in asked for it in revision.questions if it.kind == "statement"]
        self.statements = {it: json.loads(it.key) for it in found}
        self.headers = {header_of(value) for value in self.statements.values()} - {None}
        self.deployed = deployed

    def truth(self, question, record):
        """Returns whether the statement of a question holds, or None where the line doesn't say."""
        statement = self.statements[question]
        geography = object_of(statement, "GeoMatchStatement")
        system = object_of(statement, "AsnMatchStatement")
        if geography:
            country = self.country(geography, record)
            return country if country in (None, False) else country in geography.get("CountryCodes", ())
        if system:
            number = self.system(system, record)
            return number if number in (None, False) else number in [str(it) for it in system.get("AsnList", ())]
        return fingerprint(object_of(statement, "ByteMatchStatement"), record)

    def country(self, body, record):
        """Returns the country that a geographic match looks at; False where it can't match."""
        if "ForwardedIPConfig" in body:
            return self.forwarded(body, record, "awswaf:forwardedip:geo:country:")
        return record.country

    def system(self, body, record):
        """Returns the number of the autonomous system that a match looks at; False where it can't match."""
        if "ForwardedIPConfig" in body:
            return self.forwarded(body, record, "awswaf:forwardedip:asn:")
        number = record.value.get("clientAsn", record.request.get("clientAsn"))
        return record.label_behind("awswaf:clientip:asn:") if number is None else str(number)

    def forwarded(self, body, record, start):
        """Returns what the label of a forwarded address says, where all such statements look at one header. A rule
        isn't applied to a request without that header."""
        name = text_of(object_of(body, "ForwardedIPConfig"), "HeaderName")
        headers = record.headers()
        if name and headers is not None and all(it != name.lower() for it, _ in headers):
            return False
        if len(self.headers) != 1 or not self.deployed.is_of(record):
            return None
        return record.label_behind(start)


def header_of(statement):
    """Returns the header whose address a geographic or system match looks at, in lower case, or None."""
    body = object_of(statement, "GeoMatchStatement") or object_of(statement, "AsnMatchStatement")
    name = text_of(object_of(body, "ForwardedIPConfig"), "HeaderName")
    return name.lower() if name else None


def fingerprint(body, record):
    """Returns whether a byte match on a whole fingerprint, without transformations, holds, or None."""
    found = next((record.text(FINGERPRINTS[it]) for it in object_of(body, "FieldToMatch") if it in FINGERPRINTS), None)
    plain = all(text_of(it, "Type") == "NONE" for it in objects_of(body, "TextTransformations"))
    if not found or not plain or text_of(body, "PositionalConstraint") != "EXACTLY":
        return None
    try:
        return base64.b64decode(body["SearchString"], validate=True) == found.encode()
    except (binascii.Error, ValueError):
        return None


class ByRules:
    """What a line tells by the rules of the deployed revision that matched or didn't."""

    def __init__(self, asked, deployed):
        self.deployed = deployed
        self.asked = {it for revision in asked for it in revision.questions}
        self.scope_downs = scope_downs((*asked, deployed))
        self.rules = [rule for rule in deployed.all_rules() if self.questions_below(rule)]

    def questions_below(self, rule):
        """Returns the questions that the truth of a rule's statement may tell."""
        found = {}
        for truth in (True, False):
            self.tell(rule, rule.statement, truth, found)
        return found

    def truths(self, tried):
        """Returns the truths that are told, by question; none where two rules tell otherwise."""
        found = {}
        for rule in self.rules:
            if rule in tried.matched:
                self.tell(rule, rule.statement, tried.matched[rule], found)
        return {question: both.pop() for question, both in found.items() if len(both) == 1}

    def tell(self, rule, statement, truth, found):
        """Notes what follows for a question from the truth of a statement that holds it."""
        kinds = [(kind, body) for kind, body in statement.items() if isinstance(body, dict)]
        if len(kinds) != 1:
            return
        kind, body = kinds[0]
        parts = objects_of(body, "Statements")
        if kind == "NotStatement":
            self.tell(rule, object_of(body, "Statement"), not truth, found)
        elif kind in ("AndStatement", "OrStatement"):
            if truth == (kind == "AndStatement") or len(parts) == 1:
                for part in parts:
                    self.tell(rule, part, truth, found)
        elif kind == "RateBasedStatement":
            self.tell_rate(rule, body, truth, found)
        else:
            question = questions.of_statement(kind, body, self.deployed.encoded, self.deployed.pattern_sets)
            if question in self.asked:
                found.setdefault(question, set()).add(truth)

    def tell_rate(self, rule, body, truth, found):
        """A rate is told where all revisions count the same requests: another scope-down has another rate."""
        question = questions.of_rate(rule.group, rule.name, body)
        if question in self.asked and len(self.scope_downs[question]) == 1:
            found.setdefault(question, set()).add(truth)
        if truth:
            self.tell(rule, object_of(body, "ScopeDownStatement"), True, found)


def scope_downs(revisions):
    """Returns the scope-downs of all rate-based statements and managed rule groups, by question."""
    found = {}
    for revision in revisions:
        for rule in revision.all_rules():
            rate = object_of(rule.statement, "RateBasedStatement")
            if rate:
                question = questions.of_rate(rule.group, rule.name, rate)
                found.setdefault(question, set()).add(questions.compact(rate.get("ScopeDownStatement")))
    return found
