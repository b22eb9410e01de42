"""What a line of a log says of the questions of a web ACL, and what it doesn't say."""

import json
import unittest

from wafkit import program
from wafkit.logs import line_answers
from wafkit.logs.revision import Revision

from . import log_fixtures as fixtures
from .log_fixtures import geography, group, managed, matched, path_match, rate, record, request, rule, sqli


@unittest.skipUnless(program.is_built(), "the program isn't built")
class Told(unittest.TestCase):
    """A line, a deployed web ACL and perhaps one to come; and the truths that are told, None for those that aren't."""

    def setUp(self):
        self.folder = fixtures.Folder(self)

    def answers(self, line, *bundles):
        revisions = [Revision(self.folder.json(f"{place}.json", one)) for place, one in enumerate(bundles)]
        told = line_answers.Teller(revisions, revisions[0]).tell(json.dumps(line).encode())
        return {**told.answers, **{it: None for it in told.unknown}}

    def truths(self, line, *bundles):
        """Returns the truths of the statements, in the order of the questions of all bundles."""
        return [it for question, it in self.answers(line, *bundles).items() if question.kind == "statement"]

    def verdict(self, line, *bundles):
        """Returns verdict and labels of the last bundle's one managed rule group."""
        asked = [it for it in Revision(self.folder.json("last.json", bundles[-1])).questions if it.kind == "group"]
        self.assertEqual(len(asked), 1)
        return self.answers(line, *bundles)[asked[0]]


class Direct(Told):
    def test_geography_is_told_by_the_country(self):
        deployed = fixtures.bundle(rule("geo", 0, geography("CN", "RU")))
        for country, holds in (("CN", True), ("RU", True), ("US", False), ("-", False), (None, None)):
            line = record("elsewhere", "BLOCK", of=request(country=country))
            self.assertEqual(self.truths(line, deployed), [holds], country)

    def test_a_forwarded_address_is_told_by_its_label_or_by_its_absence(self):
        header = {"HeaderName": "X-Forwarded-For", "FallbackBehavior": "MATCH"}
        deployed = fixtures.bundle(rule("geo", 0, geography("CN", ForwardedIPConfig=header)))
        there = request(country="CN", headers=[("x-forwarded-for", "192.0.2.1")])
        for label, holds in (("CN", True), ("DE", False)):
            line = record("geo", "x", of=there, labels=[f"awswaf:forwardedip:geo:country:{label}"], webaclId=fixtures.ACL_ARN)
            line["terminatingRuleId"] = "elsewhere"
            self.assertEqual(self.truths(line, deployed), [holds])
        self.assertEqual(self.truths(record("elsewhere", of=there), deployed), [None])
        self.assertEqual(self.truths(record("elsewhere", of=request(country="CN")), deployed), [False])

    def test_labels_of_forwarded_addresses_of_two_headers_are_not_told_apart(self):
        one, two = ({"HeaderName": name, "FallbackBehavior": "MATCH"} for name in ("a", "b"))
        rules = [rule(it["HeaderName"], place, geography("CN", ForwardedIPConfig=it)) for place, it in enumerate((one, two))]
        there = request(headers=[("a", "192.0.2.1"), ("b", "192.0.2.2")])
        line = record("elsewhere", of=there, labels=["awswaf:forwardedip:geo:country:CN"])
        self.assertEqual(self.truths(line, fixtures.bundle(*rules)), [None, None])

    def test_a_system_is_told_by_its_number(self):
        deployed = fixtures.bundle(rule("asn", 0, {"AsnMatchStatement": {"AsnList": [64496, 64500]}}))
        self.assertEqual(self.truths(record("elsewhere", labels=["awswaf:clientip:asn:64500"]), deployed), [True])
        self.assertEqual(self.truths(record("elsewhere", labels=["awswaf:clientip:asn:6450"]), deployed), [False])
        self.assertEqual(self.truths(record("elsewhere"), deployed), [None])

    def test_a_whole_fingerprint_is_compared_and_others_are_not(self):
        body = path_match("e7d705a3286e19ea42f587b344ee6865", "EXACTLY")["ByteMatchStatement"]
        body["FieldToMatch"] = {"JA3Fingerprint": {"FallbackBehavior": "NO_MATCH"}}
        for constraint, found, holds in (
            ("EXACTLY", "e7d705a3286e19ea42f587b344ee6865", True),
            ("EXACTLY", "00000000000000000000000000000000", False),
            ("EXACTLY", None, None),
            ("STARTS_WITH", "e7d705a3286e19ea42f587b344ee6865", None),
        ):
            deployed = fixtures.bundle(rule("ja3", 0, {"ByteMatchStatement": {**body, "PositionalConstraint": constraint}}))
            self.assertEqual(self.truths(record("elsewhere", ja3Fingerprint=found), deployed), [holds])


class ByRules(Told):
    def test_a_rule_that_was_tried_tells_its_statement(self):
        deployed = fixtures.bundle(rule("early", 0, path_match("/x")), rule("sqli", 1, sqli()))
        for line, holds in (
            (record("sqli", "BLOCK"), True),
            (record(), False),
            (record("early", "BLOCK"), None),
            (record("gone", "BLOCK"), None),
            (record(webaclId=f"{fixtures.ACCOUNT}/webacl/other/a2"), None),
            (record(webaclId=f"{fixtures.ACCOUNT}/webacl/site/a9"), False),
            (record(nonTerminatingMatchingRules=None), None),
        ):
            self.assertEqual(self.truths(line, deployed), [holds])

    def test_a_counted_rule_that_is_not_named_did_not_match(self):
        deployed = fixtures.bundle(rule("sqli", 1, sqli(), "Count"))
        self.assertEqual(self.truths(record(counted=["sqli"]), deployed), [True])
        self.assertEqual(self.truths(record(), deployed), [False])

    def test_parts_are_told_only_where_they_follow(self):
        both = {"AndStatement": {"Statements": [sqli(), path_match("/x")]}}
        either = {"OrStatement": {"Statements": [sqli(), path_match("/x")]}}
        neither = {"NotStatement": {"Statement": either}}
        for statement, when_matched, when_not in ((both, True, None), (either, None, False), (neither, False, None)):
            deployed = fixtures.bundle(rule("r", 0, statement))
            self.assertEqual(self.truths(record("r", "BLOCK"), deployed), [when_matched], statement)
            self.assertEqual(self.truths(record(), deployed), [when_not], statement)

    def test_two_rules_that_tell_otherwise_tell_nothing(self):
        deployed = fixtures.bundle(rule("one", 0, sqli(), "Count"), rule("two", 1, sqli(), "Count"))
        self.assertEqual(self.truths(record(counted=["one"]), deployed), [None])

    def test_rules_of_a_group_are_told_by_its_entry(self):
        arn = f"{fixtures.ACCOUNT}/rulegroup/own/g1"
        rules = [rule("in", 0, path_match("/x")), rule("sqli", 1, sqli())]
        own = {"ARN": arn, "Name": "own", "Capacity": 50, "Rules": rules}
        refers = rule("own", 0, {"RuleGroupReferenceStatement": {"ARN": arn}}, "None")
        deployed = fixtures.bundle(refers, RuleGroups=[own])
        for entry, end, holds in (
            (group(matched("sqli", "BLOCK"), name=arn), "own", True),
            (group(matched("in", "BLOCK"), name=arn), "own", None),
            (group(name=arn), "Default_Action", False),
            (group(None, [matched("sqli", "COUNT")], name=arn), "Default_Action", True),
        ):
            self.assertEqual(self.truths(record(end, groups=[entry]), deployed), [holds], entry)

    def test_rates(self):
        deployed = fixtures.bundle(rule("early", 0, path_match("/x")), rule("flood", 1, rate(2000)))
        self.assertEqual(self.truths(record("flood", "BLOCK"), deployed), [True])
        self.assertEqual(self.truths(record(), deployed), [False])
        self.assertEqual(self.truths(record("early", "BLOCK"), deployed), [None])

    def test_a_rate_of_another_limit_or_scope_is_not_told(self):
        old = fixtures.bundle(rule("flood", 1, rate(2000)))
        self.assertEqual(self.truths(record(), old, fixtures.bundle(rule("flood", 1, rate(100)))), [False, None])
        scoped = fixtures.bundle(rule("flood", 1, rate(2000, ScopeDownStatement=path_match("/login"))))
        self.assertEqual(self.truths(record(), old, scoped), [None])
        self.assertEqual(self.truths(record(), scoped, scoped), [False])


class Tokens(Told):
    def token(self, line, kind="CAPTCHA", seconds=300):
        challenge = rule("c", 5, path_match("/c"), kind.capitalize())
        challenge[f"{kind.capitalize()}Config"] = {"ImmunityTimeProperty": {"ImmunityTime": seconds}}
        told = self.answers(line, fixtures.bundle(challenge))
        return next(it for question, it in told.items() if question.key == f"{kind} {seconds}")

    def test_a_request_without_a_token_has_no_valid_one(self):
        self.assertIs(self.token(record()), False)
        for name, value in (("Cookie", "a=b; aws-waf-token=t"), ("Cookie", "REDACTED"), ("x-aws-waf-token", "t")):
            self.assertIsNone(self.token(record(of=request(headers=[(name, value)]))))
        self.assertIs(self.token(record(of=request(headers=[("Cookie", "sid=1")]))), False)
        self.assertIsNone(self.token(record(overSizeFields=["REQUEST_HEADERS"])))

    def test_what_came_of_a_token(self):
        has_one = request(headers=[("cookie", "aws-waf-token=t")])
        second = 1764547200
        for response, seconds, valid in (
            ({"responseCode": 405, "solveTimestamp": 0, "failureReason": "TOKEN_MISSING"}, 300, False),
            ({"responseCode": 405, "solveTimestamp": 0, "failureReason": "TOKEN_INVALID"}, 300, False),
            ({"responseCode": 405, "solveTimestamp": 0, "failureReason": "TOKEN_EXPIRED"}, 300, None),
            ({"responseCode": 405, "solveTimestamp": second - 400, "failureReason": "TOKEN_EXPIRED"}, 300, False),
            ({"responseCode": 405, "solveTimestamp": second - 400, "failureReason": "TOKEN_EXPIRED"}, 600, True),
            ({"responseCode": 0, "solveTimestamp": second - 100}, 300, True),
            ({"responseCode": 0, "solveTimestamp": second - 100}, 60, False),
            ({"responseCode": 0, "solveTimestamp": second - 100}, 100, None),
        ):
            self.assertIs(self.token(record(of=has_one, captchaResponse=response), "CAPTCHA", seconds), valid, response)
            self.assertIsNone(self.token(record(of=has_one, captchaResponse=response), "CHALLENGE", seconds))


class Groups(Told):
    LABEL = "awswaf:managed:aws:core-rule-set:NoUserAgent_Header"

    def deployed(self, action="None", **more):
        return fixtures.bundle(rule("early", 0, path_match("/x")), rule("common", 1, managed(**more), action))

    def test_verdicts(self):
        for end, entries, labels, answer in (
            ("common", [group(matched("NoUserAgent_HEADER", "BLOCK"))], [self.LABEL], ("BLOCK", [self.LABEL])),
            ("common", [group(matched("R", "CAPTCHA"))], [], ("CAPTCHA", [])),
            ("Default_Action", [group()], ["awswaf:clientip:geo:country:US"], ("NONE", [])),
            ("Default_Action", [group(None, [matched("R", "COUNT", "BLOCK")])], [self.LABEL], ("NONE", [self.LABEL])),
            ("Default_Action", [group(None, [matched("R", "CHALLENGE")])], [], ("CHALLENGE", [])),
            ("Default_Action", [], [], ("NONE", [])),
            ("early", [], [], None),
            ("common", [], [], None),
            ("Default_Action", [group(), group()], [], None),
        ):
            line = record(end, "BLOCK", groups=entries, labels=labels)
            self.assertEqual(self.verdict(line, self.deployed()), answer, (end, entries))

    def test_a_version_may_stand_behind_the_name(self):
        line = record("common", "BLOCK", groups=[group(matched("R", "BLOCK"), name=f"{fixtures.COMMON}#Version_1.4")])
        self.assertEqual(self.verdict(line, self.deployed(Version="Version_1.4")), ("BLOCK", []))

    def test_a_group_of_another_version_is_not_told(self):
        line = record(groups=[group()])
        self.assertIsNone(self.verdict(line, self.deployed(), self.deployed(Version="Version_2.0")))

    def test_an_absent_group_with_a_scope_down_is_told_only_for_that_scope_down(self):
        scoped = self.deployed(ScopeDownStatement=path_match("/a"))
        self.assertEqual(self.verdict(record(), scoped), ("NONE", []))
        self.assertIsNone(self.verdict(record(), scoped, self.deployed(ScopeDownStatement=path_match("/b"))))
        self.assertEqual(self.verdict(record(), self.deployed(), scoped), ("NONE", []))

    def test_an_override_that_goes_is_told_by_the_action_that_it_stood_for(self):
        counts = self.deployed(RuleActionOverrides=[{"Name": "R", "ActionToUse": {"Count": {}}}])
        line = record(groups=[group(None, [matched("R", "COUNT", "BLOCK")])], labels=[self.LABEL])
        self.assertEqual(self.verdict(line, counts, self.deployed()), ("BLOCK", [self.LABEL]))
        other = record(groups=[group()])
        self.assertEqual(self.verdict(other, counts, self.deployed()), ("NONE", []))

    def test_rules_behind_the_one_that_ended_a_group_are_not_told(self):
        counts = self.deployed(RuleActionOverrides=[{"Name": "R", "ActionToUse": {"Count": {}}}])
        self.assertIsNone(self.verdict(record("common", groups=[group(matched("R", "BLOCK"))]), self.deployed(), counts))
        other = record("common", groups=[group(matched("Q", "BLOCK"))])
        self.assertEqual(self.verdict(other, self.deployed(), counts), ("BLOCK", []))

    def test_an_excluded_rule_has_no_action_in_the_log(self):
        excludes = self.deployed(ExcludedRules=[{"Name": "R"}])
        line = record(groups=[group(None, [], [{"exclusionType": "EXCLUDED_AS_COUNT", "ruleId": "R"}])])
        self.assertEqual(self.verdict(line, excludes), ("NONE", []))
        self.assertIsNone(self.verdict(line, excludes, self.deployed()))

    def test_labels_go_to_the_group_of_their_namespace(self):
        other = managed("Threats", "Vendor")
        deployed = fixtures.bundle(rule("common", 1, managed(), "Count"), rule("other", 2, other, "Count"))
        theirs = "awswaf:managed:vendor:threats:bad"
        entries = [group(), group(name="Vendor#Threats")]
        told = self.answers(record(groups=entries, labels=[theirs, self.LABEL]), deployed)
        self.assertEqual([it[1] for question, it in told.items() if question.kind == "group"], [[self.LABEL], [theirs]])

    def test_labels_that_no_group_is_known_for_leave_all_open(self):
        line = record(groups=[group()], labels=["awswaf:managed:vendor:threats:bad"])
        self.assertIsNone(self.verdict(line, self.deployed()))
        many = record(groups=[group()], labels=[f"awswaf:managed:aws:core-rule-set:l{place}" for place in range(100)])
        self.assertIsNone(self.verdict(many, self.deployed()))


@unittest.skipUnless(program.is_built(), "the program isn't built")
class Command(unittest.TestCase):
    def setUp(self):
        self.folder = fixtures.Folder(self)
        self.bundle = self.folder.json("bundle.json", fixtures.bundle(rule("geo", 0, geography("CN")), rule("sqli", 1, sqli())))

    def test_answers_of_each_line_and_what_is_not_known_once(self):
        log = self.folder.log("log", record("geo", "BLOCK", of=request(country="CN")), record())
        code, out, _ = fixtures.wafkit("answers", self.bundle, log)
        lines = out.splitlines()
        self.assertEqual(code, 1)
        self.assertEqual([line.split(" ")[:2] for line in lines], [["line", "1"], ["line", "2"], ["not", "known"]])
        matches = [it["Match"] for it in json.loads(lines[1].split(" ", 2)[2])["Statements"]]
        self.assertEqual(matches, [False, False])
        self.assertTrue(lines[2].startswith('not known statement {"SqliMatchStatement"') and lines[2].endswith(" lines 1 first 1"))

    def test_answers_of_one_line_are_a_file_that_the_program_takes(self):
        log = self.folder.log("log", record("geo", "BLOCK", of=request(country="CN")))
        _, out, _ = fixtures.wafkit("answers", self.bundle, log, "--line", "1")
        code, printed = program.run("evaluate", self.bundle, log, self.folder.text("answers.json", out))
        self.assertEqual((code, printed.splitlines()[:2]), (0, [b"decision BLOCK 403", b"rule 0 geo"]))

    def test_a_line_that_is_no_record_says_nothing(self):
        for text in ("{", "[]", "1", '{"httpRequest": []}', "\\ud800", '{"labels": {"a": 1}, "ruleGroupList": 3}'):
            code, out, _ = fixtures.wafkit("answers", self.bundle, self.folder.text("log", text + "\n"))
            self.assertEqual((code, out.count("not known")), (1, 2), text)

    def test_faults(self):
        log = self.folder.log("log", record())
        self.assertEqual(fixtures.wafkit("answers", self.bundle, log, "--line", "2")[0], 3)
        self.assertEqual(fixtures.wafkit("answers", self.bundle, log + "x")[0], 3)
        code, _, errors = fixtures.wafkit("answers", self.folder.text("none.json", "{}"), log)
        self.assertEqual((code, errors.endswith("none.json: the program printed refused bundle E2 $.WebACL\n")), (3, True))


if __name__ == "__main__":
    unittest.main()
