"""What the program decides on a log, beside what the service decided."""

import json
import unittest
from unittest import mock

import wafkit.backtest
from wafkit import program

from . import log_fixtures as fixtures
from .log_fixtures import geography, group, managed, matched, path_match, record, request, rule

SHOP = f"{program.TOP}/examples/shop"


@unittest.skipUnless(program.is_built(), "the program isn't built")
class Backtest(unittest.TestCase):
    def setUp(self):
        self.folder = fixtures.Folder(self)

    def backtest(self, bundle, *records):
        """Returns status and lines; the name of the log is cut off."""
        log = self.folder.log("log", *records)
        code, out, errors = fixtures.wafkit("backtest", self.folder.json("bundle.json", bundle), log)
        return code, out.replace(f"{log}:", "").splitlines(), errors.replace(f"{log}:", "").splitlines()

    def test_the_shop_agrees_with_its_log(self):
        code, out, _ = fixtures.wafkit("backtest", f"{SHOP}/bundle.json", f"{SHOP}/log")
        self.assertEqual((code, out), (0, "backtest lines 4 agree 4 differ 0 not known 0 other 0\n"))

    def test_the_shop_s_log_has_the_members_that_the_service_logs(self):
        """The fields of the AWS WAF Developer Guide, "Log fields for web ACL traffic logs", that each record has."""
        with open(f"{SHOP}/log", encoding="utf-8") as file:
            records = [json.loads(line) for line in file if line.strip()]
        wanted = record().keys() - {"labels"}
        for one in records:
            self.assertEqual(one.keys() - {"labels"}, wanted)
            self.assertLessEqual(
                {"clientIp", "country", "headers", "uri", "args", "httpVersion", "httpMethod", "requestId"},
                one["httpRequest"].keys(),
            )

    def test_decisions_and_rules_that_differ(self):
        bundle = fixtures.bundle(rule("a", 0, path_match("/a")), rule("b", 1, path_match("/a"), "Count"))
        code, out, _ = self.backtest(
            bundle,
            record("a", "BLOCK", of=request("/a")),
            record("Default_Action", "ALLOW", of=request("/a")),
            record("b", "BLOCK", of=request("/a")),
            record("Default_Action", "ALLOW"),
            record("gone", "BLOCK"),
            record("Default_Action", "ALLOW", of=request("/a")),
        )
        self.assertEqual(code, 1)
        self.assertEqual(
            out,
            [
                "2 log ALLOW rule default program BLOCK 403 rule 0 a",
                "3 log BLOCK rule b program BLOCK 403 rule 0 a",
                "5 log BLOCK rule gone program ALLOW rule default",
                "6 log ALLOW rule default program BLOCK 403 rule 0 a",
                "summary lines 2 log ALLOW rule default program BLOCK 403 rule 0 a",
                "summary lines 1 log BLOCK rule b program BLOCK 403 rule 0 a",
                "summary lines 1 log BLOCK rule gone program ALLOW rule default",
                "backtest lines 6 agree 2 differ 4 not known 0 other 0",
            ],
        )

    def test_the_code_that_was_sent_is_compared(self):
        bundle = fixtures.bundle(rule("a", 0, path_match("/a")))
        bundle["WebACL"]["Rules"][0]["Action"] = {"Block": {"CustomResponse": {"ResponseCode": 404}}}
        code, out, _ = self.backtest(bundle, record("a", "BLOCK", of=request("/a"), responseCodeSent=404))
        self.assertEqual((code, out), (0, ["backtest lines 1 agree 1 differ 0 not known 0 other 0"]))
        code, out, _ = self.backtest(bundle, record("a", "BLOCK", of=request("/a"), responseCodeSent=403))
        self.assertEqual((code, out[0]), (1, "1 log BLOCK 403 rule a program BLOCK 404 rule 0 a"))

    def test_rules_inside_groups(self):
        arn = f"{fixtures.ACCOUNT}/rulegroup/own/g1"
        rules = [rule("one", 0, path_match("/one")), rule("two", 1, path_match("/"))]
        own = {"ARN": arn, "Name": "own", "Capacity": 50, "Rules": rules}
        refers = rule("mine", 3, {"RuleGroupReferenceStatement": {"ARN": arn}}, "None")
        bundle = fixtures.bundle(refers, rule("common", 1, managed(), "None"), RuleGroups=[own])
        code, out, _ = self.backtest(
            bundle,
            record("mine", "BLOCK", groups=[group(), group(matched("two", "BLOCK"), name=arn)]),
            record(arn, "BLOCK", groups=[group(), group(matched("one", "BLOCK"), name=arn)]),
            record("common", "BLOCK", groups=[group(matched("NoUserAgent_HEADER", "BLOCK"))]),
        )
        self.assertEqual(code, 1)
        wanted = "2 log BLOCK rule mine / one program BLOCK 403 rule 3 mine / 1 two"
        self.assertEqual((out[0], out[-1]), (wanted, "backtest lines 3 agree 2 differ 1 not known 0 other 0"))

    def test_what_is_not_known_and_what_is_of_another_web_acl(self):
        bundle = fixtures.bundle(rule("geo", 0, geography("CN")))
        without_country = record(of=request(country=None), nonTerminatingMatchingRules=None)
        code, out, _ = self.backtest(
            bundle,
            without_country,
            record(webaclId=f"{fixtures.ACCOUNT}/webacl/other/a2"),
            {"httpRequest": request()},
            record(),
        )
        self.assertEqual((code, out), (1, ["1 not known", "3 not known", "backtest lines 4 agree 1 differ 0 not known 2 other 1"]))

    def test_a_body_that_is_not_in_the_log_is_not_taken_for_an_empty_one(self):
        body = path_match("bad", "CONTAINS")["ByteMatchStatement"]
        looks = rule("body", 0, {"NotStatement": {"Statement": {"ByteMatchStatement": {**body, "FieldToMatch": {"Body": {}}}}}})
        bundle = fixtures.bundle(rule("early", 0, path_match("/a")), {**looks, "Priority": 1})
        post = request(httpMethod="POST")
        unread = record(of=post, nonTerminatingMatchingRules=None)
        code, out, _ = self.backtest(bundle, record(of=post), record("body", "BLOCK", of=post), unread)
        self.assertEqual((code, out), (1, ["3 not known", "backtest lines 3 agree 2 differ 0 not known 1 other 0"]))

    def test_a_line_with_a_fault_is_named_and_the_others_go_on(self):
        code, out, errors = self.backtest(fixtures.bundle(), record(), {"httpRequest": {"uri": 1}}, record())
        self.assertEqual((code, out), (3, ["backtest lines 2 agree 2 differ 0 not known 0 other 0"]))
        self.assertEqual(errors, ["wafkit: 2: refused request E2 $.httpRequest.httpMethod"])

    def test_many_lines_go_through_processes_in_order(self):
        bundle = fixtures.bundle(rule("a", 0, path_match("/a")))
        records = [record(of=request("/a" if place % 2 else "/b")) for place in range(20)]
        with mock.patch.object(wafkit.backtest, "BATCH", 3):
            code, out, _ = self.backtest(bundle, *records)
        self.assertEqual((code, [line.split(" ")[0] for line in out[:10]]), (1, [str(2 * place) for place in range(1, 11)]))
        self.assertEqual(out[-1], "backtest lines 20 agree 10 differ 10 not known 0 other 0")


if __name__ == "__main__":
    unittest.main()
