"""The calls of `collect` that moto doesn't have, against botocore's Stubber."""

import io
import tempfile
import unittest
from contextlib import redirect_stderr

from tests.waf_fixtures import VISIBLE, client_with, has, rule
from wafkit import collect, program, status
from wafkit.collect import account, progress


@unittest.skipUnless(has("boto3", "botocore"), "needs boto3 and botocore")
class Stubbed(unittest.TestCase):
    """Calls and answers that moto doesn't have; botocore checks each against the service's model."""

    OWNER = "111122223333"

    def setUp(self):
        from botocore.exceptions import ClientError
        from botocore.stub import Stubber

        client = client_with()
        self.stubber = Stubber(client)
        self.stubber.activate()
        self.addCleanup(self.stubber.deactivate)
        self.account = account.Account(client, ClientError, progress.Silent())

    def arn(self, kind, name, owner=OWNER):
        return f"arn:aws:wafv2:us-east-1:{owner}:regional/{kind}/{name}/{name}-1"

    def answers(self, call, words, **answer):
        self.stubber.add_response(call, answer, words)

    def refuses(self, call, words, code):
        self.stubber.add_client_error(call, code, "no", expected_params=words)

    def bundle(self, rules, **more):
        words = {"Name": "shop", "Scope": "REGIONAL", "Id": "shop-1"}
        acl = {"Name": "shop", "Id": "shop-1", "ARN": self.arn("webacl", "shop"), "DefaultAction": {"Allow": {}}}
        acl = {**acl, "VisibilityConfig": VISIBLE, "Rules": rules, **more}
        self.stubber._queue.appendleft(self.queued("get_web_acl", {"WebACL": acl, "LockToken": "t"}, words))
        bundle = self.account.bundle(words)
        self.stubber.assert_no_pending_responses()
        return bundle

    def queued(self, call, answer, words):
        self.stubber.add_response(call, answer, words)
        return self.stubber._queue.pop()

    def managed(self, name, version=None):
        of_version = {} if version is None else {"Version": version}
        statement = {"ManagedRuleGroupStatement": {"VendorName": "AWS", "Name": name, **of_version}}
        return rule(name + (version or ""), 0, statement, OverrideAction={"None": {}})

    def describes(self, name, version=None):
        words = {"VendorName": "AWS", "Name": name, "Scope": "REGIONAL"}
        return words if version is None else {**words, "VersionName": version}

    def test_capacities_of_managed_groups(self):
        self.answers("describe_managed_rule_group", self.describes("Common"), Capacity=700)
        self.answers("describe_managed_rule_group", self.describes("Common", "Version_1.0"), Capacity=600)
        self.refuses("describe_managed_rule_group", self.describes("Gone"), "WAFInvalidResourceException")
        rules = [self.managed("Common"), self.managed("Common"), self.managed("Common", "Version_1.0")]
        bundle = self.bundle(rules + [self.managed("Gone")])
        # The first capacity that fits counts, and one without a version fits all.
        self.assertEqual(
            bundle["ManagedCapacities"],
            [
                {"VendorName": "AWS", "Name": "Common", "Version": "Version_1.0", "Capacity": 600},
                {"VendorName": "AWS", "Name": "Common", "Capacity": 700},
            ],
        )
        note = "the managed rule group AWS Gone can't be described (WAFInvalidResourceException): "
        self.assertEqual(bundle["Notes"], [note + "its capacity counts as unknown"])

    def test_a_group_that_cannot_be_read_stands_in(self):
        arn = self.arn("rulegroup", "ShieldMitigationRuleGroup_x", "444455556666")
        reference = {"RuleGroupReferenceStatement": {"ARN": arn}}
        rules = [rule("shield", 0, reference, OverrideAction={"Count": {}})]
        self.refuses("get_rule_group", {"ARN": arn}, "AccessDeniedException")
        self.answers("check_capacity", {"Scope": "REGIONAL", "Rules": rules}, Capacity=150)
        bundle = self.bundle(rules)
        group = bundle["RuleGroups"][0]["RuleGroup"]
        self.assertEqual((group["ARN"], group["Capacity"], group["Rules"]), (arn, 150, []))
        self.assertEqual(
            bundle["Notes"],
            [
                f"{arn} can't be read (AccessDeniedException): an empty rule group stands in, "
                "in which nothing matches; its capacity is 150"
            ],
        )
        self.runs(bundle, b"capacity 150\n")

    def test_a_group_of_unknown_capacity(self):
        arn = self.arn("rulegroup", "gone")
        rules = [rule("gone", 0, {"RuleGroupReferenceStatement": {"ARN": arn}}, OverrideAction={"None": {}})]
        words = {"Name": "gone", "Scope": "REGIONAL", "Id": "gone-1"}
        self.refuses("get_rule_group", words, "WAFNonexistentItemException")
        self.refuses("check_capacity", {"Scope": "REGIONAL", "Rules": rules}, "WAFNonexistentItemException")
        bundle = self.bundle(rules)
        self.assertEqual(bundle["RuleGroups"][0]["RuleGroup"]["Capacity"], 0)
        known = "its capacity isn't known (check-capacity: WAFNonexistentItemException) and counts as 0"
        self.assertTrue(bundle["Notes"][0].endswith(known), bundle["Notes"])
        self.runs(bundle, b"capacity 0\n")

    def runs(self, bundle, printed):
        """The program takes the bundle, where it is built."""
        if program.is_built():
            with tempfile.NamedTemporaryFile("w", suffix=".json") as file:
                file.write(collect.text_of(bundle))
                file.flush()
                self.assertEqual(program.run("capacity", file.name), (0, printed))

    def test_firewall_manager(self):
        arn = self.arn("rulegroup", "first", "444455556666")
        group = {"Name": "FMS-first", "Priority": 0, "OverrideAction": {"None": {}}, "VisibilityConfig": VISIBLE}
        group["FirewallManagerStatement"] = {"RuleGroupReferenceStatement": {"ARN": arn}}
        self.refuses("get_rule_group", {"ARN": arn}, "WAFNonexistentItemException")
        bundle = self.bundle([], PreProcessFirewallManagerRuleGroups=[group])
        self.assertEqual(bundle["RuleGroups"][0]["RuleGroup"]["ARN"], arn)
        first = "PreProcessFirewallManagerRuleGroups: FMS-first is in the bundle, and the program doesn't evaluate it"
        self.assertEqual(bundle["Notes"][0], first)
        self.assertTrue(bundle["Notes"][1].startswith(f"{arn} can't be read (WAFNonexistentItemException)"))

    def test_nothing_stands_in_for_a_set(self):
        arns = [self.arn("ipset", "office"), self.arn("ipset", "home")]
        for name in ("office", "home"):
            self.refuses("get_ip_set", {"Name": name, "Scope": "REGIONAL", "Id": name + "-1"}, "AccessDeniedException")
        statements = [{"IPSetReferenceStatement": {"ARN": arn}} for arn in arns]
        bundle = self.bundle([rule("or", 0, {"OrStatement": {"Statements": statements}}, Action={"Allow": {}})])
        said = io.StringIO()
        with redirect_stderr(said):
            self.assertEqual(collect.told(bundle, self.account), status.SERVICE)
        lines = said.getvalue().splitlines()
        self.assertEqual([line.split(" can't")[0] for line in lines], ["wafkit: " + arn for arn in arns])

    def test_an_error_that_says_nothing_of_the_group_ends_the_command(self):
        from botocore.exceptions import ClientError

        arn = self.arn("rulegroup", "own")
        self.refuses("get_rule_group", {"Name": "own", "Scope": "REGIONAL", "Id": "own-1"}, "ThrottlingException")
        with self.assertRaisesRegex(ClientError, "ThrottlingException"):
            self.bundle([rule("own", 0, {"RuleGroupReferenceStatement": {"ARN": arn}}, OverrideAction={"None": {}})])
