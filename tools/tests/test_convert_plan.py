"""Plans and states of Terraform to bundles."""

import copy
import json
import os
import tempfile
import unittest

from tests.converting import bundle_on, data, has, run, run_on
from wafkit import program


def plan():
    """Returns the plan of the tests: a web ACL whose set is an output of a module, with a pattern set and a group."""
    with open(data("plan.json"), encoding="utf-8") as file:
        return json.load(file)


def resource(value, address):
    """Returns the values of a resource of the plan's root module."""
    found = value["planned_values"]["root_module"]["resources"]
    return next(one for one in found if one["address"] == address)["values"]


def rule(bundle, name):
    return next(one for one in bundle["WebACL"]["Rules"] if one["Name"] == name)


@unittest.skipUnless(has("botocore"), "needs botocore")
class Plan(unittest.TestCase):
    def test_blocks_become_the_members_of_the_api(self):
        bundle = bundle_on(self, [plan()])
        self.assertEqual([one["Name"] for one in bundle["WebACL"]["Rules"]], ["office", "admin", "common", "own"])
        self.assertEqual(bundle["WebACL"]["DefaultAction"], {"Allow": {}})
        self.assertEqual(bundle["WebACL"]["AssociationConfig"],
            {"RequestBody": {"API_GATEWAY": {"DefaultSizeInspectionLimit": "KB_32"}}})
        self.assertEqual(bundle["WebACL"]["CaptchaConfig"], {"ImmunityTimeProperty": {"ImmunityTime": 600}})
        self.assertEqual(bundle["WebACL"]["CustomResponseBodies"],
            {"gone": {"Content": "gone", "ContentType": "TEXT_PLAIN"}})
        self.assertEqual(rule(bundle, "common")["Statement"], {"ManagedRuleGroupStatement": {
            "Name": "AWSManagedRulesBotControlRuleSet", "VendorName": "AWS",
            "RuleActionOverrides": [{"Name": "SignalNonBrowserUserAgent", "ActionToUse": {"Count": {}}}],
            "ManagedRuleGroupConfigs": [{"AWSManagedRulesBotControlRuleSet": {"InspectionLevel": "COMMON",
            "EnableMachineLearning": True}}]}})
        self.assertEqual(rule(bundle, "common")["OverrideAction"], {"None": {}})
        self.assertNotIn("Action", rule(bundle, "common"))
        match = rule(bundle, "admin")["Statement"]["AndStatement"]["Statements"][0]["ByteMatchStatement"]
        self.assertEqual(match, {"SearchString": "L2FkbWlu", "PositionalConstraint": "STARTS_WITH",
            "FieldToMatch": {"UriPath": {}},
                                 "TextTransformations": [{"Priority": 0, "Type": "LOWERCASE"}]})
        self.assertEqual(bundle["RegexPatternSets"][0]["RegularExpressionList"], [{"RegexString": "(?i)curl"}])
        self.assertEqual(bundle["RuleGroups"][0]["Capacity"], 10)

    def test_unknown_arns_are_those_of_what_the_configuration_refers_to(self):
        bundle = bundle_on(self, [plan()])
        office = rule(bundle, "office")["Statement"]["IPSetReferenceStatement"]["ARN"]
        bots = rule(bundle, "admin")["Statement"]["AndStatement"]["Statements"][1]["NotStatement"]["Statement"]
        self.assertEqual(office, bundle["IPSets"][0]["ARN"])
        self.assertEqual(bots["RegexPatternSetReferenceStatement"]["ARN"], bundle["RegexPatternSets"][0]["ARN"])
        self.assertEqual(rule(bundle, "own")["Statement"]["RuleGroupReferenceStatement"]["ARN"],
            bundle["RuleGroups"][0]["ARN"])
        self.assertFalse([one for one in bundle["Notes"] if "lacks" in one])

    def test_bundles_are_in_botocores_model(self):
        from botocore.validate import ParamValidator
        from wafkit.convert.service_members import shape

        bundle = bundle_on(self, [plan()])
        things = [("WebACL", bundle["WebACL"])] + [(kind, bundle[f"{kind}s"][0]) for kind in ("IPSet",
            "RegexPatternSet", "RuleGroup")]
        for kind, one in things:
            self.assertEqual(ParamValidator().validate(one, shape(kind)).generate_report(), "", kind)

    def test_what_is_not_known_is_named_and_can_be_given(self):
        value = plan()
        value["configuration"] = {}
        code, output, errors = run_on([value])
        self.assertEqual((code, output, errors.count("isn't known before the plan is applied")), (3, "", 3))
        place = "aws_wafv2_web_acl.shop.rule[3].statement[0].ip_set_reference_statement[0].arn"
        self.assertIn(f"wafkit: {place}: isn't known before the plan is applied; --value '{place}=VALUE' gives it",
            errors)
        others = ["aws_wafv2_web_acl.shop.rule[0].statement[0].and_statement[0].statement[1].not_statement[0].statement[0]"
                  ".regex_pattern_set_reference_statement[0].arn=aws_wafv2_regex_pattern_set.bots",
                  "aws_wafv2_web_acl.shop.rule[2].statement[0].rule_group_reference_statement[0].arn=aws_wafv2_rule_group.own[0]"]
        words = [word for one in (f"{place}=module.sets.aws_wafv2_ip_set.office", *others) for word in ("--value", one)]
        bundle = bundle_on(self, [value], *words)
        self.assertEqual(rule(bundle, "office")["Statement"]["IPSetReferenceStatement"]["ARN"],
            bundle["IPSets"][0]["ARN"])

    def test_an_arn_that_may_be_one_of_two_is_not_guessed(self):
        value = plan()
        rules = value["configuration"]["root_module"]["resources"][0]["expressions"]["rule"]
        second = copy.deepcopy(value["planned_values"]["root_module"]["child_modules"][0]["resources"][0])
        second.update(address="aws_wafv2_ip_set.second", name="second")
        value["planned_values"]["root_module"]["resources"].append(second)
        arn = rules[0]["statement"][0]["ip_set_reference_statement"][0]["arn"]
        arn["references"] += ["aws_wafv2_ip_set.second.arn", "aws_wafv2_ip_set.second"]
        code, _, errors = run_on([value])
        self.assertEqual(code, 3)
        self.assertIn("refers to module.sets.aws_wafv2_ip_set.office, aws_wafv2_ip_set.second", errors)

    def test_other_unknown_values_are_named(self):
        value = plan()
        next(one for one in value["resource_changes"] if "ip_set" in one["address"])["change"]["after_unknown"]["addresses"] = True
        code, _, errors = run_on([value])
        self.assertEqual(code, 3)
        self.assertIn("module.sets.aws_wafv2_ip_set.office.addresses: isn't known", errors)

    def test_instances_of_each_and_variables_of_modules(self):
        value = plan()
        module = value["planned_values"]["root_module"]["child_modules"][0]
        first = module["resources"][0]
        module["resources"] = [{**first, "address": f'module.sets.aws_wafv2_ip_set.office["{key}"]',
            "index": key} for key in ("eu", "us")]
        output = value["configuration"]["root_module"]["module_calls"]["sets"]["module"]["outputs"]["office_arn"]["expression"]
        output["references"] = ['aws_wafv2_ip_set.office["us"].arn', 'aws_wafv2_ip_set.office["us"]',
            "aws_wafv2_ip_set.office"]
        bundle = bundle_on(self, [value])
        self.assertEqual(rule(bundle, "office")["Statement"]["IPSetReferenceStatement"]["ARN"],
            bundle["IPSets"][1]["ARN"])

    def test_a_state_keeps_its_arns(self):
        value = plan()
        arn = "arn:aws:wafv2:us-east-1:111122223333:regional/regexpatternset/bots/b2"
        values = resource(value, "aws_wafv2_regex_pattern_set.bots")
        values.update(arn=arn, id="b2")
        acl = resource(value, "aws_wafv2_web_acl.shop")
        acl.update(arn=arn.replace("regexpatternset/bots", "webacl/shop"), id="a1", capacity=48)
        acl["rule"] = [one for one in acl["rule"] if one["name"] == "common"]
        state = {"format_version": "1.0", "values": value["planned_values"]}
        bundle = bundle_on(self, [state])
        self.assertEqual((bundle["RegexPatternSets"][0]["ARN"], bundle["RegexPatternSets"][0]["Id"]), (arn, "b2"))
        self.assertEqual((bundle["WebACL"]["Id"], bundle["WebACL"]["Capacity"]), ("a1", 48))

    def test_raw_rules_have_plain_search_strings(self):
        value = plan()
        acl = resource(value, "aws_wafv2_web_acl.shop")
        raw = [{"Name": "raw", "Priority": 0, "Action": {"Block": {}},
            "Statement": {"ByteMatchStatement": {"SearchString": "abcd"}}}]
        acl.update(rule=[], rule_json=json.dumps(raw))
        next(one for one in value["resource_changes"] if "web_acl" in one["address"])["change"]["after_unknown"].pop("rule")
        bundle = bundle_on(self, [value])
        self.assertEqual(rule(bundle, "raw")["Statement"]["ByteMatchStatement"]["SearchString"], "YWJjZA==")

    def test_what_has_no_place_is_named(self):
        value = plan()
        value["planned_values"]["root_module"]["resources"].append(
            {"address": "aws_wafv2_web_acl_association.a", "mode": "managed", "type": "aws_wafv2_web_acl_association",
            "name": "a", "values": {}})
        resource(value, "aws_wafv2_web_acl.shop").update(tags={"team": "web"}, new_block=[{"deep": 1}])
        bundle = bundle_on(self, [value])
        self.assertEqual(bundle["WebACL"]["new_block"], [{"deep": 1}])
        notes = "\n".join(bundle["Notes"])
        for text in ("aws_wafv2_web_acl_association.a is left out", "shop.tags is left out",
                "shop.new_block: the service has no such member"):
            self.assertIn(text, notes)

    def test_values_of_unwanted_kinds_get_a_named_answer(self):
        for wrong in (None, [], {}, 5, "x", [None]):
            for where in ("planned_values", "resource_changes", "configuration"):
                self.assertIn(run_on([{**plan(), where: wrong}])[0], (0, 3), (where, wrong))
            for where in ("rule", "default_action", "name", "rule_json", "custom_response_body"):
                value = plan()
                resource(value, "aws_wafv2_web_acl.shop")[where] = wrong
                self.assertIn(run_on([value])[0], (0, 3), (where, wrong))

    @unittest.skipUnless(program.is_built(), "needs the built program")
    def test_the_program_takes_the_bundle(self):
        with tempfile.TemporaryDirectory() as directory:
            path = os.path.join(directory, "bundle.json")
            with open(path, "w", encoding="utf-8") as file:
                file.write(run(data("plan.json"), "--account", "111122223333")[1])
            request = os.path.join(program.TOP, "examples", "shop", "request.json")
            code, printed = program.run("evaluate", path, request)
        self.assertEqual(code, 0)
        self.assertTrue(printed.startswith(b"decision BLOCK 403\nrule 1 admin\nlabel awswaf:111122223333:webacl:shop:admin\n"), printed)


if __name__ == "__main__":
    unittest.main()
