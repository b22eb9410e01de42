"""CloudFormation templates to bundles."""

import base64
import json
import os
import tempfile
import unittest

from tests.converting import bundle_on, data, has, run, run_on
from wafkit import program

TRANSFORMATIONS = [{"Priority": 0, "Type": "NONE"}]
VISIBILITY = {"SampledRequestsEnabled": True, "CloudWatchMetricsEnabled": True, "MetricName": "m"}


def template(statement, **sections):
    """Returns a template whose web ACL has one rule with that statement."""
    rule = {"Name": "r", "Priority": 0, "Action": {"Block": {}}, "Statement": statement, "VisibilityConfig": VISIBILITY}
    properties = {"Name": "acl", "Scope": "REGIONAL", "DefaultAction": {"Allow": {}}, "VisibilityConfig": VISIBILITY,
        "Rules": [rule]}
    resources = {"Acl": {"Type": "AWS::WAFv2::WebACL", "Properties": properties}, **sections.pop("Resources", {})}
    return {"AWSTemplateFormatVersion": "2010-09-09", "Resources": resources, **sections}


def search(text):
    """Returns a byte match whose search string is that text or function."""
    return {"ByteMatchStatement": {"SearchString": text, "FieldToMatch": {"UriPath": {}},
                                   "TextTransformations": TRANSFORMATIONS, "PositionalConstraint": "EXACTLY"}}


SECTIONS = {
    "Parameters": {"Word": {"Type": "String", "Default": "w"}, "Many": {"Type": "CommaDelimitedList",
    "Default": "a, b"}},
    "Mappings": {"M": {"k": {"x": "mapped"}}},
    "Conditions": {"Yes": {"Fn::Equals": [{"Ref": "Word"}, "w"]}, "No": {"Fn::Not": [{"Condition": "Yes"}]},
                   "Both": {"Fn::And": [{"Condition": "Yes"}, {"Condition": "No"}]},
                   "Either": {"Fn::Or": [{"Condition": "Yes"}, {"Condition": "No"}]}},
}
# What each function gives, from the CloudFormation User Guide's sections on it.
FUNCTIONS = [
    ({"Ref": "Word"}, "w"),
    ({"Ref": "AWS::Region"}, "eu-west-1"),
    ({"Ref": "AWS::Partition"}, "aws"),
    ({"Ref": "AWS::AccountId"}, "111122223333"),
    ({"Ref": "AWS::URLSuffix"}, "amazonaws.com"),
    ({"Fn::Sub": "/${Word}/${!Word}/${AWS::Region}"}, "/w/${Word}/eu-west-1"),
    ({"Fn::Sub": ["/${Word}${x}", {"x": {"Fn::Join": ["-", ["1", "2"]]}}]}, "/w1-2"),
    ({"Fn::Join": ["/", ["", "a", {"Ref": "Word"}]]}, "/a/w"),
    ({"Fn::Join": [":", {"Ref": "Many"}]}, "a:b"),
    ({"Fn::Select": [1, ["a", "b"]]}, "b"),
    ({"Fn::Select": ["0", {"Fn::Split": [",", "c,d"]}]}, "c"),
    ({"Fn::FindInMap": ["M", "k", "x"]}, "mapped"),
    ({"Fn::FindInMap": ["M", "no", "x", {"DefaultValue": "else"}]}, "else"),
    ({"Fn::If": ["Yes", "then", "else"]}, "then"),
    ({"Fn::If": ["No", "then", "else"]}, "else"),
    ({"Fn::If": ["Both", "then", "else"]}, "else"),
    ({"Fn::If": ["Either", "then", "else"]}, "then"),
    ({"Fn::Base64": "plain"}, "cGxhaW4="),
]
# What can't be resolved within a template, with the name by which --value gives it.
OUTSIDE = [
    ({"Fn::ImportValue": "shared"}, "ImportValue:shared"),
    ({"Fn::GetAtt": ["Bucket", "Arn"]}, "GetAtt:Bucket.Arn"),
    ({"Fn::Sub": "${Bucket.Arn}"}, "GetAtt:Bucket.Arn"),
    ({"Ref": "Bucket"}, "Ref:Bucket"),
    ("{{resolve:ssm:/path:1}}", "resolve:ssm:/path:1"),
]
HOPELESS = [{"Fn::GetAZs": ""}, {"Fn::Transform": {"Name": "x"}}, {"Fn::FindInMap": ["M", "no", "x"]},
    {"Fn::If": ["Gone", "a", "b"]},
            None, {"Fn::Select": [7, ["a"]]}, {"Fn::Join": ["a"]}, {"Ref": ["x"]}, {"Ref": "Unset"},
            {"Fn::If": ["Loop", "a", "b"]}]
PLACE = "$.Resources.Acl.Properties.Rules[0].Statement.ByteMatchStatement.SearchString"


def searched(bundle):
    found = bundle["WebACL"]["Rules"][0]["Statement"]["ByteMatchStatement"]["SearchString"]
    return base64.b64decode(found).decode("utf-8")


@unittest.skipUnless(has("botocore"), "needs botocore")
class Functions(unittest.TestCase):
    def test_each_gives_what_the_guide_says(self):
        for function, meant in FUNCTIONS:
            with self.subTest(function):
                found = bundle_on(self, [template(search(function), **SECTIONS)], "--account", "111122223333",
                    "--region", "eu-west-1")
                self.assertEqual(searched(found), meant)

    def test_what_stands_outside_is_named_and_can_be_given(self):
        for function, name in OUTSIDE:
            with self.subTest(name):
                code, output, errors = run_on([template(search(function), **SECTIONS)])
                self.assertEqual((code, output), (3, ""))
                self.assertIn(f"wafkit: {PLACE}: ", errors)
                self.assertIn(f"--value {name}=VALUE", errors)
                found = bundle_on(self, [template(search(function), **SECTIONS)], "--value", f"{name}=given=1")
                self.assertEqual(searched(found), "given=1")

    def test_what_can_not_be_resolved_is_named_with_its_path(self):
        sections = {**SECTIONS, "Parameters": {"Unset": {"Type": "String"}, **SECTIONS["Parameters"]},
                    "Conditions": {"Loop": {"Fn::Not": [{"Condition": "Loop"}]}, **SECTIONS["Conditions"]}}
        for function in HOPELESS:
            with self.subTest(function):
                code, output, errors = run_on([template(search(function), **sections)])
                self.assertEqual((code, output), (3, ""))
                self.assertIn(f"wafkit: {PLACE}", errors)

    def test_all_that_can_not_be_resolved_is_named_at_once(self):
        both = {"OrStatement": {"Statements": [search({"Fn::ImportValue": "a"}), search({"Ref": "b"})]}}
        _, _, errors = run_on([template(both)])
        self.assertIn("Statements[0]", errors)
        self.assertIn("Statements[1]", errors)

    def test_parameters(self):
        one = template(search({"Ref": "P"}), Parameters={"P": {"Type": "String", "AllowedValues": ["a", "b"]}})
        self.assertEqual(searched(bundle_on(self, [one], "--parameter", "P=b")), "b")
        for word in ("P=c", "Q=a", "P"):
            self.assertEqual(run_on([one], "--parameter", word)[0], 2, word)
        stored = template(search({"Ref": "P"}),
            Parameters={"P": {"Type": "AWS::SSM::Parameter::Value<String>", "Default": "/p"}})
        self.assertEqual(run_on([stored])[0], 3)

    def test_no_value_takes_the_member_away(self):
        one = template({"Fn::If": ["No", {}, search("x")]}, **SECTIONS)
        one["Resources"]["Acl"]["Properties"]["Rules"].append({"Fn::If": ["No", {"Name": "gone"},
            {"Ref": "AWS::NoValue"}]})
        one["Resources"]["Acl"]["Properties"]["Description"] = {"Ref": "AWS::NoValue"}
        found = bundle_on(self, [one])["WebACL"]
        self.assertEqual(len(found["Rules"]), 1)
        self.assertNotIn("Description", found)


@unittest.skipUnless(has("botocore"), "needs botocore")
class Schema(unittest.TestCase):
    def test_texts_become_the_numbers_and_truths_that_the_service_has(self):
        one = template({"RateBasedStatement": {"Limit": "2000", "AggregateKeyType": "IP"}})
        one["Resources"]["Acl"]["Properties"]["VisibilityConfig"] = {**VISIBILITY, "SampledRequestsEnabled": "false"}
        found = bundle_on(self, [one])["WebACL"]
        self.assertIs(found["VisibilityConfig"]["SampledRequestsEnabled"], False)
        self.assertEqual(found["Rules"][0]["Statement"]["RateBasedStatement"]["Limit"], 2000)

    def test_search_strings_that_are_none(self):
        for change in ({"SearchString": "a", "SearchStringBase64": "YQ=="}, {"SearchString": None},
                {"SearchStringBase64": "a b"}):
            statement = search("x")
            statement["ByteMatchStatement"].update(change)
            self.assertEqual(run_on([template(statement)])[0], 3, change)

    def test_unknown_members_go_through_and_are_named(self):
        code, output, errors = run_on([template({**search("a"), "NewStatement": {"Deep": 1}})])
        self.assertEqual(code, 0)
        self.assertEqual(json.loads(output)["WebACL"]["Rules"][0]["Statement"]["NewStatement"], {"Deep": 1})
        self.assertIn("Statement.NewStatement: the service has no such member", errors)

    def test_one_made_up_arn_stands_wherever_a_set_is_referred_to(self):
        sets = {"Set": {"Type": "AWS::WAFv2::IPSet", "Properties": {"Name": "s", "Scope": "CLOUDFRONT",
            "IPAddressVersion": "IPV4", "Addresses": []}}}
        for function in ({"Fn::GetAtt": ["Set", "Arn"]}, {"Fn::Sub": "${Set.Arn}"}):
            found = bundle_on(self, [template({"IPSetReferenceStatement": {"Arn": function}}, Resources=sets)],
                "--account", "111122223333")
            arn = found["WebACL"]["Rules"][0]["Statement"]["IPSetReferenceStatement"]["ARN"]
            self.assertEqual(found["IPSets"][0]["ARN"], arn)
            self.assertRegex(arn, r"\Aarn:aws:wafv2:us-east-1:111122223333:global/ipset/s/[0-9a-f]{8}-([0-9a-f]{4}-){3}[0-9a-f]{12}\Z")
            self.assertEqual(len(found["Notes"]), 2, found["Notes"])

    def test_label_namespaces_refs_and_known_arns(self):
        one = template({"LabelMatchStatement": {"Scope": "LABEL", "Key": {"Fn::Sub": "${Acl.LabelNamespace}x"}}})
        found = bundle_on(self, [one], "--account", "111122223333", "--value", "GetAtt:Acl.Arn=arn:aws:wafv2:x")
        self.assertEqual(found["WebACL"]["Rules"][0]["Statement"]["LabelMatchStatement"]["Key"],
            "awswaf:111122223333:webacl:acl:x")
        self.assertEqual(found["WebACL"]["ARN"], "arn:aws:wafv2:x")

    def test_which_web_acl(self):
        one = template(search("a"))
        one["Resources"]["Other"] = json.loads(json.dumps(one["Resources"]["Acl"]).replace('"acl"', '"other"'))
        code, _, errors = run_on([one])
        self.assertEqual(code, 3)
        self.assertIn("--web-acl NAME names one of Acl (acl), Other (other)", errors)
        for name in ("Other", "other"):
            self.assertEqual(bundle_on(self, [one], "--web-acl", name)["WebACL"]["Name"], "other")
        one["Resources"]["Other"]["Condition"] = "Never"
        one["Conditions"] = {"Never": {"Fn::Equals": ["a", "b"]}}
        self.assertEqual(bundle_on(self, [one])["WebACL"]["Name"], "acl")

    def test_values_of_unwanted_kinds_get_a_named_answer(self):
        for wrong in (None, [], {}, 5, "x", [None]):
            for where in ("Resources", "Parameters", "Mappings", "Conditions"):
                self.assertIn(run_on([{**template(search("a")), where: wrong}])[0], (0, 3), (where, wrong))
            self.assertIn(run_on([template(wrong)])[0], (0, 3), wrong)


@unittest.skipUnless(has("botocore", "yaml"), "needs botocore and PyYAML")
class Yaml(unittest.TestCase):
    def test_faults_of_yaml_are_named(self):
        for text in ("a: [", "a: 1\na: 2", "a: &x 1\nb: *x", "a: !!python/object/apply:os.getcwd []", "\ta",
                "a: *none", "? [a]\n: b"):
            code, output, errors = run_on([text])
            self.assertEqual((code, output), (3, ""), text)
            self.assertIn("input0: no YAML text that can be read", errors)

    def test_a_country_that_yaml_reads_as_false_is_warned_of(self):
        with open(data("every.yaml"), encoding="utf-8") as file:
            text = file.read().replace("'NO'", "NO")
        self.assertIn("CountryCodes[1]: a text is wanted, and YAML reads a word here as false", run_on([text])[2])

    def test_digits_stay(self):
        text = json.dumps(template(search("AT"))).replace('"AT"', "!Sub '${P}'")
        text = f"# YAML\n{text[:-1]}, Parameters: {{P: {{Type: String, Default: 01.10}}}}}}"
        self.assertEqual(searched(bundle_on(self, [text])), "01.10")

    @unittest.skipUnless(has("cfnlint"), "needs cfn-lint")
    def test_templates_are_read_as_cfn_lint_reads_them(self):
        from cfnlint.decode import decode
        from wafkit.convert import template_text

        for name in ("shop.yaml", "every.yaml"):
            theirs, faults = decode(data(name))
            self.assertEqual(faults, [])
            with open(data(name), encoding="utf-8") as file:
                ours = template_text.yaml_value(file.read(), name, template_text.template_loader)
            self.assertEqual(in_texts(ours), in_texts(theirs))

    @unittest.skipUnless(has("cfnlint"), "needs cfn-lint")
    def test_templates_are_in_cfn_lints_schema_and_bundles_in_botocores_model(self):
        from botocore.validate import ParamValidator
        from cfnlint.api import ManualArgs, lint
        from wafkit.convert.service_members import shape

        for name in ("shop.yaml", "every.yaml"):
            with open(data(name), encoding="utf-8") as file:
                self.assertEqual(lint(file.read(), config=ManualArgs(regions=["us-east-1"])), [], name)
            bundle = json.loads(run(data(name))[1])
            things = [("WebACL", bundle["WebACL"])]
            for kind in ("IPSet", "RegexPatternSet", "RuleGroup"):
                things += [(kind, one) for one in bundle.get(f"{kind}s", [])]
            self.assertGreater(len(things), 2)
            for kind, one in things:
                self.assertEqual(ParamValidator().validate(one, shape(kind)).generate_report(), "", (name, kind))

    def test_the_shop(self):
        bundle = json.loads(run(data("shop.yaml"), "--parameter", "Stage=live", "--parameter", "AWS::StackName=web")[1])
        rules = {rule["Name"]: rule for rule in bundle["WebACL"]["Rules"]}
        self.assertEqual(bundle["IPSets"][0]["Name"], "web-office")
        self.assertEqual(rules["office"]["Priority"], 0)
        self.assertEqual(rules["flood"]["Action"], {"Block": {}})
        parts = rules["admin"]["Statement"]["AndStatement"]["Statements"]
        self.assertEqual(parts[0]["ByteMatchStatement"]["SearchString"], "L2FkbWlu")
        self.assertEqual(parts[1]["NotStatement"]["Statement"]["ByteMatchStatement"]["SearchString"], "c3RhZmY=")
        self.assertEqual(bundle["RegexPatternSets"][0]["RegularExpressionList"], [{"RegexString": "(?i)curl"},
            {"RegexString": "wget/[0-9]+"}])

    @unittest.skipUnless(program.is_built(), "needs the built program")
    def test_the_program_takes_the_bundles(self):
        request = os.path.join(program.TOP, "examples", "shop", "request.json")
        meant = {("shop.yaml", "live"): b"BLOCK 403\nrule 4 admin\n", ("shop.yaml", "test"): b"ALLOW\nrule default\n"}
        for (name, stage), decision in meant.items():
            with tempfile.TemporaryDirectory() as directory:
                path = os.path.join(directory, "bundle.json")
                with open(path, "w", encoding="utf-8") as file:
                    file.write(run(data(name), "--parameter", f"Stage={stage}")[1])
                code, printed = program.run("evaluate", path, request)
            self.assertEqual(code, 0)
            self.assertTrue(printed.startswith(b"decision " + decision), printed)


def in_texts(value):
    """Returns the value with its numbers and dates as texts."""
    if isinstance(value, dict):
        return {str(name): in_texts(item) for name, item in value.items()}
    if isinstance(value, list):
        return [in_texts(item) for item in value]
    return value if isinstance(value, bool) else str(value)


if __name__ == "__main__":
    unittest.main()
