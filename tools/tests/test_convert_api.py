"""Answers of the API, dumps of boto3 and inputs of calls to bundles."""

import json
import os
import tempfile
import unittest
from datetime import datetime, timezone

from tests.converting import bundle_on, has, run_on
from wafkit import program

ACL = "arn:aws:wafv2:us-east-1:111122223333:regional/webacl/shop/a1"
SET = "arn:aws:wafv2:us-east-1:111122223333:regional/ipset/office/b1"
VISIBILITY = {"SampledRequestsEnabled": True, "CloudWatchMetricsEnabled": True, "MetricName": "m"}


def match(search_string):
    return {"ByteMatchStatement": {"SearchString": search_string, "FieldToMatch": {"UriPath": {}},
                                   "TextTransformations": [{"Priority": 0, "Type": "NONE"}],
                                   "PositionalConstraint": "STARTS_WITH"}}


def rules(search_string):
    first = {"Name": "office", "Priority": 0, "Action": {"Allow": {}},
        "Statement": {"IPSetReferenceStatement": {"ARN": SET}}}
    second = {"Name": "admin", "Priority": 1, "Action": {"Block": {}}, "Statement": match(search_string)}
    return [{**one, "VisibilityConfig": VISIBILITY} for one in (first, second)]


def answer(search_string="L2FkbWlu"):
    """Returns an answer of get-web-acl."""
    return {"WebACL": {"Name": "shop", "Id": "a1", "ARN": ACL, "DefaultAction": {"Allow": {}}, "Description": "",
                       "Rules": rules(search_string), "VisibilityConfig": VISIBILITY, "Capacity": 3}, "LockToken": "c1"}


def office():
    """Returns an answer of get-ip-set."""
    return {"IPSet": {"Name": "office", "Id": "b1", "ARN": SET, "IPAddressVersion": "IPV4",
        "Addresses": ["198.51.100.0/30"]}, "LockToken": "c2"}


def create_input(search_string="L2FkbWlu"):
    """Returns an input of create-web-acl."""
    return {"Name": "shop", "Scope": "REGIONAL", "DefaultAction": {"Allow": {}}, "VisibilityConfig": VISIBILITY,
            "Tags": [{"Key": "team", "Value": "web"}], "Rules": rules(search_string)}


def searched(bundle):
    return bundle["WebACL"]["Rules"][1]["Statement"]["ByteMatchStatement"]["SearchString"]


class Answers(unittest.TestCase):
    def test_answers_are_merged_as_they_stand(self):
        meant = {**answer(), "IPSets": [office()]}
        self.assertEqual(bundle_on(self, [answer(), office()]), meant)
        self.assertEqual(bundle_on(self, [office(), answer()]), meant)
        self.assertEqual(bundle_on(self, [[answer(), office()]]), meant)
        self.assertEqual(bundle_on(self, [{**answer(), "IPSets": [office()]}]), meant)
        self.assertEqual(bundle_on(self, [answer()["WebACL"], office()["IPSet"]]), {"WebACL": answer()["WebACL"],
            "IPSets": [office()["IPSet"]]})

    def test_a_set_that_lacks_is_named_with_its_call(self):
        code, output, errors = run_on([answer()])
        self.assertEqual(code, 0)
        self.assertIn(f'refers to "{SET}", which IPSets lacks: give the answer of get-ip-set as a further file', errors)
        self.assertEqual(len(json.loads(output)["Notes"]), 1)

    def test_dumps_of_boto3(self):
        for data, meant in ((b"/admin", "L2FkbWlu"), (b"it's \\ \x00\xff\n\"", "aXQncyBcIAD/CiI="), (b"it's",
                "aXQncw=="), (b"", "")):
            moment = datetime(2026, 12, 2, 10, tzinfo=timezone.utc)
            dumped = json.dumps({**answer(data), "ResponseMetadata": {"HTTPStatusCode": 200}, "At": moment},
                default=str)
            found = bundle_on(self, [dumped, office()])
            self.assertEqual(searched(found), meant)
            self.assertEqual(found["At"], "2026-12-02 10:00:00+00:00")
            self.assertEqual(found["Notes"],
                ["input0: $.ResponseMetadata is left out: it tells of the call, not of the web ACL"])

    def test_plain_search_strings(self):
        code, output, errors = run_on([answer("/admin"), office()])
        self.assertEqual((code, output), (3, ""))
        self.assertIn("input0: $.WebACL.Rules[1].Statement.ByteMatchStatement.SearchString: isn't base64", errors)
        self.assertEqual(searched(bundle_on(self, [answer("/admin"), office()], "--search-strings", "text")),
            "L2FkbWlu")
        self.assertEqual(searched(bundle_on(self, [{**answer("/admin"), "SearchStringEncoding": "TEXT"}, office()])),
            "L2FkbWlu")
        self.assertIn("is taken as base64, of bytes that are no text", run_on([answer("password"), office()])[2])

    @unittest.skipUnless(has("botocore"), "needs botocore")
    def test_an_answer_beside_a_template_or_plan(self):
        arn = {"Fn::ImportValue": "office"}
        rule = {"Name": "r", "Priority": 0, "Action": {"Allow": {}},
            "Statement": {"IPSetReferenceStatement": {"Arn": arn}}}
        properties = {"Name": "acl", "Scope": "REGIONAL", "DefaultAction": {"Allow": {}}, "Rules": [rule]}
        template = {"Resources": {"Acl": {"Type": "AWS::WAFv2::WebACL", "Properties": properties}}}
        found = bundle_on(self, [template, office()], "--value", f"ImportValue:office={SET}", "--account",
            "111122223333")
        self.assertEqual(found["IPSets"], [office()])
        self.assertEqual(len(found["Notes"]), 1, found["Notes"])
        for contents in ([template, template], [template, answer()], [template, {"httpRequest": {}}]):
            self.assertIn(run_on(contents, "--value", f"ImportValue:office={SET}")[0], (2, 3))

    def test_names_of_an_input_do_not_reach_the_terminal_as_they_stand(self):
        statement = {"AndStatement": {"\x1b[2J": {"ByteMatchStatement": {"SearchString": "?"}}}}
        value = answer()
        value["WebACL"]["Rules"][1]["Statement"] = statement
        code, _, errors = run_on([value, office()])
        self.assertEqual(code, 3)
        self.assertIn("\\x1b[2J", errors)
        self.assertNotIn("\x1b", errors)

    def test_two_web_acls_and_none(self):
        for contents in ([answer(), answer()], [office()], [[]], [{"Name": "x"}], [answer(), "{}"]):
            self.assertIn(run_on(contents)[0], (2, 3), contents)
        self.assertIn("no web ACL", run_on([office()])[2])

    @unittest.skipUnless(has("yaml"), "needs PyYAML")
    def test_what_the_cli_prints_as_yaml(self):
        import yaml

        dumped = yaml.safe_dump(json.loads(json.dumps(answer()))).replace("SearchString: L2FkbWlu",
            "SearchString: !!binary |\n  L2Fk\n  bWlu")
        self.assertIn("!!binary", dumped)
        self.assertEqual(searched(bundle_on(self,
            [dumped.replace("  bWlu", " " * 100 + "bWlu").replace("  L2Fk", " " * 100 + "L2Fk"), office()])),
            "L2FkbWlu")
        for text in ("WebACL: {Rules: !!set {a}}", "WebACL: {Rules: .nan}"):
            self.assertEqual(run_on([text])[:2], (3, ""), text)
        self.assertEqual(bundle_on(self, [yaml.safe_dump(json.loads(json.dumps(answer()))), office()]), {**answer(),
            "IPSets": [office()]})


class Inputs(unittest.TestCase):
    def test_an_input_of_create_web_acl(self):
        found = bundle_on(self, [create_input(), office()], "--account", "111122223333", "--region", "eu-west-1")
        self.assertRegex(found["WebACL"].pop("ARN"),
            r"\Aarn:aws:wafv2:eu-west-1:111122223333:regional/webacl/shop/[0-9a-f-]{36}\Z")
        self.assertEqual(len(found["WebACL"].pop("Id")), 36)
        wanted = {name: item for name, item in create_input().items() if name not in ("Scope", "Tags")}
        self.assertEqual(found["WebACL"], wanted)
        self.assertIn("Tags is left out", found["Notes"][0])

    def test_an_input_of_update_web_acl(self):
        found = bundle_on(self, [{**create_input(), "Id": "a1", "LockToken": "c1"}, office()], "--account",
            "111122223333")
        self.assertEqual((found["WebACL"]["ARN"], found["WebACL"]["Id"], found["LockToken"]), (ACL, "a1", "c1"))

    def test_an_input_of_check_capacity(self):
        found = bundle_on(self, [{"Scope": "CLOUDFRONT", "Rules": rules("L2FkbWlu")}, office()])
        self.assertEqual((found["WebACL"]["Name"], found["WebACL"]["DefaultAction"]), ("check-capacity", {"Allow": {}}))
        self.assertIn(":global/webacl/", found["WebACL"]["ARN"])

    @unittest.skipUnless(program.is_built(), "needs the built program")
    def test_the_program_takes_the_bundles(self):
        checked = {"Scope": "REGIONAL", "Rules": rules("L2FkbWlu")}
        for contents in ([answer(), office()], [create_input(), office()], [checked, office()]):
            code, output, _ = run_on(contents)
            with tempfile.TemporaryDirectory() as directory:
                path = os.path.join(directory, "bundle.json")
                with open(path, "w", encoding="utf-8") as file:
                    file.write(output)
                # 1 for the set, and 2 for a byte match that begins a path, by docs/FORMATS.md.
                self.assertEqual((code, program.run("capacity", path)), (0, (0, b"capacity 3\n")))


class Faults(unittest.TestCase):
    def test_files_that_can_not_be_read(self):
        cases = {"{": "line 1 column 2", '{"a": 1, "b": {"c": 1,\n "c": 2}}': 'two members of one name: "c" at line 2 column 2',
                 "[" * 100_000: "nested too deep", '{"a": NaN}': "NaN is no JSON number",
                 '{"a": 1}': "isn't recognised"}
        for text, meant in cases.items():
            code, output, errors = run_on([text])
            self.assertEqual((code, output), (3, ""), text[:50])
            self.assertIn(meant, errors)
        self.assertEqual(run_on([" \n"]), (3, "", "wafkit: input0: holds nothing\n"))
        self.assertEqual(run_on([b"\xff\xfe\x00"])[0], 3)
        self.assertEqual(run_on([b"{\xff}"])[0], 3)

    def test_marks_and_utf_16(self):
        text = json.dumps([answer(), office()])
        for data in (text.encode("utf-8-sig"), text.encode("utf-16")):
            self.assertEqual(searched(bundle_on(self, [data])), "L2FkbWlu")


if __name__ == "__main__":
    unittest.main()
