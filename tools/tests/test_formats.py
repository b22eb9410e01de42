"""What the program reads at each place: the tables that `explain` speaks from are those of the program."""

import json
import os
import tempfile
import unittest

from tests import built_program
from tests.refused_files import ACL_ARN, GEO, GROUP_ARN, IP, IP_SET, LOOK, MANAGED, MATCH, PATTERNS_ARN, RATE, REQUEST
from tests.refused_files import rule
from wafkit import program
from wafkit.explain import formats

FORWARDED = {"HeaderName": "x-forwarded-for", "FallbackBehavior": "MATCH", "Position": "ANY"}
HEADERS = {"Headers": {"MatchPattern": {"All": {}}, "MatchScope": "ALL", "OversizeHandling": "MATCH"}}
COOKIES = {"MatchPattern": {"IncludedCookies": ["sid"]}, "MatchScope": "KEY", "OversizeHandling": "MATCH"}
TIME = {"ImmunityTimeProperty": {"ImmunityTime": 60}}
OVERRIDES = [{"Name": "inner", "ActionToUse": {"Count": {}}}]
STATEMENTS = [
    MATCH,
    {"SizeConstraintStatement": {**LOOK, "ComparisonOperator": "GT", "Size": 5}},
    {"RegexMatchStatement": {**LOOK, "RegexString": "a", "FieldToMatch": HEADERS}},
    {"RegexPatternSetReferenceStatement": {**LOOK, "ARN": PATTERNS_ARN, "FieldToMatch": {"Cookies": COOKIES}}},
    {"IPSetReferenceStatement": {**IP["IPSetReferenceStatement"], "IPSetForwardedIPConfig": FORWARDED}},
    {"LabelMatchStatement": {"Scope": "LABEL", "Key": "a:b"}},
    {"NotStatement": {"Statement": GEO}},
    {"SqliMatchStatement": {**LOOK, "FieldToMatch": {"Body": {"OversizeHandling": "CONTINUE"}}}},
    {"XssMatchStatement": {**LOOK, "FieldToMatch": {"SingleHeader": {"Name": "host"}}}},
]
CODE = {"Block": {"CustomResponse": {"ResponseCode": 404}}}
LABELS = [{"Name": "b"}]
SCOPED = {**RATE["RateBasedStatement"], "CustomKeys": [], "ScopeDownStatement": GEO}
# A bundle with every member that is read.
BUNDLE = {
    "SearchStringEncoding": "BASE64",
    "IPSets": [IP_SET],
    "RegexPatternSets": [{"ARN": PATTERNS_ARN, "RegularExpressionList": [{"RegexString": "a"}]}],
    "ManagedCapacities": [{"VendorName": "AWS", "Name": "M", "Version": "1", "Capacity": 5}],
    "RuleGroups": [
        {
            "ARN": GROUP_ARN,
            "Name": "shared",
            "LabelNamespace": "awswaf:1:rulegroup:shared:",
            "Capacity": 5,
            "Rules": [rule(GEO, "inner", 0, Action={"Count": {}}, RuleLabels=[{"Name": "a"}])],
        }
    ],
    "WebACL": {
        "Name": "shop",
        "ARN": ACL_ARN,
        "LabelNamespace": "awswaf:1:webacl:shop:",
        "DefaultAction": CODE,
        "CaptchaConfig": TIME,
        "ChallengeConfig": TIME,
        "AssociationConfig": {"RequestBody": {"CLOUDFRONT": {"DefaultSizeInspectionLimit": "KB_16"}}},
        "Rules": [
            rule({"AndStatement": {"Statements": STATEMENTS}}, Action=CODE, RuleLabels=LABELS, CaptchaConfig=TIME),
            rule({"RateBasedStatement": SCOPED}, "rate", 1),
            rule(MANAGED, "managed", 2, OverrideAction={"None": {}}),
            rule(
                {"RuleGroupReferenceStatement": {"ARN": GROUP_ARN, "RuleActionOverrides": OVERRIDES}},
                "group",
                3,
                OverrideAction={"Count": {}},
            ),
        ],
    },
}
ANSWERS = {
    "Statements": [{"Key": "{}", "Match": True}],
    "Groups": [{"Key": "{}", "Verdict": "BLOCK", "Labels": ["awswaf:managed:aws:x"]}],
    "Tokens": [{"Kind": "CAPTCHA", "ImmunityTime": 60, "Valid": True}],
}


def paths_of(value, path="$"):
    """Returns the path of each value of a JSON value."""
    found = [path]
    if isinstance(value, dict):
        for name, inner in value.items():
            found += paths_of(inner, f"{path}.{name}")
    if isinstance(value, list):
        for index, inner in enumerate(value):
            found += paths_of(inner, f"{path}[{index}]")
    return found


def changed(value, path, new):
    """Returns the value with another one at the path, or without the member there where that is None."""
    result, steps = json.loads(json.dumps(value)), formats.steps_of(path)
    holder = result
    for step in steps[:-1]:
        holder = holder[step]
    if new is None:
        del holder[steps[-1]]
    else:
        holder[steps[-1]] = new
    return result


@unittest.skipUnless(program.is_built(), "needs the built program")
class Formats(unittest.TestCase):
    def setUp(self):
        folder = tempfile.TemporaryDirectory()
        self.addCleanup(folder.cleanup)
        self.files = {"bundle": BUNDLE, "request": REQUEST, "answers": ANSWERS}
        self.names = {role: os.path.join(folder.name, role) for role in self.files}

    def refusal(self, role, value):
        """Returns what the program refuses where the file of that role has this value, or an empty text."""
        for each, plain in {**self.files, role: value}.items():
            with open(self.names[each], "w", encoding="ascii") as file:
                json.dump(plain, file)
        code, said = built_program.run("evaluate", *self.names.values())
        return said.decode().strip() if code == 3 else ""

    def places(self, fits):
        """Returns role, file, path and what is read there, of all places where that fits."""
        found = []
        for role, value in self.files.items():
            for path in paths_of(value)[1:]:
                expected = formats.expected_at(role, path)
                if expected is not None and fits(expected):
                    found.append((role, value, path, expected))
        self.assertTrue(found)
        return found

    def test_the_files_are_read(self):
        self.assertEqual(self.refusal("bundle", BUNDLE), "")

    def test_names(self):
        for role, value, path, expected in self.places(lambda expected: expected.kind == "string" and expected.words):
            for word in expected.words:
                said = self.refusal(role, changed(value, path, word))
                # An address of the other version is refused behind it.
                self.assertTrue(said == "" or said.startswith("refused bundle E10 $.IPSets[0].Addresses"), said)
            self.assertEqual(self.refusal(role, changed(value, path, "Other")), f"refused {role} E4 {path}")

    def test_actions(self):
        actions = (formats.ACTION, formats.DEFAULT_ACTION, formats.OVERRIDE)
        for role, value, path, expected in self.places(lambda expected: expected in actions):
            if path.endswith(".OverrideAction") or not path.startswith("$.WebACL.Rules[2]"):
                for word in expected.words:
                    self.assertEqual(self.refusal(role, changed(value, path, {word: {}})), "", (path, word))
                self.assertEqual(self.refusal(role, changed(value, path, {"Other": {}})), f"refused {role} E6 {path}")

    def test_numbers(self):
        for role, value, path, expected in self.places(lambda expected: expected.kind == "number"):
            least, most = [int(word) for word in expected.says.split() if word.isdigit()]
            for number in (least, most):
                said = self.refusal(role, changed(value, path, number))
                self.assertTrue(said == "" or said.startswith(f"refused {role} E5 "), (path, said))
            for number in (least - 1, most + 1):
                self.assertEqual(self.refusal(role, changed(value, path, number)), f"refused {role} E3 {path}")

    def test_kinds_and_members_that_are_needed(self):
        for role, value, path, expected in self.places(lambda expected: expected.kind != "any"):
            parent, _, name = path.rpartition(".")
            holder = formats.expected_at(role, parent) if not path.endswith("]") else None
            codes = ("E6",) if expected.words and expected.kind == "object" else ()
            if holder is not None and name in holder.needed:
                said = self.refusal(role, changed(value, path, None))
                self.assertIn(said, [f"refused {role} {code} {path}" for code in ("E2", *codes)])
            wrong = "x" if expected.kind != "string" else 5
            said = self.refusal(role, changed(value, path, wrong))
            self.assertIn(said, [f"refused {role} {code} {path}" for code in ("E2", *codes)])
