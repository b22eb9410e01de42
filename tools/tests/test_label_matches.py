"""Label matches of which no label can be there where they are tried."""

import json
import unittest

from wafkit import placed_json
from wafkit.lint import label_matches, search_strings

ARN = "arn:aws:wafv2:eu-west-1:111122223333:regional/{}/one/1"
GROUP = ARN.format("rulegroup")


def label_rule(name, priority, *labels, **statement):
    return {"Name": name, "Priority": priority, "Statement": statement, "RuleLabels": [{"Name": it} for it in labels]}


def match(key, scope="LABEL"):
    return {"LabelMatchStatement": {"Scope": scope, "Key": key}}


def paths(rules, groups=(), **more):
    """Returns the paths of the label matches that a web ACL of these rules never meets."""
    acl = {"Name": "one", "ARN": ARN.format("webacl"), "Rules": rules, **more}
    bundle = placed_json.read(json.dumps({"WebACL": acl, "RuleGroups": list(groups)}))
    return [it.path for it in label_matches.findings(bundle)]


class LabelMatches(unittest.TestCase):
    PATH = "$.WebACL.Rules[1].Statement.LabelMatchStatement.Key"

    def both(self, label, key, scope="LABEL", **more):
        return paths([label_rule("a", 1, label), label_rule("b", 2, **match(key, scope))], **more)

    def test_the_namespace_is_that_of_the_web_acl_given_or_made(self):
        self.assertEqual(self.both("a:b", "a:b"), [])
        self.assertEqual(self.both("a:b", "awswaf:111122223333:webacl:one:a:b"), [])
        given = {"LabelNamespace": "awswaf:x:"}
        self.assertEqual(self.both("a:b", "awswaf:111122223333:webacl:one:a:b", **given), [self.PATH])
        self.assertEqual(self.both("a:b", "awswaf:x:a:b", **given), [])

    def test_a_namespace_is_begun_by_whole_parts(self):
        self.assertEqual(self.both("a:b", "a", "NAMESPACE"), [])
        self.assertEqual(self.both("a:b", "a:", "NAMESPACE"), [])
        self.assertEqual(self.both("ab:c", "a", "NAMESPACE"), [self.PATH])
        self.assertEqual(self.both("a:b", "a"), [self.PATH])
        self.assertEqual(self.both("a:b", "a:b", "NAMESPACE"), [self.PATH])

    def test_rules_add_labels_for_those_behind_them(self):
        rules = [label_rule("b", 2, **match("x")), label_rule("a", 1, "x")]
        self.assertEqual(paths(rules), [])
        rules[1]["Priority"] = 3
        self.assertEqual(paths(rules), ["$.WebACL.Rules[0].Statement.LabelMatchStatement.Key"])

    def test_managed_groups_before_may_add_labels_by_answers(self):
        def managed(name, priority=0):
            return label_rule("m", priority, ManagedRuleGroupStatement={"VendorName": "AWS", "Name": name})

        key, bots = "awswaf:managed:aws:bot-control:signal", "AWSManagedRulesBotControlRuleSet"
        token = "awswaf:managed:token:absent"
        last = "$.WebACL.Rules[{}].Statement.LabelMatchStatement.Key"
        self.assertEqual(paths([managed(bots), label_rule("b", 1, **match(key))]), [])
        self.assertEqual(paths([managed(bots, 9), label_rule("b", 1, **match(key))]), [last.format(1)])
        self.assertEqual(paths([label_rule("b", 1, **match(key))]), [last.format(0)])
        self.assertEqual(paths([managed(bots), label_rule("b", 1, **match(token))]), [])
        common = managed("AWSManagedRulesCommonRuleSet")
        self.assertEqual(paths([common, label_rule("b", 1, **match(token))]), [last.format(1)])
        self.assertEqual(paths([common, label_rule("b", 1, **match("awswaf:", "NAMESPACE"))]), [])
        # Labels of a rule with a managed group are unread.
        bot = {**managed(bots), "RuleLabels": [{"Name": "x"}]}
        self.assertEqual(paths([bot, label_rule("b", 1, **match("x"))]), [last.format(1)])

    def test_labels_of_the_service_are_never_there(self):
        for key in ("clientip:geo:country:US", "forwardedip:geo:region:US-CA", "clientip:asn:64496"):
            self.assertEqual(self.both("a", f"awswaf:{key}"), [self.PATH])

    def test_rules_of_a_group_are_tried_where_it_is_referred_to(self):
        group = {"ARN": GROUP, "Name": "one", "Rules": [label_rule("g", 1, "x"), label_rule("h", 2, **match("x"))]}
        reference = label_rule("r", 1, RuleGroupReferenceStatement={"ARN": GROUP})
        whole = label_rule("b", 2, **match("awswaf:111122223333:rulegroup:one:x"))
        for groups in ([group], [{"RuleGroup": group}]):
            self.assertEqual(paths([reference, whole], groups), [])
        self.assertEqual(paths([whole], [group]), ["$.WebACL.Rules[0].Statement.LabelMatchStatement.Key"])
        group["Rules"].reverse()
        group["Rules"][0]["Priority"] = 0
        wanted = "$.RuleGroups[0].Rules[0].Statement.LabelMatchStatement.Key"
        self.assertEqual(paths([reference, whole], [group]), [wanted])
        # Referred to once more, the label of the first time is there.
        self.assertEqual(paths([reference, {**reference, "Priority": 5}], [group]), [])
        # What nothing refers to is never tried.
        self.assertEqual(paths([], [group]), [])


class SearchStrings(unittest.TestCase):
    def test_base64_of_readable_text_is_taken(self):
        for text in ("L2FkbWlu", "w6k=", "YQlh", "DQo="):
            self.assertIsNone(search_strings.plain(text), text)

    def test_plain_text_is_told(self):
        for text in ("/admin", "admin", "test", "admin123", "L2FkbWlu\n", "L2FkbWl1=", "YR==", "\u00e9"):
            self.assertIsNotNone(search_strings.plain(text), text)

    def test_base64_under_text_is_told(self):
        self.assertIsNotNone(search_strings.encoded("L2FkbWlu"))
        for text in ("/admin", "test", "admin123", "password", "YQ=="):
            self.assertIsNone(search_strings.encoded(text), text)
