"""The command lint: its words, what it prints, two bundles, and files that can't be linted."""

import argparse
import contextlib
import io
import json
import os
import sys
import tempfile
import unittest
from unittest import mock

from wafkit import lint, placed_json, program, status
from wafkit.lint import json_file, json_path, service_model, unread_differences
from wafkit.fault import Fault

from .test_lint_mistakes import FOLDER, NEEDS_BOTOCORE, NEEDS_PROGRAM, findings, text_of


def differences(old, new):
    """Returns the rule, path and line of each unread difference of two texts, those of OLD first."""
    of_old, of_new = unread_differences.findings(placed_json.read(old), placed_json.read(new))
    return [(it.path, it.line) for it in of_old], [(it.path, it.line) for it in of_new]


class Words(unittest.TestCase):
    def setUp(self):
        self.folder = tempfile.TemporaryDirectory()
        self.addCleanup(self.folder.cleanup)

    def file(self, content, name="bundle.json"):
        path = os.path.join(self.folder.name, name)
        with open(path, "wb") as file:
            file.write(content)
        return path

    def run_lint(self, *words):
        parser = argparse.ArgumentParser()
        lint.add_arguments(parser)
        with contextlib.redirect_stdout(io.StringIO()) as printed:
            code = lint.run(parser.parse_args(words))
        return code, printed.getvalue().splitlines()

    @NEEDS_PROGRAM
    def test_a_finding_has_its_place_rule_path_what_was_found_and_what_to_write(self):
        text = text_of("edge").replace('"NORMALIZE_PATH"', '"normalize_path"')
        at = text.index('"normalize_path"')
        line, column = text[:at].count("\n") + 1, at - text.rfind("\n", 0, at)
        path = "$.WebACL.Rules[0].Statement.ByteMatchStatement.TextTransformations[1].Type"
        name = self.file(text.encode())
        code, lines = self.run_lint(name)
        self.assertEqual(code, status.FOUND)
        says = '"normalize_path" is none of TextTransformationType; write "NORMALIZE_PATH"'
        self.assertEqual(lines[0], f"{name}:{line}:{column}: unknown-value {path}: {says}")
        self.assertEqual(len(lines), 2)
        # The version of the service's model is said: the API's is the date that AWS publishes.
        self.assertRegex(lines[1], r"^findings 1 by wafv2 2019-07-29 of botocore \d+\.\d+\.\d+")
        code, lines = self.run_lint(name, "--json")
        one = json.loads(lines[0])
        self.assertEqual((code, one["line"], one["column"], one["path"]), (status.FOUND, line, column, path))
        self.assertEqual((one["rule"], one["write"]), ("unknown-value", 'write "NORMALIZE_PATH"'))
        self.assertEqual(json.loads(lines[-1])["findings"], 1)

    @NEEDS_PROGRAM
    def test_all_findings_come_in_the_order_of_the_text(self):
        text = text_of("site").replace('"LOWERCASE"', '"lowercase"').replace('"KP"', '"kp"').replace("1088", "1")
        code, lines = self.run_lint(self.file(text.encode()), "--json")
        found = [json.loads(line) for line in lines[:-1]]
        self.assertEqual([it["rule"] for it in found], ["unknown-value", "unknown-value", "capacity"])
        self.assertEqual(sorted(it["line"] for it in found), [it["line"] for it in found])

    @NEEDS_PROGRAM
    def test_answers_to_two_bundles_may_be_asked_by_either(self):
        site, edge, answers = (f"{FOLDER}/{name}.json" for name in ("site", "edge", "answers"))
        found, _ = findings(site, edge, "--answers", answers)
        self.assertEqual([it for it in found if it["file"] == answers], [])
        found, code = findings(edge, "--answers", answers)
        wanted = ["$.Statements[0].Key", "$.Statements[1].Key", "$.Groups[0].Key", "$.Tokens[0]", "$.Tokens[1]"]
        self.assertEqual([it["path"] for it in found], wanted)
        self.assertEqual(code, status.FOUND)

    @NEEDS_BOTOCORE
    def test_files_that_hold_no_object_end_with_what_bars_them(self):
        texts = {
            b"": "line 1, column 1",
            b'{"WebACL": }': "line 1, column 12",
            b"[]": "no JSON object",
            b"\xff\xfe{\x00": "no UTF-8 at byte 0",
            b'{"a": "\xe9"}': "no UTF-8 at byte 7",
            b"\xef\xbb\xbf{}": "line 1, column 1",
            b'{"a":' * 200 + b"1" + b"}" * 200: "deeper than 127",
            b"[" * 100000: "deeper than 127",
            b'{"a": ' + b"1" * 5000 + b"}": "number",
        }
        for content, says in texts.items():
            if content.startswith(b'{"a": 1') and not hasattr(sys, "set_int_max_str_digits"):
                continue
            with self.assertRaises(Fault) as raised:
                self.run_lint(self.file(content))
            self.assertEqual(raised.exception.code, status.UNREADABLE)
            self.assertIn(says, str(raised.exception))
        with self.assertRaises(Fault) as raised:
            self.run_lint(self.folder.name + "/none")
        self.assertIn("No such file", str(raised.exception))

    def test_without_botocore_what_is_missing_is_said(self):
        with mock.patch.dict(sys.modules, {"botocore": None, "botocore.loaders": None, "botocore.model": None}):
            with self.assertRaises(Fault) as raised:
                service_model.Model()
        self.assertEqual(raised.exception.code, status.MISSING)
        self.assertIn("botocore", str(raised.exception))
        self.assertIn("tools/requirements.txt", str(raised.exception))

    @NEEDS_BOTOCORE
    def test_whatever_stands_in_a_bundle_is_linted(self):
        text = text_of("plain")
        model = service_model.model()
        for place, _ in json_path.below(placed_json.read(text), "$"):
            for other in ("null", "-1", "1.5", "true", '""', "[]", "{}", "[null]", '{"a": [{}]}'):
                _, end = placed_json.value_at(text, place.offset)
                changed = placed_json.read(text[: place.offset] + other + text[end:])
                if changed.kind == "object":
                    for found in lint.bundle_findings(changed, model):
                        self.assertTrue(found.as_line().isprintable())


class TwoBundles(unittest.TestCase):
    def test_equal_bundles_differ_in_nothing(self):
        for name in ("site", "edge", "plain"):
            self.assertEqual(differences(text_of(name), text_of(name)), ([], []))

    def test_unread_members_that_differ_are_named(self):
        old, new = text_of("site"), text_of("site")
        new = new.replace('"MetricName": "office"', '"MetricName": "bureau"')
        new = new.replace('"Allow": {}', '"Allow": {"CustomRequestHandling": {"InsertHeaders": []}}', 1)
        line = new[: new.index("CustomRequestHandling")].count("\n") + 1
        metric = new[: new.index('"VisibilityConfig"')].count("\n") + 1
        path = "$.WebACL.DefaultAction.Allow.CustomRequestHandling"
        named = "$.WebACL.Rules[0].VisibilityConfig.MetricName"
        self.assertEqual(differences(old, new), ([], [(path, line), (named, metric)]))
        self.assertEqual(differences(new, old)[0], [(path, line)])

    def test_what_is_read_or_asked_is_told_by_the_program(self):
        old = text_of("site")
        for before, after in (
            ('"LOWERCASE"', '"URL_DECODE"'),
            ('"Limit": 500', '"Limit": 600'),
            ('["KP", "SY"]', '["KP"]'),
            ('"Priority": 3', '"Priority": 33'),
            ('"KB_32"', '"KB_16"'),
            ('"COMMON"', '"TARGETED"'),
            ('"ResponseCode": 451', '"ResponseCode": 403'),
            ('"JsonBody"', '"JSONBody"'),
            # Of the record, or worked out by the service.
            ('"Capacity": 1088', '"Capacity": 1089'),
            ('"LockToken"', '"Notes"'),
        ):
            self.assertIn(before, old)
            self.assertEqual(differences(old, old.replace(before, after)), ([], []), after)

    def test_rules_and_sets_are_the_same_by_name_and_arn(self):
        value = json.loads(text_of("site"))
        value["WebACL"]["Rules"].reverse()
        value["IPSets"].reverse()
        value["RuleGroups"] = [it["RuleGroup"] for it in value["RuleGroups"]]
        self.assertEqual(differences(text_of("site"), json.dumps(value)), ([], []))

    def test_a_new_rule_has_what_it_sets_unread(self):
        value = json.loads(text_of("plain"))
        rule = {**value["WebACL"]["Rules"][0], "Name": "more", "OverrideAction": {"None": {}}}
        value["WebACL"]["Rules"].append(rule)
        wanted = [("$.WebACL.Rules[3].OverrideAction", 1)]
        self.assertEqual(differences(text_of("plain"), json.dumps(value)), ([], wanted))

    def test_needs_no_package_and_no_program(self):
        names = [f"{program.TOP}/examples/shop/{name}.json" for name in ("bundle", "next")]
        with mock.patch.dict(sys.modules, {"botocore": None, "botocore.loaders": None, "botocore.model": None}):
            with mock.patch.object(program, "run", side_effect=AssertionError("the program was called")):
                found, by = lint.findings_of_words(argparse.Namespace(bundle=names[0], new=names[1], answers=None))
        self.assertEqual((found, by), ([], ""))


class Files(unittest.TestCase):
    def test_depth_counts_arrays_and_objects(self):
        for text, depth in (("1", 0), ("[]", 1), ('{"a": [[], 1]}', 3)):
            self.assertEqual(json_file.depth(placed_json.read(text)), depth)
