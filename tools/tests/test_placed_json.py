"""JSON with places."""

import json
import unittest

from wafkit import placed_json

TEXT = """{"WebACL": {"Rules": [
  {"Name": "one", "Name": "two"},
  {"Priority": 1.5, "On": true}]},
 "Note": "\\u00e9\\/"}"""


class PlacedJson(unittest.TestCase):
    def test_values_are_those_of_the_standard_reader(self):
        for text in (TEXT, "[]", "{}", " [1, -2, 3e4, null, false, [[]]] ", '"a"'):
            self.assertEqual(placed_json.read(text).plain(), json.loads(text))

    def test_places(self):
        value = placed_json.read(TEXT).at("$.WebACL.Rules[1].Priority")
        self.assertEqual((value.data, value.line, value.column), (1.5, 3, 16))
        self.assertIsNone(placed_json.read(TEXT).at("$.WebACL.Rules[2]"))

    def test_members_of_one_name_are_all_kept(self):
        rule = placed_json.read(TEXT).at("$.WebACL.Rules[0]")
        self.assertEqual([name for name, _ in rule.members()], ["Name", "Name"])
        self.assertEqual(rule.member("Name").data, "two")

    def test_faults_are_those_of_the_standard_reader(self):
        for text in ("", "{", '{"a" 1}', "{1: 2}", '["a', "nul", "[1] x"):
            with self.assertRaises(json.JSONDecodeError) as ours:
                placed_json.read(text)
            with self.assertRaises(json.JSONDecodeError) as theirs:
                json.loads(text)
            self.assertEqual(ours.exception.pos, theirs.exception.pos, text)

    def test_a_comma_before_the_end_is_a_fault(self):
        # (Python 3.13 names the comma's place, earlier ones that of the end)
        for text in ("[1,]", '{"a": 1,}'):
            with self.assertRaises(json.JSONDecodeError) as ours:
                placed_json.read(text)
            self.assertEqual(ours.exception.pos, len(text) - 1)
