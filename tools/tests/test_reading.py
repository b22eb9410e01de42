"""The table of what the program reads, against its readers, docs/FORMATS.md and the service's model."""

import glob
import re
import unittest

from wafkit import program
from wafkit.lint import reading, service_model

from .test_lint_mistakes import NEEDS_BOTOCORE

CRATES = ("json_view", "statement_json", "acl_json", "set_json", "request_parts", "answer_book")


def words_of_the_readers():
    """Returns the texts in the readers' code."""
    found = set()
    for crate in CRATES:
        for name in glob.glob(f"{program.TOP}/crates/{crate}/src/*.rt"):
            with open(name, encoding="utf-8") as file:
                found.update(re.findall(r'"([A-Za-z0-9]+)"', file.read()))
    return found


def words_of_the_document():
    """Returns the names of members in the tables and texts of docs/FORMATS.md."""
    with open(f"{program.TOP}/docs/FORMATS.md", encoding="utf-8") as file:
        return set(re.findall(r"\b[A-Z][A-Za-z0-9]+\b", file.read()))


class Reading(unittest.TestCase):
    def test_each_member_is_in_the_readers_or_the_document(self):
        known = words_of_the_readers() | words_of_the_document()
        for structure, members in reading.READ.items():
            for name in members:
                self.assertTrue(name == "*" or name in known, f"{name} of {structure}")

    def test_each_member_that_the_readers_name_is_in_the_table(self):
        named = {name for members in reading.READ.values() for name in members}
        wrapped = {"RuleGroup", "IPSet", "RegexPatternSet"}
        # A member that opaque fields have, which is part of their key.
        other = {"JsonBody"}
        for word in words_of_the_readers():
            # The names of values are in capitals alone.
            if re.fullmatch(r"[A-Z]+[a-z][A-Za-z]*", word):
                self.assertIn(word, named | wrapped | other)

    def test_what_a_member_leads_to_is_in_the_table(self):
        for members in reading.READ.values():
            for child in members.values():
                self.assertTrue(child == "" or child.strip("[]") in reading.READ, child)

    @NEEDS_BOTOCORE
    def test_each_structure_has_its_members_in_the_model(self):
        model = service_model.model()
        for structure, members in reading.READ.items():
            shape = model.shape({"GroupRule": "Rule"}.get(structure, structure))
            if shape.type_name == "structure":
                self.assertLessEqual(set(members), set(shape.members), structure)

    @NEEDS_BOTOCORE
    def test_own_structures_hide_none_of_the_service(self):
        import botocore.loaders

        description = botocore.loaders.Loader().load_service_model("wafv2", "service-2")
        self.assertEqual(set(description["shapes"]) & set(service_model.OWN_SHAPES), set())

    def test_a_rule_is_read_by_its_statement(self):
        from wafkit import placed_json

        for text, name in (
            ('{"Statement": {"ManagedRuleGroupStatement": {}}}', "GroupRule"),
            ('{"Statement": {"RuleGroupReferenceStatement": {}}}', "GroupRule"),
            ('{"Statement": {"ManagedRuleGroupStatement": null, "GeoMatchStatement": {}}}', "Rule"),
            ('{"Statement": []}', "Rule"),
            ("{}", "Rule"),
        ):
            self.assertEqual(reading.structure_of("Rule", placed_json.read(text)), name)
