"""The known name that a wrong one was meant to be."""

import unittest

from wafkit.lint.nearest_name import MOST_LISTED, advice, nearest

FIELDS = ["UriPath", "QueryString", "SingleHeader", "SingleQueryArgument", "AllQueryArguments", "Headers"]
KINDS = ["ByteMatchStatement", "LabelMatchStatement", "RateBasedStatement", "RegexMatchStatement"]


class NearestName(unittest.TestCase):
    def test_case_and_marks_alone_come_first(self):
        self.assertEqual(nearest("URIPath", FIELDS), "UriPath")
        self.assertEqual(nearest("single_header", FIELDS), "SingleHeader")
        self.assertEqual(nearest("none", ["NINE", "NONE"]), "NONE")

    def test_misspelt_names(self):
        for wrong, right in (("ByteMatchStatment", 0), ("RateLimitStatement", 2), ("RegexpMatch", 3)):
            self.assertEqual(nearest(wrong, KINDS), KINDS[right])
        self.assertIsNone(nearest("Foo", KINDS))
        self.assertIsNone(nearest("Foo", []))

    def test_advice(self):
        self.assertEqual(advice("UriPaths", FIELDS), 'write "UriPath"')
        self.assertEqual(advice("x", ["b", "a"]), 'write one of "a", "b"')
        self.assertEqual(advice("x", []), "leave it out: nothing may stand here")
        many = [f"name{number:02}" for number in range(MOST_LISTED + 1)]
        self.assertTrue(advice("x", many).endswith(', "name11", ..'))
