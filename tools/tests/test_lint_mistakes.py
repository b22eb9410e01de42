"""A hundred and more mistakes, planted one by one into real bundles and answers (tests/lint/mistakes.json).

A row has the file; the path of a value, behind whose beginning the first `old` becomes `new`; and the rule, the path
and a part of the advice of the finding that must come."""

import argparse
import contextlib
import importlib.util
import io
import json
import os
import tempfile
import unittest

from wafkit import lint, placed_json, program, status
from wafkit.lint import json_file, service_model

FOLDER = os.path.join(os.path.dirname(os.path.realpath(__file__)), "lint")
BUNDLES = ("site", "edge", "plain")
SHIPPED = ("examples/first/bundle.json", "examples/first/without-rule.json")
SHIPPED += ("examples/shop/bundle.json", "examples/shop/next.json")
# Rules of which the program itself speaks.
OF_THE_PROGRAM = {"capacity", "refused", "unasked-answer", "second-answer"}
HAS_BOTOCORE = importlib.util.find_spec("botocore") is not None
NEEDS_BOTOCORE = unittest.skipUnless(HAS_BOTOCORE, "botocore isn't installed")
NEEDS_PROGRAM = unittest.skipUnless(HAS_BOTOCORE and program.is_built(), "botocore or the built program isn't there")


def text_of(name):
    with open(f"{FOLDER}/{name}.json", encoding="utf-8") as file:
        return file.read()


def planted(row):
    """Returns the text of the row's file with its mistake."""
    text = text_of(row["file"])
    at = placed_json.read(text).at(row["path"]).offset
    if row["old"] not in text[at:]:
        raise ValueError(f"{row['old']} isn't in {row['file']} behind {row['path']}")
    return text[:at] + text[at:].replace(row["old"], row["new"], 1)


def rows():
    with open(f"{FOLDER}/mistakes.json", encoding="utf-8") as file:
        return json.load(file)


def findings(*words):
    """Returns what lint finds with these words, and the status that it ends with."""
    parser = argparse.ArgumentParser()
    lint.add_arguments(parser)
    with contextlib.redirect_stdout(io.StringIO()) as printed:
        code = lint.run(parser.parse_args([*words, "--json"]))
    lines = [json.loads(line) for line in printed.getvalue().splitlines()]
    return lines[:-1], code


class Mistakes(unittest.TestCase):
    def assert_found(self, row, found):
        same = [it for it in found if (it["rule"], it["path"]) == (row["rule"], row["at"])]
        self.assertEqual(len(same), 1, f"{row} gave {found}")
        self.assertIn(row["write"], same[0]["write"], row)

    def test_there_are_a_hundred(self):
        self.assertGreaterEqual(len(rows()), 100)
        self.assertEqual(len({json.dumps(row) for row in rows()}), len(rows()))

    @NEEDS_BOTOCORE
    def test_each_that_needs_no_program_is_found(self):
        model = service_model.model()
        for row in rows():
            if row["file"] not in BUNDLES or row["rule"] in OF_THE_PROGRAM:
                continue
            found = lint.bundle_findings(placed_json.read(planted(row)), model)
            with self.subTest(row=row):
                self.assert_found(row, [json.loads(it.as_json()) for it in found])

    @NEEDS_PROGRAM
    def test_each_that_needs_the_program_is_found_by_the_command(self):
        for row in rows():
            if row["file"] in BUNDLES and row["rule"] not in OF_THE_PROGRAM:
                continue
            with tempfile.TemporaryDirectory() as folder:
                name = f"{folder}/{row['file']}.json"
                with open(name, "w", encoding="utf-8") as file:
                    file.write(planted(row))
                words = [name] if row["file"] in BUNDLES else [f"{FOLDER}/site.json", "--answers", name]
                found, code = findings(*words)
            with self.subTest(row=row):
                self.assert_found(row, found)
                self.assertEqual(code, status.FOUND)

    @NEEDS_BOTOCORE
    def test_bundles_without_mistakes_have_no_finding(self):
        model = service_model.model()
        names = [f"{FOLDER}/{name}.json" for name in BUNDLES] + [f"{program.TOP}/{name}" for name in SHIPPED]
        for name in names:
            found = lint.bundle_findings(json_file.read(name), model)
            self.assertEqual([it.as_line() for it in found], [], name)

    @NEEDS_PROGRAM
    def test_the_command_finds_nothing_without_mistakes(self):
        for name in [f"{FOLDER}/{name}.json" for name in BUNDLES] + [f"{program.TOP}/{name}" for name in SHIPPED]:
            self.assertEqual(findings(name), ([], status.DONE), name)
        shop = f"{program.TOP}/examples/shop"
        self.assertEqual(findings(f"{shop}/bundle.json", "--answers", f"{shop}/answers.json"), ([], status.DONE))
        self.assertEqual(findings(f"{FOLDER}/site.json", "--answers", f"{FOLDER}/answers.json"), ([], status.DONE))
