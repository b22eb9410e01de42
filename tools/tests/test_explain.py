"""The command `explain`: for each code a file that the program refuses so, and what is said of it."""

import importlib.util
import io
import json
import os
import subprocess
import sys
import tempfile
import unittest
from contextlib import redirect_stderr, redirect_stdout
from unittest import mock

from tests import built_program, refused_names, refused_parts, refused_shapes
from tests.waf_fixtures import DRIVER
from wafkit import explain, main, program, status
from wafkit.explain import explanations, refusal

ROWS = refused_shapes.ROWS + refused_names.ROWS + refused_parts.ROWS
ONLY = {"explain": main.COMMANDS["explain"]}


def said(*words, given=""):
    """Runs `wafkit explain` with these words and returns its status and what it printed on both outputs."""
    out, err = io.StringIO(), io.StringIO()
    with mock.patch.dict(main.COMMANDS, ONLY, clear=True), mock.patch("sys.stdin", io.StringIO(given)):
        with redirect_stdout(out), redirect_stderr(err):
            code = main.main(["explain", *words])
    return code, out.getvalue(), err.getvalue()


def plain(text):
    """The explanation with one space between its columns."""
    return [" ".join(line.split()) for line in text.splitlines()]


class Rows(unittest.TestCase):
    def setUp(self):
        folder = tempfile.TemporaryDirectory()
        self.addCleanup(folder.cleanup)
        self.folder = folder.name

    def written(self, row):
        """Writes the files of a row and returns their names by role."""
        names = {}
        for role, content in row.files.items():
            names[role] = os.path.join(self.folder, f"{role}.json")
            with open(names[role], "wb") as file:
                file.write(content if isinstance(content, bytes) else json.dumps(content, indent=1).encode())
        return names

    def test_each_code_has_a_row(self):
        self.assertEqual({row.refusal.split()[2] for row in ROWS}, set(explanations.MEANINGS))
        self.assertEqual(set(explanations.MEANINGS), {f"E{number}" for number in range(14)})

    @unittest.skipUnless(program.is_built(), "needs the built program")
    def test_the_program_refuses_the_files_so(self):
        for row in ROWS:
            with self.subTest(row.name):
                words = [row.command, *self.written(row).values()]
                self.assertEqual(built_program.run(*words), (3, row.refusal.encode() + b"\n"))

    def test_what_is_said(self):
        for row in ROWS:
            with self.subTest(row.name):
                self.assertTrue(row.says)
                names = self.written(row)
                options = [word for role, name in names.items() for word in (f"--{role}", name)]
                code, text, errors = said(*row.refusal.split(), *options)
                self.assertEqual((code, errors), (status.DONE, ""))
                lines = [line.replace(self.folder + os.sep, "") for line in plain(text)]
                self.assertEqual(lines[0], row.refusal)
                for line in row.says:
                    self.assertIn(line, lines)

    @unittest.skipUnless(program.is_built(), "needs the built program")
    def test_the_program_is_run_and_its_refusal_explained(self):
        for row in ROWS:
            with self.subTest(row.name):
                with mock.patch.object(program, "run", built_program.run):
                    code, text, errors = said("--", row.command, *self.written(row).values())
                self.assertEqual((code, errors), (status.DONE, ""))
                lines = [line.replace(self.folder + os.sep, "") for line in plain(text)]
                for line in row.says:
                    self.assertIn(line, lines)

    def test_without_a_file_the_code_is_explained(self):
        for row in ROWS:
            with self.subTest(row.name):
                code, text, errors = said(given=row.refusal + "\n")
                self.assertEqual((code, errors), (status.DONE, ""))
                self.assertIn("means " + explanations.MEANINGS[row.refusal.split()[2]], plain(text))
                self.assertTrue(any(line.startswith("note with --") for line in plain(text)), text)


class Words(unittest.TestCase):
    def test_no_refusal(self):
        for words, given in ((["hello"], ""), ([], ""), (["refused", "bundle"], ""), (["-"], "decision ALLOW\n")):
            code, text, errors = said(*words, given=given)
            self.assertEqual((code, text, errors.count("\n")), (status.USAGE, "", 1))
            self.assertTrue(errors.startswith("wafkit: "))

    def test_a_refusal_is_found_among_other_lines(self):
        found = refusal.read("$ ./wafreview keys b\nrefused log:17 E10 $.httpRequest.clientIp\n")
        self.assertEqual((found.role, found.line, found.code), ("log", 17, "E10"))
        self.assertEqual(found.path, "$.httpRequest.clientIp")

    def test_bytes_on_standard_input_and_output_of_any_encoding(self):
        more = {**os.environ, "PYTHONIOENCODING": "ascii", "PYTHONDONTWRITEBYTECODE": "1"}
        words = [sys.executable, "-c", DRIVER, os.path.join(program.TOP, "tools"), "explain"]
        text = "caf\u00e9\nrefused bundle E4 $.WebACL.Caf\u00e9\n".encode()
        ended = subprocess.run(words, env=more, input=text, capture_output=True, check=False)
        self.assertEqual((ended.returncode, ended.stderr), (0, b""))
        self.assertTrue(ended.stdout.startswith(b"refused bundle E4 $.WebACL.Caf"))

    def test_a_code_alone(self):
        code, text, _ = said("E8", "arn:aws:wafv2:us-east-1:111122223333:global/rulegroup/shared/c1")
        self.assertEqual(code, status.DONE)
        cure = "aws wafv2 get-rule-group --scope CLOUDFRONT --name shared --id c1 --region us-east-1"
        self.assertIn(f"cure put into RuleGroups what this prints: {cure}", plain(text))

    @unittest.skipUnless(importlib.util.find_spec("yaml"), "needs PyYAML")
    def test_yaml(self):
        template = "AWSTemplateFormatVersion: '2010-09-09'\nResources:\n  Acl: !Ref Other\n"
        for text, found, cure in (
            (template, "it is YAML, a CloudFormation template", "wafkit convert makes a bundle of it"),
            ("WebACL:\n  Name: shop\n", "it is YAML", "write it as JSON: aws --output json, or wafkit convert"),
        ):
            with tempfile.NamedTemporaryFile("w", suffix=".yaml") as file:
                file.write(text)
                file.flush()
                code, said_of_it, _ = said("refused", "bundle", "E1", "--bundle", file.name)
                lines = plain(said_of_it)
                self.assertEqual((code, lines[2]), (0, f"where {file.name}:1:1"))
                self.assertEqual(lines[3], f"found a JSON reader says: Expecting value; {found}")
                self.assertTrue(lines[4].startswith(f"cure {cure}"), lines)
                if program.is_built():
                    self.assertEqual(program.run("keys", file.name), (3, b"refused bundle E1\n"))

    def test_not_reviewable(self):
        for reason in explain.REASONS:
            code, text, _ = said("not", "reviewable", "new", reason, "$.WebACL.Rules[2].Statement")
            self.assertEqual(code, status.DONE)
            self.assertIn("rule rule 3 of the web ACL", plain(text))
            self.assertIn("means " + explain.REASONS[reason], plain(text))

    def test_memory(self):
        code, text, _ = said("memory")
        self.assertEqual((code, plain(text)[:2]), (0, ["memory", "means the program found too little memory"]))

    def test_files_that_are_not_read(self):
        with tempfile.TemporaryDirectory() as folder:
            code, text, _ = said("read", "fault", "old", "--old", folder)
            self.assertEqual((code, plain(text)[2]), (0, f"found {folder} is a folder"))
            missing = os.path.join(folder, "none.json")
            code, text, _ = said("read", "fault", "log", "--log", missing)
            self.assertEqual((code, plain(text)[2]), (0, f"found {missing}: No such file or directory"))
            code, text, errors = said("refused", "log:1", "E1", "--log", missing)
            self.assertEqual((code, text), (status.UNREADABLE, ""))
            self.assertEqual(errors, f"wafkit: {missing} can't be read: No such file or directory\n")

    def test_too_long(self):
        with tempfile.NamedTemporaryFile() as file:
            file.truncate(67_108_865)
            code, text, _ = said("too", "long", "log", "--log", file.name)
        self.assertEqual(code, 0)
        self.assertIn(f"found {file.name} has 67108865 bytes", plain(text))
        self.assertIn("allowed at most 67108864 bytes", plain(text))

    def test_usage(self):
        code, text, _ = said("usage:", "wafreview", "evaluate", "BUNDLE")
        self.assertEqual((code, plain(text)[1]), (0, "means the words are no command of the program"))

    @unittest.skipUnless(program.is_built(), "needs the built program")
    def test_words_that_are_no_command(self):
        for words, found in (
            (["capacity"], "capacity and 0 words behind it"),
            (["evaluate", "a", ""], "the word '': a file's name isn't empty and doesn't begin with -"),
            (["generate", "3"], "the command generate, which isn't built yet"),
        ):
            code, text, _ = said("--", *words)
            self.assertEqual(code, 0)
            self.assertTrue(text.startswith("usage: "))
            self.assertIn(f"found {found}", plain(text))

    @unittest.skipUnless(program.is_built(), "needs the built program")
    def test_an_answer_is_printed_as_it_is(self):
        shop = os.path.join(program.TOP, "examples", "shop", "bundle.json")
        self.assertEqual(said("--", "capacity", shop), (status.DONE, "capacity 728\n", ""))

    def test_control_characters_are_never_printed(self):
        with tempfile.NamedTemporaryFile("w", suffix=".json") as file:
            json.dump({"WebACL": {"Name": "\u001b[2J\u009b", "ARN": "\ud800"}}, file)
            file.flush()
            code, text, _ = said("refused", "bundle", "E4", "$.WebACL.Name", "--bundle", file.name)
        self.assertEqual(code, 0)
        self.assertTrue(all(line.isprintable() for line in text.splitlines()), text)


class Robust(unittest.TestCase):
    """No file and no path ends in a traceback."""

    VALUES = (None, True, 1, 1.5, "x", [], {}, [{}], {"WebACL": []}, {"WebACL": {"Rules": [None, 1, {"Priority": {}}]}})

    def test_values_of_any_shape(self):
        paths = ("$", "$.WebACL", "$.WebACL.Rules[1].Statement", "$.RuleGroups[0].Rules[2].Action", "$.x.y[7]")
        values = [*self.VALUES, {"RuleGroups": [None, {"RuleGroup": 1}], "WebACL": {"ARN": 1}}, {"IPSets": 1}]
        with tempfile.TemporaryDirectory() as folder:
            name = os.path.join(folder, "bundle.json")
            for value in values:
                with open(name, "w", encoding="ascii") as file:
                    json.dump(value, file)
                for code in explanations.MEANINGS:
                    for path in paths:
                        detail = {"E5": "3", "E8": "arn", "E1": ""}.get(code, path)
                        with self.subTest(value=value, code=code, path=path):
                            words = f"refused bundle {code} {detail}".split()
                            self.assertEqual(said(*words, "--bundle", name)[0], status.DONE)

    def test_bytes_of_any_kind(self):
        deep = b"[" * 100_000
        more = (b'{"a":' * 5000, b"1" * 5000, b"1e999", b"{a: &a [*a]}", b"a: *b", b"\x1f\x8b")
        for data in (b"", b"\0", b"\xff", deep, *more):
            with tempfile.NamedTemporaryFile() as file, self.subTest(data[:10]):
                file.write(data)
                file.flush()
                self.assertEqual(said("refused", "bundle", "E1", "--bundle", file.name)[0], status.DONE)
