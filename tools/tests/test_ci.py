"""The recipe of docs/CI.md: its shell, run, and its workflow, read."""

import importlib.util
import os
import re
import subprocess
import unittest

from wafkit import program

from . import log_fixtures as fixtures

SHOP = f"{program.TOP}/examples/shop"


def block(language):
    with open(f"{program.TOP}/docs/CI.md", encoding="utf-8") as file:
        found = re.findall(rf"^```{language}\n(.*?)^```$", file.read(), re.MULTILINE | re.DOTALL)
    if len(found) != 1:
        raise AssertionError(f"docs/CI.md has {len(found)} blocks of {language}")
    return found[0]


@unittest.skipUnless(program.is_built(), "the program isn't built")
class Shell(unittest.TestCase):
    def setUp(self):
        self.folder = fixtures.Folder(self)
        self.script = self.folder.text("impact.sh", block("sh"))

    def ran(self, *words, **more):
        """Returns the status, what was printed, and the comment."""
        environment = {**os.environ, "WAFKIT": f"{program.TOP}/wafkit", **more}
        ended = subprocess.run(
            ["sh", self.script, *words], cwd=self.folder.path, env=environment, capture_output=True, text=True, check=False
        )
        with open(os.path.join(self.folder.path, "comment.md"), encoding="utf-8") as file:
            return ended.returncode, ended.stdout + ended.stderr, file.read()

    def test_nothing_changes(self):
        code, printed, comment = self.ran(f"{SHOP}/bundle.json", f"{SHOP}/bundle.json", f"{SHOP}/log")
        self.assertEqual((code, printed), (0, "every logged request is decided as before\n"))
        self.assertIn("### None of 4 requests is decided otherwise", comment)

    def test_something_changes(self):
        words = (f"{SHOP}/bundle.json", f"{SHOP}/next.json", f"{SHOP}/log")
        code, printed, comment = self.ran(*words)
        self.assertEqual((code, printed[:37]), (0, "some logged requests are decided othe"))
        self.assertIn("### 2 of 4 requests are decided otherwise", comment)
        self.assertEqual(self.ran(*words, FAIL_ON_CHANGE="1")[0], 1)

    def test_wrong_words(self):
        code, printed, comment = self.ran(f"{SHOP}/bundle.json")
        self.assertEqual((code, comment), (2, ""))
        self.assertIn("the words of this script are wrong", printed)

    def test_faults(self):
        torn = self.folder.text("torn", "{\n")
        code, printed, comment = self.ran(f"{SHOP}/bundle.json", f"{SHOP}/next.json", torn, f"{SHOP}/log")
        self.assertEqual(code, 3)
        self.assertIn("there is no whole answer: status 3", printed)
        self.assertIn("### 2 of 4 requests are decided otherwise", comment)
        code, printed, _ = self.ran(f"{SHOP}/none.json", f"{SHOP}/next.json", f"{SHOP}/log")
        self.assertEqual((code, printed.splitlines()[-1]), (6, "there is no whole answer: status 6"))


@unittest.skipUnless(importlib.util.find_spec("yaml"), "PyYAML isn't installed")
class Workflow(unittest.TestCase):
    def test_no_text_of_a_pull_request_stands_in_a_command(self):
        import yaml

        steps = yaml.safe_load(block("yaml"))["jobs"]["impact"]["steps"]
        commands = [step["run"] for step in steps if "run" in step]
        self.assertEqual(len(commands), 3)
        for command in commands:
            self.assertNotIn("${{", command)
        self.assertIn("sh waf/impact.sh old.json waf/bundle.json waf/logs", commands)


if __name__ == "__main__":
    unittest.main()
