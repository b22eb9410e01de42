"""The command `collect`: its words, and its calls against moto's server, as the AWS CLI makes them."""

import base64
import http.server
import io
import json
import logging
import os
import subprocess
import sys
import tempfile
import threading
import unittest
from contextlib import redirect_stderr
from unittest import mock

from tests.waf_fixtures import DRIVER, VISIBLE, byte_match, client_with, environment, field, has, rule
from wafkit import collect, main, program, references, resource_name, status
from wafkit.collect import progress
from wafkit.fault import Fault

TOOLS = os.path.dirname(os.path.dirname(os.path.realpath(__file__)))


class Words(unittest.TestCase):
    def place(self, *words):
        import argparse

        parser = argparse.ArgumentParser()
        collect.add_arguments(parser)
        return collect.place_of(parser.parse_args(words))

    def test_an_arn_says_name_scope_id_and_region(self):
        found = self.place("--arn", "arn:aws:wafv2:eu-west-1:111122223333:regional/webacl/shop/a1")
        self.assertEqual(found, ({"Name": "shop", "Scope": "REGIONAL", "Id": "a1"}, "eu-west-1"))
        found = self.place("--arn", "arn:aws:wafv2:us-east-1:111122223333:global/webacl/shop/a1")
        self.assertEqual(found, ({"Name": "shop", "Scope": "CLOUDFRONT", "Id": "a1"}, "us-east-1"))

    def test_cloudfront_is_asked_in_us_east_1(self):
        words = ("--name", "shop", "--scope", "CLOUDFRONT", "--id", "a1")
        self.assertEqual(self.place(*words)[1], "us-east-1")
        with self.assertRaisesRegex(Fault, "--region eu-west-1 isn't us-east-1, the region of the scope CLOUDFRONT"):
            self.place(*words, "--region", "eu-west-1")

    def test_words_that_name_no_web_acl(self):
        for words in (
            (),
            ("--name", "shop", "--id", "a1"),
            ("--arn", "arn:aws:wafv2:eu-west-1:111122223333:regional/ipset/office/b1"),
            ("--arn", "arn:aws:s3:::bucket"),
            ("--arn", "arn:aws:wafv2:eu-west-1:111122223333:regional/webacl/shop/a1", "--name", "shop"),
        ):
            with self.assertRaises(Fault) as fault:
                self.place(*words)
            self.assertEqual(fault.exception.code, status.USAGE, words)


class Packages(unittest.TestCase):
    def test_what_is_missing_is_said(self):
        said = io.StringIO()
        gone = {name: None for name in ("boto3", "botocore", "botocore.exceptions")}
        only = {"collect": main.COMMANDS["collect"]}
        with mock.patch.dict(main.COMMANDS, only, clear=True), mock.patch.dict(sys.modules, gone), redirect_stderr(said):
            words = ["collect", "--arn", "arn:aws:wafv2:us-east-1:111122223333:regional/webacl/shop/a1"]
            self.assertEqual(main.main(words), status.MISSING)
        text = "wafkit: collect needs the Python package botocore: python3 -m pip install -r tools/requirements.txt\n"
        self.assertEqual(said.getvalue(), text)


class References(unittest.TestCase):
    def test_all_places_of_a_statement(self):
        ip = {"IPSetReferenceStatement": {"ARN": "ip"}}
        patterns = {"RegexPatternSetReferenceStatement": {"ARN": "patterns"}}
        managed = {"VendorName": "AWS", "Name": "M", "ScopeDownStatement": {"NotStatement": {"Statement": ip}}}
        rules = [
            {"Statement": {"AndStatement": {"Statements": [{"OrStatement": {"Statements": [ip, patterns]}}]}}},
            {"Statement": {"RateBasedStatement": {"Limit": 10, "ScopeDownStatement": patterns}}},
            {"Statement": {"ManagedRuleGroupStatement": managed}},
            {"Statement": {"RuleGroupReferenceStatement": {"ARN": "group"}}},
        ]
        found = [(each.wanted, each.arn, each.path) for each in references.of_rules(rules, "$.WebACL.Rules")]
        parts = "$.WebACL.Rules[0].Statement.AndStatement.Statements[0].OrStatement.Statements"
        scope_down = "ScopeDownStatement"
        self.assertEqual(
            found,
            [
                ("IPSets", "ip", parts + "[0].IPSetReferenceStatement"),
                ("RegexPatternSets", "patterns", parts + "[1].RegexPatternSetReferenceStatement"),
                (
                    "RegexPatternSets",
                    "patterns",
                    f"$.WebACL.Rules[1].Statement.RateBasedStatement.{scope_down}.RegexPatternSetReferenceStatement",
                ),
                (None, None, "$.WebACL.Rules[2].Statement.ManagedRuleGroupStatement"),
                (
                    "IPSets",
                    "ip",
                    f"$.WebACL.Rules[2].Statement.ManagedRuleGroupStatement.{scope_down}"
                    ".NotStatement.Statement.IPSetReferenceStatement",
                ),
                ("RuleGroups", "group", "$.WebACL.Rules[3].Statement.RuleGroupReferenceStatement"),
            ],
        )


@unittest.skipUnless(has("boto3", "moto", "flask"), "needs boto3 and moto with its server")
class Moto(unittest.TestCase):
    """A web ACL with an IP set, a pattern set and a rule group that has sets of its own, in moto's server."""

    @classmethod
    def setUpClass(cls):
        from moto.server import ThreadedMotoServer

        # Its server logs each call there.
        logging.getLogger("werkzeug").setLevel(logging.ERROR)
        cls.server = ThreadedMotoServer(ip_address="127.0.0.1", port=0, verbose=False)
        cls.server.start()
        host, port = cls.server.get_host_and_port()
        cls.home = tempfile.TemporaryDirectory()
        cls.url = f"http://{host}:{port}"
        cls.environment = environment(
            cls.home.name, AWS_ENDPOINT_URL=cls.url, AWS_ACCESS_KEY_ID="testing", AWS_SECRET_ACCESS_KEY="testing"
        )
        cls.acls = {}
        for scope in ("REGIONAL", "CLOUDFRONT"):
            cls.acls[scope] = cls.made(client_with(endpoint_url=cls.url), scope)

    @classmethod
    def tearDownClass(cls):
        cls.server.stop()
        cls.home.cleanup()

    @classmethod
    def made(cls, client, scope):
        def ip_set(name):
            made = client.create_ip_set(Name=name, Scope=scope, IPAddressVersion="IPV4", Addresses=["192.0.2.0/24"])
            return {"IPSetReferenceStatement": {"ARN": made["Summary"]["ARN"]}}

        patterns = client.create_regex_pattern_set(
            Name="bots", Scope=scope, RegularExpressionList=[{"RegexString": "^bot"}]
        )
        group = client.create_rule_group(
            Name="shared",
            Scope=scope,
            Capacity=50,
            VisibilityConfig=VISIBLE,
            Rules=[rule("inner", 0, {"NotStatement": {"Statement": ip_set("inner")}}, Action={"Block": {}})],
        )["Summary"]["ARN"]
        reference = {"RegexPatternSetReferenceStatement": field({"ARN": patterns["Summary"]["ARN"]})}
        rate = {"Limit": 100, "AggregateKeyType": "IP", "ScopeDownStatement": ip_set("office")}
        # Moto gives a pattern set of CLOUDFRONT the ARN of a regional one.
        parts = [reference, byte_match(b"x")] if scope == "REGIONAL" else [byte_match(b"y"), byte_match(b"x")]
        rules = [
            rule("bytes", 0, byte_match(b"/\xffadmin\xc3\xa9"), Action={"Block": {}}),
            rule("both", 1, {"AndStatement": {"Statements": parts}}, Action={"Count": {}}),
            rule("rate", 2, {"RateBasedStatement": rate}, Action={"Block": {}}),
            rule("group", 3, {"RuleGroupReferenceStatement": {"ARN": group}}, OverrideAction={"None": {}}),
        ]
        return client.create_web_acl(
            Name="shop", Scope=scope, DefaultAction={"Allow": {}}, VisibilityConfig=VISIBLE, Rules=rules
        )["Summary"]

    def collected(self, *words, **more):
        return subprocess.run(
            [sys.executable, "-c", DRIVER, TOOLS, "collect", *words],
            env={**self.environment, **more},
            stdin=subprocess.DEVNULL,
            capture_output=True,
            check=False,
        )

    def printed(self, call, arn):
        """What the AWS CLI prints of what has that ARN."""
        name = resource_name.read(arn)
        words = ["--region", "us-east-1", call, "--name", name.name, "--scope", name.scope, "--id", name.id]
        words = [sys.executable, "-m", "awscli", "--output", "json", "wafv2", *words]
        said = subprocess.run(words, env=self.environment, stdin=subprocess.DEVNULL, capture_output=True, check=True)
        return json.loads(said.stdout)

    @unittest.skipUnless(has("awscli"), "needs the AWS CLI")
    def test_the_parts_are_what_the_cli_prints(self):
        acl = self.acls["REGIONAL"]
        said = self.collected("--region", "us-east-1", "--name", "shop", "--scope", "REGIONAL", "--id", acl["Id"])
        self.assertEqual((said.returncode, said.stderr), (0, b""))
        bundle = json.loads(said.stdout)
        own = {name: value for name, value in bundle.items() if name in ("WebACL", "LockToken")}
        self.assertEqual(own, self.printed("get-web-acl", acl["ARN"]))
        self.assertEqual(list(bundle), ["WebACL", "LockToken", "IPSets", "RegexPatternSets", "RuleGroups"])
        for kind, call in (
            ("IPSet", "get-ip-set"),
            ("RegexPatternSet", "get-regex-pattern-set"),
            ("RuleGroup", "get-rule-group"),
        ):
            for found in bundle[kind + "s"]:
                self.assertEqual(found, self.printed(call, found[kind]["ARN"]))
        self.assertEqual([found["IPSet"]["Name"] for found in bundle["IPSets"]], ["office", "inner"])

    def test_blobs_are_canonical_base64(self):
        said = self.collected("--arn", self.acls["REGIONAL"]["ARN"])
        search = json.loads(said.stdout)["WebACL"]["Rules"][0]["Statement"]["ByteMatchStatement"]["SearchString"]
        self.assertEqual(search, base64.b64encode(b"/\xffadmin\xc3\xa9").decode())

    def test_cloudfront(self):
        acl = self.acls["CLOUDFRONT"]
        said = self.collected("--name", "shop", "--scope", "CLOUDFRONT", "--id", acl["Id"])
        self.assertEqual((said.returncode, said.stderr), (0, b""))
        bundle = json.loads(said.stdout)
        self.assertEqual(bundle["WebACL"]["ARN"], acl["ARN"])
        self.assertEqual(len(bundle["IPSets"]), 2)

    @unittest.skipUnless(program.is_built(), "needs the built program")
    def test_the_program_takes_the_bundle_as_it_stands(self):
        said = self.collected("--arn", self.acls["REGIONAL"]["ARN"])
        with tempfile.TemporaryDirectory() as folder:
            path = os.path.join(folder, "bundle.json")
            with open(path, "wb") as file:
                file.write(said.stdout)
            # 10 (contains) + 25 + 10 + 2 + 1 + 50
            self.assertEqual(program.run("capacity", path), (0, b"capacity 98\n"))

    def test_a_web_acl_that_is_not_there(self):
        said = self.collected("--arn", "arn:aws:wafv2:us-east-1:123456789012:regional/webacl/none/a1")
        self.assertEqual((said.returncode, said.stdout), (status.SERVICE, b""))
        self.assertRegex(said.stderr.decode(), r"\Awafkit: .*WAFNonexistentItemException.*GetWebACL.*\n\Z")

    def test_no_credentials(self):
        words = ("--arn", "arn:aws:wafv2:us-east-1:111122223333:regional/webacl/shop/a1")
        said = self.collected(*words, AWS_ACCESS_KEY_ID="", AWS_SECRET_ACCESS_KEY="")
        self.assertEqual((said.returncode, said.stdout), (status.SERVICE, b""))
        self.assertEqual(said.stderr.decode(), "wafkit: Unable to locate credentials\n")

    def test_no_region_and_no_profile(self):
        said = self.collected("--name", "shop", "--scope", "REGIONAL", "--id", "a1")
        self.assertEqual((said.returncode, said.stderr), (status.SERVICE, b"wafkit: You must specify a region.\n"))
        said = self.collected("--name", "shop", "--scope", "REGIONAL", "--id", "a1", "--profile", "none")
        self.assertEqual(said.returncode, status.SERVICE)
        self.assertEqual(said.stderr.decode(), "wafkit: The config profile (none) could not be found\n")

    def test_an_endpoint_that_is_none(self):
        said = self.collected("--arn", self.acls["REGIONAL"]["ARN"], AWS_ENDPOINT_URL="no-url")
        self.assertEqual((said.returncode, said.stderr), (status.SERVICE, b"wafkit: Invalid endpoint: no-url\n"))

    def test_a_service_that_answers_something_else(self):
        class Page(http.server.BaseHTTPRequestHandler):
            def do_POST(self):
                self.send_response(200)
                self.end_headers()
                self.wfile.write(b"<html>log in first</html>")

            def log_message(self, *_):
                pass

        with http.server.HTTPServer(("127.0.0.1", 0), Page) as server:
            thread = threading.Thread(target=server.serve_forever)
            thread.start()
            try:
                url = f"http://127.0.0.1:{server.server_port}"
                said = self.collected("--arn", self.acls["REGIONAL"]["ARN"], AWS_ENDPOINT_URL=url)
            finally:
                server.shutdown()
                thread.join()
        self.assertEqual((said.returncode, said.stdout), (status.SERVICE, b""))
        self.assertRegex(said.stderr.decode(), r"\Awafkit: [^\n]+\n\Z")

    def test_a_service_that_cannot_be_reached(self):
        arn = self.acls["REGIONAL"]["ARN"]
        said = self.collected("--arn", arn, AWS_ENDPOINT_URL="http://127.0.0.1:9/")
        self.assertEqual((said.returncode, said.stdout), (status.SERVICE, b""))
        self.assertRegex(said.stderr.decode(), r"\Awafkit: Could not connect to the endpoint URL: .*\n\Z")


class Text(unittest.TestCase):
    def test_dates_are_those_of_the_cli(self):
        import datetime

        date = datetime.datetime(2026, 12, 2, 1, 2, 3, tzinfo=datetime.timezone.utc)
        self.assertEqual(json.loads(collect.text_of({"At": date})), {"At": "2026-12-02T01:02:03+00:00"})


class Progress(unittest.TestCase):
    def test_none_without_a_terminal(self):
        with redirect_stderr(io.StringIO()):
            self.assertIs(type(progress.shown()), progress.Silent)

    @unittest.skipUnless(has("rich"), "needs rich")
    def test_a_bar_by_rich(self):
        from rich import console, progress as rich_progress

        bar = progress.Shown(rich_progress, console)
        with redirect_stderr(io.StringIO()), bar:
            bar.found(2)
            bar.reading("one")
        self.assertEqual((bar.bar.tasks[0].total, bar.bar.tasks[0].completed), (2, 1))
