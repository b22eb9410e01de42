"""What a change does to logs, against the program."""

import gzip
import html.parser
import importlib.util
import json
import os
import unittest
from unittest import mock

from wafkit import program
from wafkit.impact import chunk, workers
from wafkit.logs import log_file, unseen_parts

from . import log_fixtures as fixtures
from .log_fixtures import geography, group, managed, matched, path_match, rate, record, request, rule, sqli

SHOP = f"{program.TOP}/examples/shop"


@unittest.skipUnless(program.is_built(), "the program isn't built")
class Impact(unittest.TestCase):
    def setUp(self):
        self.folder = fixtures.Folder(self)

    def impact(self, old, new, *logs, words=()):
        """Returns status, the lines of standard output and those of standard error."""
        paths = [self.folder.json(name, one) if isinstance(one, dict) else one for name, one in (("old", old), ("new", new))]
        code, out, errors = fixtures.wafkit("impact", *paths, *logs, *words)
        return code, out.splitlines(), errors.splitlines()


class Decisions(Impact):
    def test_the_shop(self):
        """The lines and decisions are those that README shows of the program."""
        code, out, _ = self.impact(f"{SHOP}/bundle.json", f"{SHOP}/next.json", f"{SHOP}/log")
        self.assertEqual(code, 1)
        self.assertEqual(
            out,
            [
                f"{SHOP}/log:3 old BLOCK 403 rule 4 admin new BLOCK 404 rule 4 admin",
                f"{SHOP}/log:5 old ALLOW rule default new BLOCK 403 rule 5 scanners",
                "summary lines 1 country US old ALLOW rule default new BLOCK 403 rule 5 scanners",
                "summary lines 1 country US old BLOCK 403 rule 4 admin new BLOCK 404 rule 4 admin",
                "impact logs 1 lines 4 changed 2 not known 0",
            ],
        )

    def test_equal_revisions_change_nothing(self):
        code, out, errors = self.impact(f"{SHOP}/bundle.json", f"{SHOP}/bundle.json", f"{SHOP}/log")
        self.assertEqual((code, out, errors), (0, ["impact logs 1 lines 4 changed 0 not known 0"], []))

    def test_a_change_of_geography_labels_and_groups_is_reported_for_the_lines_that_it_changes(self):
        label = "awswaf:managed:aws:core-rule-set:NoUserAgent_Header"
        asks = {"LabelMatchStatement": {"Scope": "LABEL", "Key": label}}
        common = rule("common", 1, managed(), "Count")
        old = fixtures.bundle(rule("geo", 0, geography("CN")), common)
        new = fixtures.bundle(rule("geo", 0, geography("CN", "RU")), common, rule("agents", 2, asks, "Captcha"))
        blocked = [group(matched("NoUserAgent_HEADER", "BLOCK"))]
        log = self.folder.log(
            "log",
            record(groups=[group()]),
            record("geo", "BLOCK", of=request(country="CN")),
            record(groups=[group()], of=request(country="RU")),
            record(counted=["common"], groups=blocked, labels=[label]),
        )
        code, out, _ = self.impact(old, new, log)
        self.assertEqual(code, 1)
        self.assertEqual(out[0], f"{log}:3 old ALLOW rule default new BLOCK 403 rule 0 geo")
        self.assertEqual(out[1], f"{log}:4 old ALLOW rule default new CAPTCHA rule 2 agents")
        self.assertEqual(out[-1], "impact logs 1 lines 4 changed 2 not known 0")

    def test_what_the_log_can_not_answer_is_not_known(self):
        """Under a lower limit a line may be over it; one that an earlier rule ends is not."""
        early = rule("early", 0, path_match("/x"))
        old, new = (fixtures.bundle(early, rule("flood", 1, rate(limit))) for limit in (2000, 100))
        log = self.folder.log("log", record(), record("early", "BLOCK", of=request("/x")))
        code, out, _ = self.impact(old, new, log)
        self.assertEqual(code, 1)
        key = '{"Group":"","Rule":"flood","Statement":{"RateBasedStatement":{"AggregateKeyType":"IP","EvaluationWindowSec":300,"Limit":100}}}'
        wanted = [f"{log}:1 not known", f"not known lines 1 statement {key}", "impact logs 1 lines 2 changed 0 not known 1"]
        self.assertEqual(out, wanted)

    def test_an_open_question_that_decides_nothing_leaves_a_line_known(self):
        """An unanswered statement in front of a rule that both have: whatever its truth is, both decide alike; and where the
        change is behind it, it may matter."""
        unread = record(nonTerminatingMatchingRules=None)
        both = [rule("sqli", 0, sqli(), "Count")]
        old = fixtures.bundle(*both)
        log = self.folder.log("log", unread)
        code, out, _ = self.impact(old, fixtures.bundle(*both, rule("x", 1, path_match("/x"))), log)
        self.assertEqual((code, out), (0, ["impact logs 1 lines 1 changed 0 not known 0"]))
        code, out, _ = self.impact(old, fixtures.bundle(*both, rule("x", 1, path_match("/"))), log)
        self.assertEqual((code, out[0]), (1, f"{log}:1 old ALLOW rule default new BLOCK 403 rule 1 x"))
        code, out, _ = self.impact(old, fixtures.bundle(rule("sqli", 0, sqli())), log)
        self.assertEqual((code, out[0]), (1, f"{log}:1 not known"))

    def test_the_rules_of_a_change_are_told_under_all_answers(self):
        """Both statements lead to one decision by two rules: both rules are named."""
        old = fixtures.bundle(rule("none", 5, path_match("/none")))
        new = fixtures.bundle(rule("sqli", 0, sqli()), rule("all", 1, path_match("/")))
        log = self.folder.log("log", record())
        code, out, _ = self.impact(old, new, log)
        self.assertEqual((code, out[0]), (1, f"{log}:1 old ALLOW rule default new BLOCK 403 rule 0 sqli or 1 all"))

    def test_more_possible_answers_than_are_tried_are_not_known(self):
        groups = [managed(name) for name in ("One", "Two", "Three")]
        old = fixtures.bundle(rule("end", 0, path_match("/")), *(rule(f"g{place}", 1 + place, it, "None") for place, it in enumerate(groups)))
        new = fixtures.bundle(*(rule(f"g{place}", 1 + place, it, "None") for place, it in enumerate(groups)))
        code, out, _ = self.impact(old, new, self.folder.log("log", record("end", "BLOCK")))
        self.assertEqual((code, out[-1]), (1, "impact logs 1 lines 1 changed 0 not known 1"))

    def test_an_unanswered_group_may_add_the_labels_that_are_asked_for(self):
        """Its verdict is counted, so that only its labels decide."""
        asks = {"LabelMatchStatement": {"Scope": "NAMESPACE", "Key": "awswaf:managed:aws:bot-control"}}
        bots = rule("bots", 1, managed("AWSManagedRulesBotControlRuleSet"), "Count")
        old = fixtures.bundle(rule("end", 0, path_match("/")), bots)
        new = fixtures.bundle(bots, rule("label", 2, asks))
        log = self.folder.log("log", record("end", "BLOCK"))
        self.assertEqual(self.impact(old, new, log)[1][0], f"{log}:1 not known")
        log = self.folder.log("log", record("end", "BLOCK"))
        code, out, _ = self.impact(old, fixtures.bundle(bots), log)
        self.assertEqual((code, out[0]), (1, f"{log}:1 old BLOCK 403 rule 0 end new ALLOW rule default"))


class Bodies(Impact):
    """The service logs no bodies."""

    def looks(self, name, priority, text="bad", action="Block"):
        body = path_match(text, "CONTAINS")["ByteMatchStatement"]
        return rule(name, priority, {"ByteMatchStatement": {**body, "FieldToMatch": {"Body": {}}}}, action)

    def post(self, end="Default_Action", action="ALLOW", size=10, **more):
        return record(end, action, of=request(httpMethod="POST", **more), requestBodySize=size)

    def test_a_new_rule_on_the_body_is_not_known_for_requests_that_had_one(self):
        old, new = fixtures.bundle(self.looks("a", 1)), fixtures.bundle(self.looks("a", 1, "worse"))
        log = self.folder.log("log", self.post(), self.post(size=0), record(), self.post(body="d29yc2U="))
        code, out, _ = self.impact(old, new, log)
        self.assertEqual(code, 1)
        wanted = [f"{log}:1 not known", f"{log}:4 old ALLOW rule default new BLOCK 403 rule 1 a"]
        self.assertEqual(out[:2], wanted)
        self.assertEqual(out[-2:], ["not known lines 1 request body", "impact logs 1 lines 4 changed 1 not known 1"])

    def test_a_rule_on_the_body_that_both_have_is_told_by_the_log(self):
        """It didn't match, or did; the change stands behind it."""
        old = fixtures.bundle(self.looks("a", 1))
        new = fixtures.bundle(self.looks("a", 1), rule("b", 2, path_match("/b")))
        log = self.folder.log("log", self.post(), self.post(uri="/b"), self.post("a", "BLOCK", uri="/b"))
        code, out, _ = self.impact(old, new, log)
        self.assertEqual((code, out[0]), (1, f"{log}:2 old ALLOW rule default new BLOCK 403 rule 2 b"))
        self.assertEqual(out[-1], "impact logs 1 lines 3 changed 1 not known 0")

    def test_a_rule_on_the_body_that_did_not_match_and_one_that_did_are_replayed_so(self):
        """An absent body is shorter than a limit, and holds no text: the log says otherwise."""
        size = {"FieldToMatch": {"Body": {}}, "ComparisonOperator": "LE", "Size": 5, "TextTransformations": []}
        short = rule("short", 0, {"SizeConstraintStatement": size})
        counts = {**self.looks("counts", 1, action="Count"), "RuleLabels": [{"Name": "seen"}]}
        asks = {"LabelMatchStatement": {"Scope": "LABEL", "Key": "seen"}}
        old = fixtures.bundle(short, counts)
        new = fixtures.bundle(short, counts, rule("label", 2, asks))
        line = self.post()
        line["nonTerminatingMatchingRules"] = [matched("counts", "COUNT")]
        log = self.folder.log("log", line, self.post())
        code, out, _ = self.impact(old, new, log)
        self.assertEqual((code, out[0]), (1, f"{log}:1 old ALLOW rule default new BLOCK 403 rule 2 label"))
        self.assertEqual(out[-1], "impact logs 1 lines 2 changed 1 not known 0")


class UnseenParts(Impact):
    """Labels that the service adds by itself, and what it redacts, aren't what the program sees in a line."""

    def test_a_label_of_the_service_is_told_by_rules_alone(self):
        asks = rule("label", 1, {"LabelMatchStatement": {"Scope": "LABEL", "Key": "awswaf:clientip:geo:country:RU"}})
        old = fixtures.bundle(rule("geo", 0, geography("CN"), "Count"))
        both = fixtures.bundle(rule("geo", 0, geography("CN"), "Count"), asks)
        log = self.folder.log("log", record(labels=["awswaf:clientip:geo:country:US"]), record("label", "BLOCK"))
        code, out, _ = self.impact(old, both, log)
        self.assertEqual((code, out[-2]), (1, "not known lines 2 request labels of the service"))
        code, out, _ = self.impact(both, both, log)
        self.assertEqual((code, out), (0, ["impact logs 1 lines 2 changed 0 not known 0"]))
        code, out, _ = self.impact(both, old, log)
        self.assertEqual((code, out[0]), (1, f"{log}:2 old BLOCK 403 rule 1 label new ALLOW rule default"))
        self.assertEqual(out[-1], "impact logs 1 lines 2 changed 1 not known 0")

    def test_a_namespace_that_holds_labels_of_the_service(self):
        for key, scope, asked in (
            ("awswaf:clientip", "NAMESPACE", True),
            ("awswaf:", "NAMESPACE", True),
            ("awswaf:managed:", "NAMESPACE", False),
            ("awswaf:", "LABEL", False),
            ("geo", "LABEL", False),
        ):
            statement = {"NotStatement": {"Statement": {"LabelMatchStatement": {"Scope": scope, "Key": key}}}}
            found = unseen_parts.parts(statement)
            self.assertEqual(found, {unseen_parts.LABELS} if asked else set(), key)

    def test_what_is_redacted_is_not_taken_for_what_the_log_has(self):
        old = fixtures.bundle()
        agents = path_match("bad")["ByteMatchStatement"]
        agents["FieldToMatch"] = {"SingleHeader": {"Name": "User-Agent"}}
        new = fixtures.bundle(rule("path", 0, path_match("/a")), rule("agents", 1, {"ByteMatchStatement": agents}))
        log = self.folder.log(
            "log",
            record(of=request("REDACTED")),
            record(of=request("/a", headers=[("user-agent", "REDACTED")])),
            record(of=request("/b", headers=[("user-agent", "REDACTED")])),
            record(of=request("/b", headers=[("cookie", "REDACTED")])),
        )
        code, out, _ = self.impact(old, new, log)
        self.assertEqual(code, 1)
        places = [f"{log}:1 not known", f"{log}:2 old ALLOW rule default new BLOCK 403 rule 0 path", f"{log}:3 not known"]
        self.assertEqual(out[:3], places)
        self.assertEqual(out[-3:-1], ["not known lines 1 request header user-agent", "not known lines 1 request uri"])


class Files(Impact):
    OLD = fixtures.bundle(rule("geo", 0, geography("CN")))
    NEW = fixtures.bundle(rule("geo", 0, geography("CN", "RU")))

    def some_records(self, count):
        return [record(of=request(country=("US", "RU", "DE")[place % 3], uri=f"/{place}")) for place in range(count)]

    def test_a_file_with_a_fault_is_named_and_the_others_go_on(self):
        good = self.folder.log("good", *self.some_records(3))
        bad = self.folder.text("bad", json.dumps(self.some_records(2)[1]) + "\n\n" + '{"httpRequest":{"uri":"/"}}\n')
        torn = self.folder.text("torn", "{\n")
        other = self.folder.log("other", *self.some_records(3))
        code, out, errors = self.impact(self.OLD, self.NEW, good, bad, torn, f"{good}x", other)
        self.assertEqual(code, 3)
        self.assertEqual([line.split(" ")[0] for line in out[:2]], [f"{good}:2", f"{other}:2"])
        self.assertEqual(out[-1], "impact logs 2 lines 6 changed 2 not known 0")
        self.assertEqual(
            errors,
            [
                f"wafkit: {bad}: line 3: refused E2 $.httpRequest.httpMethod",
                f"wafkit: {torn}: line 1: refused E1",
                f"wafkit: {good}x: can't be read: No such file or directory",
            ],
        )

    def test_many_files_end_as_one_file_of_all_lines(self):
        records = self.some_records(60)
        one = self.folder.log("one", *records)
        for place in range(20):
            self.folder.log(f"many/{place:02}", *records[3 * place : 3 * place + 3])
        _, whole, _ = self.impact(self.OLD, self.NEW, one)
        _, parts, _ = self.impact(self.OLD, self.NEW, os.path.join(self.folder.path, "many"))
        self.assertEqual(len(whole), 22)
        self.assertEqual(whole[-2], "summary lines 20 country RU old ALLOW rule default new BLOCK 403 rule 0 geo")
        self.assertEqual(whole[-2], parts[-2])
        self.assertEqual(parts[-1], "impact logs 20 lines 60 changed 20 not known 0")
        self.assertEqual([line.rsplit(":", 1)[1].split(" ")[0] for line in parts[:20]], ["2"] * 20)

    def test_pieces_of_a_file_and_processes_end_as_the_whole(self):
        """Cut into pieces of about 1,000 bytes, which are replayed by several processes."""
        one = self.folder.log("one", *self.some_records(60))
        bad = self.folder.text("bad", "".join(json.dumps(it) + "\n" for it in self.some_records(20)) + "{\n")
        _, whole, _ = self.impact(self.OLD, self.NEW, one)
        with mock.patch.object(chunk, "chunk_size", lambda *_: 1000):
            code, parts, errors = self.impact(self.OLD, self.NEW, one, bad, one)
        self.assertEqual(parts[:20], whole[:20])
        self.assertEqual(parts[20:40], whole[:20])
        self.assertEqual((code, parts[-1]), (3, "impact logs 2 lines 120 changed 40 not known 0"))
        self.assertEqual(errors, [f"wafkit: {bad}: line 21: refused E1"])

    def test_places_are_beginnings_of_lines(self):
        path = self.folder.text("lines", "".join(f"{'x' * (place % 7)}\n" for place in range(100)) + "end")
        for size in (1, 5, 50, 1000):
            found = [line for begin, end in log_file.places(path, size) for line in log_file.lines(path, begin, end)]
            self.assertEqual(found, list(log_file.lines(path)), size)

    def test_parts_of_a_chunk_end_as_the_whole(self):
        one = self.folder.log("one", *self.some_records(60))
        _, whole, _ = self.impact(self.OLD, self.NEW, one)
        with mock.patch.object(chunk, "PART", 1000):
            self.assertEqual(self.impact(self.OLD, self.NEW, one)[1], whole)

    def test_a_packed_log(self):
        plain = self.folder.log("plain", *self.some_records(3))
        with open(plain, "rb") as file, gzip.open(f"{plain}.gz", "wb") as packed:
            packed.write(file.read())
        _, out, _ = self.impact(self.OLD, self.NEW, f"{plain}.gz")
        self.assertEqual(out[0], f"{plain}.gz:2 old ALLOW rule default new BLOCK 403 rule 0 geo")
        with open(f"{plain}.gz", "r+b") as packed:
            packed.truncate(40)
        self.assertEqual(self.impact(self.OLD, self.NEW, f"{plain}.gz")[0], 3)

    def test_calls_are_few(self):
        """Two files whose lines have two sets of answers: two calls for the changes, and two for the rules of each."""
        logs = [self.folder.log(f"log{place}", *self.some_records(30)) for place in range(2)]
        with mock.patch("wafkit.program.subprocess.run", wraps=__import__("subprocess").run) as calls:
            self.impact(self.OLD, self.NEW, *logs)
        words = [call.args[0][1] for call in calls.call_args_list]
        self.assertEqual(words.count("impact"), 2)
        self.assertEqual(words.count("evaluate"), 20)

    def test_statuses_of_bundles_are_the_program_s(self):
        log = self.folder.log("log", record())
        code, _, errors = self.impact(self.folder.path + "/none", self.NEW, log)
        self.assertEqual((code, errors), (6, [f"wafkit: {self.folder.path}/none: the program printed read fault bundle"]))
        code, _, errors = self.impact(self.OLD, self.folder.text("torn.json", "{"), log)
        self.assertEqual((code, errors), (3, [f"wafkit: {self.folder.path}/torn.json: the program printed refused bundle E1"]))


class Reports(Impact):
    HOSTILE = "/<script>alert(1)</script>|`*_[x](y)@z\n\x1b[31m&amp;"

    def setUp(self):
        super().setUp()
        line = record(of=request(country="RU", uri=self.HOSTILE))
        self.log = self.folder.log("log", line, record(nonTerminatingMatchingRules=None, of=request(uri=self.HOSTILE)))
        self.old, self.new = Files.OLD, fixtures.bundle(rule("geo", 0, geography("RU")), rule("flood", 1, rate(100)))

    def report(self, word):
        code, out, errors = self.impact(self.old, self.new, self.log, words=(word,))
        self.assertEqual((code, errors), (1, []))
        return "\n".join(out)

    def test_json(self):
        found = json.loads(self.report("--json"))
        self.assertEqual([found[name] for name in ("logs", "lines", "changed", "notKnown", "faults")], [1, 2, 1, 1, []])
        self.assertEqual(found["events"][0]["new"], {"decision": "BLOCK 403", "rule": "0 geo"})
        self.assertEqual((found["events"][0]["uri"], found["events"][0]["line"]), (self.HOSTILE, 1))
        self.assertEqual(found["events"][1]["notKnown"][0][:9], "statement")
        self.assertEqual(found["summary"][0]["lines"], 1)

    def test_markdown_has_no_sign_of_a_request_that_means_something(self):
        found = self.report("--markdown")
        self.assertIn("### 1 of 2 requests are decided otherwise, and of 1 it isn't known", found)
        request_line = next(line for line in found.splitlines() if "script" in line)
        self.assertIn("GET /&#60;script&#62;alert&#40;1&#41;&#60;/script&#62;&#124;&#96;&#42;&#95;", request_line)
        for sign in ("<script", "`", "*", "[x]", "@", "\x1b"):
            self.assertNotIn(sign, found)
        self.assertEqual(request_line.count("|"), 5)

    def test_html_is_one_page_without_what_a_request_says_as_markup(self):
        page = self.report("--html")
        tags = Tags()
        tags.feed(page)
        self.assertNotIn("script", tags.found)
        self.assertEqual(tags.links, [])
        self.assertIn("<h1>1 of 2 requests are decided otherwise, and of 1 it isn&#x27;t known</h1>", page)
        self.assertIn('<div class="fill" style="width:100.0%">', page)
        self.assertIn("GET /&lt;script&gt;alert(1)&lt;/script&gt;|`*_[x](y)@z\\n\\x1b[31m&amp;amp;", page)

    def test_text_of_a_file_name_stays_on_its_line(self):
        log = self.folder.log("a\nb", record(of=request(country="RU")))
        code, out, _ = self.impact(Files.OLD, Files.NEW, log)
        self.assertEqual((code, out[0].endswith("/a\\nb:1 old ALLOW rule default new BLOCK 403 rule 0 geo")), (1, True))


class Tags(html.parser.HTMLParser):
    def __init__(self):
        super().__init__()
        self.found, self.links = set(), []

    def handle_starttag(self, tag, attributes):
        self.found.add(tag)
        self.links += [value for name, value in attributes if name in ("src", "href")]


@unittest.skipUnless(importlib.util.find_spec("distributed"), "distributed isn't installed")
class Scheduler(Files):
    """All of `Files` once more on a dask.distributed cluster of two processes."""

    @classmethod
    def setUpClass(cls):
        import distributed

        cls.cluster = distributed.LocalCluster(n_workers=2, threads_per_worker=1, dashboard_address=None)

    @classmethod
    def tearDownClass(cls):
        cls.cluster.close()

    def impact(self, *words, **more):
        more["words"] = (*more.get("words", ()), "--scheduler", self.cluster.scheduler_address)
        return super().impact(*words, **more)

    test_calls_are_few = None
    test_places_are_beginnings_of_lines = None

    def test_a_scheduler_that_is_none(self):
        log = self.folder.log("log", record())
        paths = [self.folder.json(name, self.OLD) for name in ("old", "new")]
        with mock.patch.object(workers, "TIMEOUT", "1s"):
            code, _, errors = fixtures.wafkit("impact", *paths, log, "--scheduler", "tcp://127.0.0.1:9")
        self.assertEqual(code, 5)
        self.assertTrue(errors.startswith("wafkit: the scheduler tcp://127.0.0.1:9 can't be reached"), errors)


class NoScheduler(unittest.TestCase):
    @unittest.skipIf(importlib.util.find_spec("distributed"), "distributed is installed")
    @unittest.skipUnless(program.is_built(), "the program isn't built")
    def test_a_missing_package_is_named(self):
        words = (f"{SHOP}/bundle.json", f"{SHOP}/next.json", f"{SHOP}/log", "--scheduler", "tcp://127.0.0.1:9")
        code, _, errors = fixtures.wafkit("impact", *words)
        self.assertEqual((code, errors[:60]), (4, "wafkit: impact --scheduler needs the Python package distribu"))


if __name__ == "__main__":
    unittest.main()
