"""Logs, their wrappers and sampled requests to a record a line."""

import base64
import gzip
import json
import os
import tempfile
import unittest

from tests.converting import run, run_on
from wafkit import program

# Records with the members that the AWS WAF Developer Guide names ("Log fields").
RECORDS = [
    {"timestamp": 1764547200000 + number, "formatVersion": 1,
    "webaclId": "arn:aws:wafv2:us-east-1:111122223333:regional/webacl/shop/a1",
     "action": "ALLOW", "httpRequest": {"clientIp": "203.0.113.9", "country": "SE", "uri": uri, "args": "q=\u00e9}{\"",
     "httpMethod": "GET",
                                        "headers": [{"name": "Host", "value": "shop.example"}]}}
    for number, uri in enumerate(("/a", "/b\n", "/c"))
]
TEXTS = [json.dumps(record) for record in RECORDS]
SAMPLES = {
    "SampledRequests": [
        {"Request": {"ClientIP": "203.0.113.9", "Country": "SE", "URI": "/admin?next=%2F?", "Method": "GET",
        "HTTPVersion": "HTTP/1.1",
                     "Headers": [{"Name": "Host", "Value": "shop.example"}]},
         "Weight": 3, "Timestamp": "2026-12-02T10:00:00.250000+00:00", "Action": "BLOCK",
         "RuleNameWithinRuleGroup": "AWS#x",
         "ResponseCodeSent": 403, "Labels": [{"Name": "awswaf:x"}], "CaptchaResponse": {"ResponseCode": 405,
         "SolveTimestamp": 1}},
    ],
    "PopulationSize": 9, "TimeWindow": {"StartTime": "2026-12-02T09:00:00Z", "EndTime": "2026-12-02T10:00:00Z"},
}


def packed(value):
    """Returns a value or text in base64."""
    data = value if isinstance(value, bytes) else value.encode("utf-8")
    return base64.b64encode(data).decode("ascii")


def subscription(*texts):
    """Returns what CloudWatch Logs hands to a subscription."""
    events = [{"id": str(index), "timestamp": 1, "message": text} for index, text in enumerate(texts)]
    return {"messageType": "DATA_MESSAGE", "owner": "111122223333", "logGroup": "aws-waf-logs-shop", "logStream": "s",
            "subscriptionFilters": ["f"], "logEvents": events}


ZIPPED = gzip.compress("\n".join(TEXTS).encode("utf-8"))
WRAPPED = {
    "lines": "\n".join(TEXTS) + "\n",
    "lines of DOS": "\r\n".join(TEXTS),
    "pretty": "\n".join(json.dumps(record, indent=2) for record in RECORDS),
    "nothing between": "".join(TEXTS),
    "an array": RECORDS,
    "packed": ZIPPED,
    "packed twice": gzip.compress(ZIPPED),
    "packed in parts": b"".join(gzip.compress(text.encode("utf-8")) for text in TEXTS),
    "with a mark": b"\xef\xbb\xbf" + "\n".join(TEXTS).encode("utf-8"),
    "UTF-16": "\n".join(TEXTS).encode("utf-16"),
    "get-log-events": {"events": [{"timestamp": 1, "message": text, "ingestionTime": 2} for text in TEXTS],
    "nextForwardToken": "f/1"},
    "filter-log-events": {"events": [{"logStreamName": "s", "message": text, "eventId": "1"} for text in TEXTS],
    "searchedLogStreams": []},
    "get-query-results": {"results": [[{"field": "@message", "value": text}, {"field": "@ptr",
    "value": "p"}] for text in TEXTS], "status": "Complete"},
    "a subscription": subscription(*TEXTS),
    "subscriptions": "".join(json.dumps(subscription(text)) for text in TEXTS),
    "a function's event": {"awslogs": {"data": packed(gzip.compress(json.dumps(subscription(*TEXTS)).encode()))}},
    "an export": "".join(f"2026-12-02T10:00:00.000Z {text}\n" for text in TEXTS),
    "aws logs tail": "".join(f"2026-12-02T10:00:00.123000+00:00 us-east-1_shop_0 {text}\n" for text in TEXTS),
    "Firehose": {"requestId": "r", "timestamp": 1, "records": [{"data": packed(text)} for text in TEXTS]},
    "Firehose's transformation": {"invocationId": "i",
    "records": [{"recordId": "1", "data": packed(text + "\n")} for text in TEXTS]},
    "CloudWatch in Firehose": {"records": [{"data": packed(gzip.compress(json.dumps(subscription(*TEXTS)).encode()))}]},
    "Kinesis": {"Records": [{"kinesis": {"data": packed(text)}} for text in TEXTS]},
}


class Log(unittest.TestCase):
    def test_records_come_out_of_all_that_wraps_them(self):
        for name, content in WRAPPED.items():
            for words in ((), ("--from", "log")):
                with self.subTest(name, words=words):
                    code, output, errors = run_on([content], *words)
                    self.assertEqual((code, errors), (0, ""))
                    lines = output.split("\n")
                    self.assertEqual(lines.pop(), "")
                    self.assertEqual([json.loads(line) for line in lines], RECORDS)

    def test_files_are_parts_of_one_log(self):
        code, output, _ = run_on([TEXTS[0], gzip.compress(TEXTS[1].encode()), [RECORDS[2]]])
        self.assertEqual((code, [json.loads(line) for line in output.splitlines()]), (0, RECORDS))

    def test_control_messages_and_no_records(self):
        control = {"messageType": "CONTROL_MESSAGE", "logEvents": [{"id": "", "message": "CWL CONTROL MESSAGE"}]}
        code, output, errors = run_on([control])
        self.assertEqual((code, output), (0, ""))
        self.assertIn("a control message", errors)
        self.assertIn("no records: the log is empty", errors)

    def test_what_is_no_record_is_named_with_its_place(self):
        cases = {
            TEXTS[0] + "\n" + '{"a": 1}': "input0 line 2: no record",
            TEXTS[0] + "\n{": "input0: no JSON text: Expecting property name enclosed in double quotes at line 2 column 2",
            TEXTS[0] + "\n5": "line 2",
            '{"httpRequest": {"a": 1e999}}': "JSON has no value for",
            json.dumps(subscription(TEXTS[0], "hello")): "input0 line 1.logEvents[1].message: no JSON text",
            json.dumps({"records": [{"data": "?"}]}): "input0 line 1.records[0].data: isn't base64",
            json.dumps({"records": [{}]}): "input0 line 1.records[0].data: a text in base64 is wanted",
            json.dumps({"results": [[]]}): "the field @message is wanted",
            TEXTS[0] + '{"httpRequest": {"uri": "/a", "uri": "/b"}}': "two members of one name",
        }
        for text, meant in cases.items():
            code, output, errors = run_on([text], "--from", "log")
            self.assertEqual((code, output), (3, ""), text)
            self.assertIn(meant, errors)
        self.assertEqual(run_on([ZIPPED[:40]])[0], 3)

    def test_sampled_requests(self):
        code, output, errors = run_on([SAMPLES])
        self.assertEqual(code, 0)
        self.assertIn("a sampled request holds no body", errors)
        self.assertEqual(json.loads(output), {
            "weight": 3, "timestamp": 1796205600250, "action": "BLOCK", "ruleNameWithinRuleGroup": "AWS#x",
            "responseCodeSent": 403,
            "labels": [{"name": "awswaf:x"}], "captchaResponse": {"responseCode": 405, "solveTimestamp": 1},
            "httpRequest": {"clientIp": "203.0.113.9", "country": "SE", "uri": "/admin", "args": "next=%2F?",
            "httpMethod": "GET",
                            "httpVersion": "HTTP/1.1", "headers": [{"name": "Host", "value": "shop.example"}]}})
        alone = run_on([SAMPLES["SampledRequests"]])[1]
        self.assertEqual(alone, output)
        for moment in ("2026-12-02 10:00:00.250000+00:00", "2026-12-02T10:00:00.250Z", 1796205600.25):
            SAMPLES["SampledRequests"][0]["Timestamp"] = moment
            self.assertEqual(run_on([SAMPLES])[1], output, moment)

    @unittest.skipUnless(program.is_built(), "needs the built program")
    def test_the_program_takes_the_logs(self):
        shop = os.path.join(program.TOP, "examples", "shop")
        with open(os.path.join(shop, "log"), "rb") as file:
            lines = [line for line in file.read().split(b"\n") if line]
        events = {"events": [{"message": line.decode("utf-8")} for line in lines]}
        for content in (gzip.compress(json.dumps(events).encode()), SAMPLES):
            with tempfile.TemporaryDirectory() as directory:
                path = os.path.join(directory, "log")
                with open(path, "w", encoding="utf-8") as file:
                    file.write(run_on([content])[1])
                code, printed = program.run("impact", os.path.join(shop, "bundle.json"), os.path.join(shop,
                    "next.json"), path)
            count = len(lines) if isinstance(content, bytes) else 1
            self.assertIn(code, (0, 1))
            self.assertIn(f"impact lines {count} changed ".encode(), printed)

    def test_the_shipped_log_stays_what_it_is(self):
        path = os.path.join(program.TOP, "examples", "shop", "log")
        with open(path, encoding="utf-8") as file:
            meant = [json.loads(line) for line in file if line.strip()]
        self.assertEqual([json.loads(line) for line in run(path)[1].splitlines()], meant)

    def test_a_file_that_is_not_there(self):
        self.assertEqual(run("no-such-file")[0], 3)


if __name__ == "__main__":
    unittest.main()
