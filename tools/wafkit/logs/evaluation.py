"""What `evaluate` says of lines; of requests that are alike, once."""

from . import calls, line_answers
from .record import Record

# So many outcomes are kept.
MOST_KEPT = 20_000
# What the program reads of a request.
READ = ("httpMethod", "uri", "args", "clientIp", "headers", "body")


class Evaluation:
    """Evaluates lines by bundles."""

    def __init__(self):
        self.kept = {}

    def outcome(self, bundle, line, answers, work):
        """Returns the outcome of a line by the bundle of that path, under these answers."""
        told, request = line_answers.text(answers), Record(line).request
        key = (bundle, told, repr([request.get(name) for name in READ]))
        if not request:
            return self.called(bundle, line, told, work)
        if key not in self.kept:
            if len(self.kept) >= MOST_KEPT:
                self.kept.clear()
            self.kept[key] = self.called(bundle, line, told, work)
        return self.kept[key]

    def called(self, bundle, line, told, work):
        return calls.evaluate(bundle, work.written("request.json", line), work.answers(told))
