"""What the program decides on lines of a log, beside what the service decided."""

import collections
import functools

from .. import status
from ..fault import Fault
from ..logs import cut, line_answers, possible_answers, rule_matches
from ..logs.calls import Outcome
from ..logs.evaluation import Evaluation
from ..logs.record import Record, object_of, text_of
from ..logs.revision import Revision
from ..logs.work_files import WorkFiles

MOST_POSSIBLE = 64

# What came of a line: `verdict` is agree, differ, not known, other (another web ACL) or fault; `logged` is what the log
# says and `ours` what the program does; of a fault, `ours` is its text.
Tested = collections.namedtuple("Tested", "verdict logged ours")


class Tester:
    """A web ACL whose decisions are compared with those of its log."""

    def __init__(self, path):
        self.revision = Revision(path)
        self.teller = line_answers.Teller([self.revision], self.revision)
        self.cutter = cut.cutters(self.revision)[0]
        self.labels = possible_answers.labels_of([self.revision])
        self.evaluation = Evaluation()

    def tested(self, line, work):
        """Returns what came of a line."""
        record = Record(line)
        try:
            outcomes = self.outcomes(line, work)
        except Fault as fault:
            if fault.code != status.UNREADABLE:
                raise
            return Tested("fault", None, str(fault).replace("the program printed ", ""))
        if record.text("webaclId") and not self.revision.is_of(record):
            return Tested("other", None, None)
        logged = self.logged(record)
        if logged is None or len(outcomes) != 1:
            return Tested("not known", logged, None)
        ours = outcomes.pop()
        return Tested("agree" if self.is_alike(logged, ours) else "differ", logged, ours)

    def outcomes(self, line, work):
        """Returns the outcomes that a line may have; none where there are too many answers that it may have."""
        told = self.teller.tell(line)
        bundle = self.cutter.cut(told, work.bundles)
        found = self.evaluation.outcome(bundle, line, told.answers, work)
        if found.decision != self.cutter.decision:
            return {found}
        possible = possible_answers.of(told.unknown, self.labels, MOST_POSSIBLE) or ()
        answers = ({**told.answers, **guess} for guess in possible)
        return {self.evaluation.outcome(self.revision.path, line, it, work) for it in answers}

    def logged(self, record):
        """Returns what the log says of the decision, in the words of the program, or None where it doesn't say."""
        action, end = record.text("action"), record.text("terminatingRuleId")
        if action is None or end is None:
            return None
        code = record.value.get("responseCodeSent")
        decision = f"{action} {code}" if action == "BLOCK" and isinstance(code, int) else action
        if end == rule_matches.DEFAULT:
            return Outcome(decision, "default")
        rule = rule_matches.ending_rule(self.revision, end)
        if rule is None:
            return Outcome(decision, end)
        entries = record.rule_groups(lambda it: it == rule.reference) if rule.reference else []
        inner = text_of(object_of(entries[0], "terminatingRule"), "ruleId") if entries else None
        return Outcome(decision, f"{rule.name} / {inner}" if inner else rule.name)

    def is_alike(self, logged, ours):
        """Returns whether both decide alike by the same rule; a code that the log doesn't say isn't compared."""
        decision = ours.decision if " " in logged.decision else ours.decision.split(" ")[0]
        return decision == logged.decision and names_of(ours.rule) == logged.rule


def names_of(rule):
    """Returns a rule as the program prints it without its priorities."""
    parts = rule.split(" / ")
    return rule if rule == "default" else " / ".join(part.split(" ", 1)[1] for part in parts)


@functools.lru_cache(maxsize=2)
def tester_of(path, _run):
    """Returns the web ACL, read once by each process in a run."""
    return Tester(path)


def tested_lines(path, run, lines):
    """Returns what came of each line; `run` is another text in each run of the command."""
    with WorkFiles() as work:
        # The files of cuts are taken away with their folder, so that each call makes its own.
        return [tester_of(path, run).tested(line, work) for line in lines]
