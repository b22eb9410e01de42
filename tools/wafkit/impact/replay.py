"""Lines through two revisions: one call of the program for all lines of equal answers, and what it says of each."""

import collections

from ..logs import calls, cut, line_answers, possible_answers
from ..logs.calls import Outcome
from ..logs.evaluation import Evaluation
from ..logs.record import Record, text_of
from ..logs.revision import Revision

# So many sets of possible answers are tried at most, where lines leave questions open; beyond, they aren't known.
MOST_POSSIBLE = 64

# What is said of a line: the outcomes of both revisions, or, where these are None, the questions that leave them open.
Event = collections.namedtuple("Event", "old new open facts")


class Replay:
    """Two revisions, of which the old one wrote the log, and what lines become in both."""

    def __init__(self, old, new):
        self.old, self.new = Revision(old), Revision(new)
        self.teller = line_answers.Teller([self.old, self.new], self.old)
        self.cutters = cut.cutters(self.old, self.new)
        self.labels = possible_answers.labels_of([self.old, self.new])
        self.evaluation = Evaluation()

    def events(self, items, work):
        """Returns an event for each line that is decided otherwise or isn't known. Items are pairs of a key and a line;
        the events come by key."""
        groups = {}
        for key, line in items:
            told = self.teller.tell(line)
            group = groups.setdefault((line_answers.text(told.answers), *told[1:]), (told, []))
            group[1].append((key, line))
        found = {}
        for told, members in groups.values():
            try:
                decided, is_open = self.decided(told, members, work)
            except calls.RefusedLine as refused:
                raise calls.RefusedLine(members[refused.number - 1][0], refused.why) from refused
            for place, both in decided.items():
                key, line = members[place - 1]
                found[key] = self.changed(line, both, told, place in is_open, work)
            for place in is_open - set(decided):
                key, line = members[place - 1]
                found[key] = Event(None, None, told.unknown, facts(line))
        return found

    def decided(self, told, members, work):
        """Returns both decisions of the lines that surely change, by their places, and the places at which the open
        questions may matter."""
        log, answers = work.log([line for _, line in members]), work.answers(line_answers.text(told.answers))
        if not told.unknown:
            return calls.impact(self.old.path, self.new.path, log, answers), set()
        bundles = [cutter.cut(told, work.bundles) for cutter in self.cutters]
        decided = calls.impact(*bundles, log, answers)
        ends = {cutter.decision for cutter in self.cutters}
        is_open = {place for place, both in decided.items() if ends & set(both)}
        decided = {place: both for place, both in decided.items() if place not in is_open}
        possible = possible_answers.of(told.unknown, self.labels, MOST_POSSIBLE)
        if not is_open or possible is None:
            return decided, is_open
        places = sorted(is_open)
        tried = self.tried([members[place - 1][1] for place in places], told.answers, possible, work)
        for place, outcomes in zip(places, tried):
            if len(outcomes) > 1:
                continue
            both = outcomes.pop()
            if both is None:
                is_open.discard(place)
            else:
                decided[place] = both
        return decided, is_open

    def tried(self, lines, answers, possible, work):
        """Returns for each line what it becomes under all possible answers: pairs of decisions, and None for no
        change."""
        log = work.log(lines)
        found = [set() for _ in lines]
        for guess in possible:
            told = work.answers(line_answers.text({**answers, **guess}))
            decided = calls.impact(self.old.path, self.new.path, log, told)
            for place, outcomes in enumerate(found, 1):
                outcomes.add(decided.get(place))
        return found

    def changed(self, line, both, told, is_open, work):
        """Returns the event of a line that changes, with the rules that decide. Where questions are open that change no
        decision, they may change the rule; else the line is decided before the cut."""
        outcomes = []
        possible = possible_answers.of(told.unknown, self.labels, MOST_POSSIBLE) if is_open else [{}]
        for revision, cutter, decision in zip((self.old, self.new), self.cutters, both):
            bundle = revision.path if is_open else cutter.cut(told, work.bundles)
            answers = ({**told.answers, **guess} for guess in possible)
            rules = {self.evaluation.outcome(bundle, line, it, work).rule for it in answers}
            outcomes.append(Outcome(decision, " or ".join(sorted(rules))))
        return Event(*outcomes, (), facts(line))


def facts(line):
    """Returns what a report says of a line beside its decisions."""
    record = Record(line)
    found = {name: text_of(record.request, name) for name in ("country", "httpMethod", "uri", "requestId")}
    stamp = record.value.get("timestamp")
    found["timestamp"] = stamp if isinstance(stamp, int) and not isinstance(stamp, bool) else None
    return {name: value for name, value in found.items() if value is not None}
