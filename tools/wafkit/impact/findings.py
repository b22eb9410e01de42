"""What came of all logs: the events in the order of the lines, in a file so that memory stays bounded, and their
summary."""

import collections
import json
import tempfile


class Summary:
    """Counts: of lines, of changes by their outcomes and country, and of lines that aren't known by question."""

    def __init__(self):
        self.lines = self.changed = self.not_known = 0
        self.changes, self.questions = collections.Counter(), collections.Counter()

    def add(self, other):
        self.lines += other.lines
        self.changed += other.changed
        self.not_known += other.not_known
        self.changes += other.changes
        self.questions += other.questions

    def sorted_changes(self):
        """Returns outcomes, country and count, the most frequent first."""
        return sorted(((*key, count) for key, count in self.changes.items()), key=lambda it: (-it[-1], it[:-1]))

    def by_rule(self):
        """Returns old and new outcome and count over all countries, the most frequent first."""
        found = collections.Counter()
        for old, new, _, count in self.sorted_changes():
            found[old, new] += count
        return sorted(found.items(), key=lambda it: (-it[1], it[0]))


class Findings:
    """All events, and the summary; a file whose piece has a fault gives none. A context that lets go of its file."""

    def __init__(self):
        self.summary, self.logs, self.faults = Summary(), 0, []
        self.spool = tempfile.TemporaryFile("w+", encoding="utf-8", errors="surrogatepass")
        self.begin_file(None)

    def __enter__(self):
        return self

    def __exit__(self, *_):
        self.spool.close()

    def begin_file(self, path):
        self.path, self.before, self.fault = path, 0, None
        self.of_file, self.start = Summary(), self.spool.tell()

    def add(self, piece, result):
        """Adds what came of the next piece."""
        if piece.begin == 0:
            self.end_file()
            self.begin_file(piece.path)
        if result.fault and not self.fault:
            line, text = result.fault
            self.fault = f"{self.path}: line {self.before + line}: {text}" if line else f"{self.path}: {text}"
        if not self.fault:
            self.of_file.lines += result.replayed
            for line in sorted(result.events):
                self.add_event(self.before + line, result.events[line])
        self.before += result.lines

    def add_event(self, line, event):
        found = {"log": self.path, "line": line, **event.facts}
        if event.old is None:
            self.of_file.not_known += 1
            self.of_file.questions.update(f"{it.kind} {it.key}" for it in event.open)
            found["notKnown"] = [f"{it.kind} {it.key}" for it in event.open]
        else:
            self.of_file.changed += 1
            self.of_file.changes[event.old, event.new, event.facts.get("country", "-")] += 1
            found.update(old=event.old._asdict(), new=event.new._asdict())
        self.spool.write(json.dumps(found) + "\n")

    def end_file(self):
        """Counts the file that ends in; what a file with a fault gave is taken back."""
        if self.path is None:
            return
        if self.fault:
            self.faults.append(self.fault)
            self.spool.seek(self.start)
            self.spool.truncate()
        else:
            self.logs += 1
            self.summary.add(self.of_file)
        self.path = None

    def events(self):
        """Yields the events as objects, in the order of the lines."""
        self.spool.seek(0)
        for line in self.spool:
            yield json.loads(line)
