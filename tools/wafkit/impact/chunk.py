"""A chunk of logs: the pieces of files that one process replays at a time."""

import collections
import functools
import os

from .. import status
from ..fault import Fault
from ..logs import calls, log_file
from ..logs.work_files import WorkFiles
from .replay import Replay

# What is read at a time: below the program's limit on a file, also together with what stands around it.
PART = 16 << 20
LIMIT = 67_108_864
# A revision without rules, through which a line goes only to be read.
NO_RULES = b"""{"WebACL":{"Name":"none","ARN":"arn:aws:wafv2:us-east-1:000000000000:regional/webacl/none/0",
"DefaultAction":{"Allow":{}}}}"""

# A part of a file, from a beginning of a line to another, or the whole.
Piece = collections.namedtuple("Piece", "path begin end size")


class Replayed:
    """What came of a piece: its lines, those that were replayed, the events by line, and what is wrong with it."""

    def __init__(self):
        self.lines, self.replayed, self.events, self.fault = 0, 0, {}, None

    def fail(self, text, line=None):
        self.fault, self.events, self.replayed = (line, text), {}, 0


def chunks(paths, workers):
    """Yields lists of pieces, in the order of the files, each of about as many bytes as one process should take at a
    time."""
    size = chunk_size(paths, workers)
    chunk, total = [], 0
    for path in paths:
        for begin, end in log_file.places(path, size):
            piece = Piece(path, begin, end, size_of(path, begin, end))
            if chunk and total + piece.size > size:
                yield chunk
                chunk, total = [], 0
            chunk.append(piece)
            total += piece.size
    if chunk:
        yield chunk


def chunk_size(paths, workers):
    total = sum(size_of(path, 0, None) for path in paths)
    return max(1 << 20, min(PART, total // (4 * workers)))


def size_of(path, begin, end):
    """Returns about how many bytes a piece has; 0 where the file can't be asked. What is packed counts ten times."""
    try:
        if end is None:
            end = os.path.getsize(path) * (10 if os.path.isfile(path) and log_file.is_packed(path) else 1)
        return max(end - begin, 1)
    except OSError:
        return 0


@functools.lru_cache(maxsize=2)
def replay_of(old, new, _run):
    """Returns the two revisions, read once by each process in a run: a worker may live on while the files change."""
    return Replay(old, new)


def replayed(old, new, run, pieces):
    """Returns what came of each piece, in their order; `run` is another text in each run of the command."""
    with WorkFiles() as work:
        return Run(replay_of(old, new, run), pieces, work).results()


class Run:
    """One run over the pieces of a chunk."""

    def __init__(self, replay, pieces, work):
        self.replay, self.pieces, self.work = replay, pieces, work
        self.found = [Replayed() for _ in pieces]

    def results(self):
        part, size = [], 0
        for place, piece in enumerate(self.pieces):
            result = self.found[place]
            try:
                for line in log_file.lines(piece.path, piece.begin, piece.end):
                    result.lines += 1
                    if not line:
                        continue
                    if len(line) >= LIMIT:
                        raise Fault("too long log")
                    if size + len(line) >= PART:
                        self.replay_part(part)
                        part, size = [], 0
                    result.replayed += 1
                    part.append(((place, result.lines), line))
                    size += len(line) + 1
            except Fault as fault:
                # The place of the fault is said with the file's name by who prints it.
                result.fail(str(fault).replace(f"{piece.path}: ", "", 1))
        self.replay_part(part)
        return self.found

    def replay_part(self, part):
        """Adds the events of the lines; a piece with a line that the program refuses is left out, and the others go
        on."""
        part = [item for item in part if self.found[item[0][0]].fault is None]
        if not part:
            return
        try:
            events = self.replay.events(part, self.work)
        except calls.RefusedLine as refused:
            self.fail_pieces(part, refused)
            self.replay_part(part)
            return
        for (place, line), event in events.items():
            self.found[place].events[line] = event

    def fail_pieces(self, part, refused):
        """Finds each piece with a line that is refused: through revisions without rules, which takes little time."""
        bundle = self.work.written("no-rules.json", NO_RULES)
        answers = self.work.answers("{}")
        by_place = {}
        for (place, line), text in part:
            by_place.setdefault(place, []).append((line, text))
        for place, items in by_place.items():
            try:
                calls.impact(bundle, bundle, self.work.log([text for _, text in items]), answers)
            except calls.RefusedLine as its:
                self.found[place].fail(f"refused {its.why}", items[its.number - 1][0])
        place, line = refused.number
        if self.found[place].fault is None:
            raise Fault(f"{self.pieces[place].path}: line {line}: refused {refused.why}", status.UNREADABLE)
