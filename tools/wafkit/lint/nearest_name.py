"""The known name that a wrong one was meant to be."""

import difflib
import os.path
import re

from .finding import shown

# So many names are listed where none is near.
MOST_LISTED = 12
# So many names are compared, for each comparison takes its time.
MOST_COMPARED = 500
# So many first letters speak for a name.
FIRST_LETTERS = 4


def nearest(name, known):
    """Returns the known name nearest to this one, or None: one that differs in case and marks alone comes first."""
    letters = bare(name)
    alike = [it for it in known if bare(it) == letters]
    if alike:
        return alike[0]
    by_letters = {bare(it): it for it in known[:MOST_COMPARED]}
    near = difflib.get_close_matches(letters, by_letters, n=3, cutoff=0.6)
    return by_letters[max(near, key=lambda it: likeness(letters, it))] if near else None


def likeness(name, other):
    """Returns how like two names are; a wrong name has its first letters right more often than its last."""
    begun = len(os.path.commonprefix([name, other]))
    return difflib.SequenceMatcher(None, other, name).ratio() + min(begun, FIRST_LETTERS) / FIRST_LETTERS / 10


def bare(name):
    """Returns the letters and digits of a name, in lower case."""
    return re.sub(r"[^a-z0-9]", "", name.lower())


def advice(name, known):
    """Returns what to write in the place of a name that isn't known."""
    if not known:
        return "leave it out: nothing may stand here"
    found = nearest(name, known)
    if found is not None:
        return f"write {shown(found)}"
    listed = ", ".join(shown(it) for it in sorted(known)[:MOST_LISTED])
    return f"write one of {listed}" + (", .." if len(known) > MOST_LISTED else "")
