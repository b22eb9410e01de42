"""What the program itself says of a bundle: whether it refuses it, its capacity, and the questions that it asks."""

import json
import os
import re

from .. import program, status
from ..fault import Fault
from . import json_path
from .finding import Finding, shown
from .nearest_name import nearest

# Statuses of the program: an answer was printed, or a text was refused.
PRINTED, REFUSED = 0, 3


def lines_of(command, name):
    """Returns the program's status and the lines that it prints of the bundle in that file."""
    code, printed = program.run(command, os.path.abspath(name))
    if code not in (PRINTED, REFUSED):
        raise Fault(f"wafreview {command} ended with status {code}", status.UNREADABLE)
    return code, printed.decode("utf-8").rstrip("\n").split("\n") if printed else []


def capacity_findings(name, bundle):
    """Returns a finding where the program refuses the bundle, or counts another capacity than the web ACL's own."""
    code, lines = lines_of("capacity", name)
    if code == REFUSED:
        path = next((word for word in lines[0].split() if re.fullmatch(r"\$[!-~]*", word)), "$")
        says = f"the program refuses the bundle: {shown(lines[0])[1:-1]}"
        return [Finding("refused", path, nearest_place(bundle, path), says, "see wafkit explain")]
    own = json_path.present(json_path.present(bundle, "WebACL"), "Capacity")
    words = lines[0].split()
    units, unknown = int(words[1]), int(words[3]) if len(words) > 3 else 0
    if own is None or own.kind != "number" or (units == own.data and not unknown):
        return []
    counts = f"the program counts {units}" + (f" and {unknown} unknown" if unknown else "")
    write = "see that no rule is lost or changed"
    if unknown:
        write = "give each managed group's capacity in ManagedCapacities"
    says = f"the web ACL's own capacity is {shown(own.data)}, {counts}"
    return [Finding("capacity", "$.WebACL.Capacity", own, says, write)]


def nearest_place(bundle, path):
    """Returns the value at the path, or the nearest one around it that is there."""
    while path.count(".") and bundle.at(path) is None:
        path = path.rpartition(".")[0]
    return bundle.at(path) or bundle


class Questions:
    """The questions of some bundles, as the program prints them: of each kind the keys by their values, and tokens."""

    def __init__(self, names):
        self.keys, self.tokens, self.refused = {"statement": {}, "group": {}}, [], False
        for name in names:
            code, lines = lines_of("keys", name)
            self.refused = self.refused or code == REFUSED
            for line in lines if code == PRINTED else []:
                kind, _, rest = line.partition(" ")
                if kind == "token":
                    self.tokens.append(rest)
                else:
                    self.keys[kind][value_of(rest)] = rest


def answer_findings(questions, answers):
    """Returns a finding for each answer that no question asks, and for each second answer to one question."""
    found = []
    for kind, name in (("statement", "Statements"), ("group", "Groups")):
        seen = set()
        for it, path in json_path.elements(answers, name, "$"):
            key, at = json_path.text_of(it, "Key"), json_path.member(path, "Key")
            if key is not None and key in seen:
                found.append(second(at, it.member("Key")))
            elif key is not None and questions.keys[kind].get(value_of(key)) != key and not questions.refused:
                says = f"{shown(key)} is no {kind} that is asked"
                found.append(Finding("unasked-answer", at, it.member("Key"), says, meant(key, questions, kind)))
            seen.add(key)
    return found + token_findings(questions, answers)


def token_findings(questions, answers):
    """Returns a finding for each token that isn't asked for, and for each second answer to one."""
    found, seen = [], set()
    for it, path in json_path.elements(answers, "Tokens", "$"):
        time = json_path.present(it, "ImmunityTime")
        token = f"{json_path.text_of(it, 'Kind')} {time.data if time is not None else ''}"
        if token in seen:
            found.append(second(path, it))
        elif token not in questions.tokens and not questions.refused:
            asked = ", ".join(questions.tokens)
            write = f"write one of {asked}" if asked else "leave it out: no token is asked for"
            found.append(Finding("unasked-answer", path, it, f"{shown(token)} is no token that is asked for", write))
        seen.add(token)
    return found


def second(path, value):
    """Returns the finding of a second answer to one question."""
    return Finding("second-answer", path, value, "a second answer to one question; the first counts", "leave one out")


def meant(key, questions, kind):
    """Returns what to write in the place of a key that isn't asked."""
    value = value_of(key)
    same = questions.keys[kind].get(value)
    if same:
        return f"write it as wafreview keys prints it: {json.dumps(same)}"
    other = "group" if kind == "statement" else "statement"
    if value in questions.keys[other]:
        return f"put it into {'Groups' if other == 'group' else 'Statements'}"
    near = nearest(key, list(questions.keys[kind].values()))
    return f"write {json.dumps(near)}" if near else "leave it out, or take a key that wafreview keys prints"


def value_of(key):
    """Returns one text for all keys of one JSON value."""
    try:
        return json.dumps(json.loads(key), sort_keys=True)
    except (ValueError, RecursionError):
        return key
