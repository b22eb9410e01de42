"""The command `explain`: what a refusal of the program means, where it is, and its cure."""

import os
import sys

from .. import program, status
from ..fault import Fault
from . import explanations, file_text, refusal
from .case import Case

# The files of each command of the program, in the order of its words.
COMMANDS = {
    "evaluate": ("bundle", "request", "answers"),
    "capacity": ("bundle",),
    "keys": ("bundle",),
    "review": ("old", "new"),
    "impact": ("old", "new", "log", "answers"),
}
# How many files each command needs.
NEEDED = {"evaluate": 2, "capacity": 1, "keys": 1, "review": 2, "impact": 3}
ROLES = ("bundle", "request", "answers", "old", "new", "log")
REASONS = {
    "N1": "a review takes no MD5, NORMALIZE_PATH or HTML_ENTITY_DECODE: these are evaluated only",
    "N2": "a review takes no IP set with a forwarded address (IPSetForwardedIPConfig): it is evaluated only",
    "N3": "a review takes no field Headers with the pattern All or ExcludedHeaders: it is evaluated only",
    "N4": "the two revisions together name more than 200 headers (cookie among them), more than a request has",
}
REPLAY = "replay requests through both revisions: wafreview impact OLD NEW LOG"


def add_arguments(parser):
    parser.add_argument(
        "words",
        nargs="*",
        metavar="WORD",
        help="the refusal that the program printed (on standard input where there are no words), or, behind --, words "
        "of the program, which then runs",
    )
    for role in ROLES:
        parser.add_argument(f"--{role}", metavar="FILE", help=f"the file that the program was given as {role}")


def run(arguments):
    """Prints the explanation of a refusal and returns the status."""
    named = {role: getattr(arguments, role) for role in ROLES if getattr(arguments, role) is not None}
    words = [word for word in arguments.words if word != "--"]
    if words and words[0] in (*COMMANDS, "generate"):
        return run_program(words, named)
    text = " ".join(words) if words and words != ["-"] else standard_input()
    found = refusal.read(text)
    if found is None:
        if text.strip() and refusal.is_answer(text):
            raise Fault("the program answered: there is no refusal to explain", status.USAGE)
        raise Fault(f"{text.strip()[:80] or 'nothing'!r} is no refusal of the program", status.USAGE)
    return printed(explained(found, named, ()))


def standard_input():
    """Returns the text of standard input, unless that is a terminal."""
    if sys.stdin.isatty():
        text = "explain takes a refusal, as words or on standard input, or -- and words of the program"
        raise Fault(text, status.USAGE)
    if hasattr(sys.stdin, "reconfigure"):
        sys.stdin.reconfigure(errors="backslashreplace")
    return sys.stdin.read()


def explained(found, files, words):
    """Returns the explanation of a refusal as pairs of a word and what is said under it."""
    try:
        return [("", found.text), *lines_of(found, files, words)]
    except RecursionError as error:
        raise Fault("the file is nested too deep to be looked at", status.UNREADABLE) from error


def run_program(words, named):
    """Runs the program with these words. Its answer is printed as it is, and its refusal explained."""
    code, said = program.run(*words)
    text = said.decode(errors="backslashreplace")
    found = None if code in (0, 1) else refusal.read(text)
    if found is None:
        sys.stdout.write(text)
        sys.stdout.flush()
        if code not in (0, 1):
            raise Fault(f"the program ended with the status {code} and no refusal", status.UNREADABLE)
        return status.DONE
    files = {**dict(zip(COMMANDS.get(words[0], ()), words[1:])), **named}
    return printed(explained(found, files, words))


def printed(lines):
    """Prints the lines of an explanation and returns the status."""
    if hasattr(sys.stdout, "reconfigure"):
        sys.stdout.reconfigure(errors="backslashreplace")
    width = max(len(word) for word, _ in lines)
    for word, text in lines:
        # What files hold may have control characters and halves of surrogate pairs.
        text = "".join(letter if letter.isprintable() else ascii(letter)[1:-1] for letter in text)
        print(text if word == "" else f"  {word:<{width}}  {text}")
    return status.DONE


def lines_of(found, files, words):
    """Explains a refusal by its kind."""
    if found.kind == "usage":
        return of_usage(words)
    if found.kind == "memory":
        cure = "give the program more memory (ulimit -v says the limit), or smaller files: a log can be divided"
        return [("means", "the program found too little memory"), ("cure", cure)]
    role = found.role or next(iter(files), "bundle")
    name = files.get(role) or (files.get("bundle") if role in ("old", "new") else None)
    if found.kind == "read fault":
        return of_unread(role, name)
    if found.kind == "too long":
        return of_length(role, name)
    return of_text(found, role, name)


def of_text(found, role, name):
    """Explains a fault of a text."""
    data = file_text.read(name) if name is not None else None
    case = Case(found, role, name, data)
    means = ("means", REASONS.get(found.code) or explanations.MEANINGS.get(found.code, "no code of this version"))
    if found.code == "E1":
        return [means] + of_json(case)
    told, at = [], None
    if case.path and case.root is not None:
        nearest = case.nearest()
        at = case.where(nearest)
        told.append(("where", at if case.value is not None else f"{at} (the object around it)"))
    rule = case.rule()
    if rule:
        told.append(("rule", rule))
    told.append(means)
    if found.kind == "not reviewable":
        return told + [("cure", REPLAY)]
    if data is not None and case.root is None:
        told.append(("found", f"{name} is no JSON text now: the program would say E1"))
    if found.code in explanations.BY_CODE:
        told += explanations.BY_CODE[found.code](case)
    if name is None:
        told.append(("note", f"with --{role} FILE, line, column and what was found are said too"))
    return told


def of_json(case):
    """Explains E1: where a JSON reader stops."""
    if case.data is None:
        return [("note", f"with --{case.role} FILE, line and column, and what a JSON reader says, are said too")]
    if case.data == b"\r":
        return [
            ("where", f"{case.name}:{case.first_line + 1}:1"),
            ("found", "a line with a carriage return alone, as Windows ends lines"),
            ("cure", "delete the carriage returns: tr -d '\\r', or wafkit convert"),
        ]
    stop = file_text.stop_of(case.data)
    if stop is None:
        return [("found", "a JSON reader finds nothing there: see whether it is the file that the program read")]
    lines = [("where", f"{case.name}:{case.first_line + stop.line}:{stop.column}"), ("found", stop.cause)]
    return lines + [("cure", stop.cure)]


def of_usage(words):
    """Explains the usage line by the words that were given."""
    means = ("means", "the words are no command of the program")
    files = ", ".join(f"{name} {' '.join(role.upper() for role in roles)}" for name, roles in COMMANDS.items())
    if not words:
        return [means, ("allowed", f"{files}; ANSWERS may be left out")]
    name, given = words[0], words[1:]
    if name not in COMMANDS:
        return [means, ("found", f"the command {name}, which isn't built yet"), ("allowed", files)]
    found, roles = f"{name} and {len(given)} words behind it", [role.upper() for role in COMMANDS[name]]
    strange = next((word for word in given if word == "" or word.startswith("-")), None)
    if strange is not None:
        found = f"the word {strange!r}: a file's name isn't empty and doesn't begin with -"
        cure = f"write ./{strange} for a file of that name" if strange else "name a file"
    else:
        cure = f"name {' '.join(roles[: NEEDED[name]])}"
        cure += ", and ANSWERS where there are any" if "ANSWERS" in roles else ""
    return [means, ("found", found), ("allowed", f"{name} {' '.join(roles)}"), ("cure", cure)]


def of_unread(role, name):
    """Explains a read fault by what the system says of the file."""
    means = ("means", f"the file that was named as {role} can't be read")
    if name is None:
        return [means, ("note", f"with --{role} FILE, why is said too")]
    if os.path.isdir(name):
        return [means, ("found", f"{name} is a folder"), ("cure", "name a file in it")]
    try:
        with open(name, "rb"):
            found = "it can be read now"
    except (OSError, ValueError) as error:
        found = getattr(error, "strerror", None) or str(error)
    missing = "name a file that is there; names are taken from the folder that the command runs in"
    cure = "run it as a user that may read the file" if found.startswith("Permission") else missing
    return [means, ("found", f"{name}: {found}"), ("cure", cure)]


def of_length(role, name):
    """Explains a file that is too long."""
    lines = [("means", f"the file that was named as {role} has more bytes than the program reads")]
    if name is not None and os.path.exists(name):
        lines.append(("found", f"{name} has {os.path.getsize(name)} bytes"))
    lines.append(("allowed", f"at most {file_text.MOST_BYTES} bytes"))
    cure = "see whether it is the right file"
    if role == "log":
        cure = "divide it: split -C 60m LOG PART, and run impact on each part"
    return lines + [("cure", cure)]
