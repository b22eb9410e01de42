"""The command lint: what a bundle says and the program doesn't read, or the service wouldn't take."""

import json
import sys

from .. import status
from . import duplicate_members, json_file, label_matches, program_checks, references, search_strings
from . import service_model, unread_differences
from .shape_check import ShapeCheck


def add_arguments(parser):
    """Adds the words of the command."""
    parser.add_argument("bundle", metavar="BUNDLE", help="the bundle, or the old one of two")
    parser.add_argument("new", metavar="NEW", nargs="?", help="a new bundle: what differs and isn't read is named")
    parser.add_argument("--answers", metavar="FILE", help="answers, which are checked as well")
    parser.add_argument("--json", action="store_true", help="print each finding as a line of JSON")


def run(arguments):
    """Prints the findings and returns the status: FOUND where there is one, else DONE."""
    named, by = findings_of_words(arguments)
    for finding in named:
        print(finding.as_json() if arguments.json else finding.as_line())
    if arguments.json:
        print(json.dumps({"findings": len(named), "by": by}))
    else:
        print(f"findings {len(named)}" + (f" by {by}" if by else ""))
    sys.stdout.flush()
    return status.FOUND if named else status.DONE


def findings_of_words(arguments):
    """Returns the findings that the words ask for, and by which version of the service they are."""
    names = [arguments.bundle] + ([arguments.new] if arguments.new is not None else [])
    bundles = [json_file.read(name) for name in names]
    answers = json_file.read(arguments.answers) if arguments.answers is not None else None
    model = service_model.model() if len(names) == 1 or answers is not None else None
    if len(names) == 1:
        of_program = program_checks.capacity_findings(names[0], bundles[0])
        found = of_file(names[0], bundle_findings(bundles[0], model) + of_program)
    else:
        of_old, of_new = unread_differences.findings(*bundles)
        found = of_file(names[0], of_old) + of_file(names[1], of_new)
    if answers is not None:
        questions = program_checks.Questions(names)
        found += of_file(arguments.answers, answers_findings(answers, questions, model))
    return found, model.says() if model else ""


def bundle_findings(bundle, model):
    """Returns the findings of a bundle that need no program."""
    check = ShapeCheck(model)
    check.value(bundle, model.shape("Bundle"), "$")
    found = check.findings + duplicate_members.findings(bundle) + search_strings.findings(bundle)
    found += label_matches.findings(bundle) + references.override_findings(bundle)
    return found + references.capacity_findings(bundle) + references.body_limit_findings(bundle)


def answers_findings(answers, questions, model):
    """Returns the findings of answers to these questions."""
    check = ShapeCheck(model)
    check.value(answers, model.shape("Answers"), "$")
    return check.findings + duplicate_members.findings(answers) + program_checks.answer_findings(questions, answers)


def of_file(name, findings):
    """Returns the findings in the order of the text, each with the name of the file."""
    for finding in findings:
        finding.file = json_file.printable(name)
    return sorted(findings, key=lambda it: it.offset)
