"""What each code means for the value that was refused, and its cure: pairs of a word and what is said under it."""

from .. import references
from . import formats, missing_references, shapes, written_bytes
from .case import kind_of, likest, shown

MEANINGS = {
    "E0": "review can't compare this yet; evaluate, capacity, keys and impact take it",
    "E1": "the bytes are no JSON text that the program reads",
    "E2": "a needed member is absent, or a value is of another kind than is read there",
    "E3": "a number isn't whole (1.0 and 1e2 aren't) or is out of its range",
    "E4": "a text is none of the names that are read there, or has other characters than it may have",
    "E5": "two rules of one list have the same priority",
    "E6": "the action that is needed here is absent, is no object, or hasn't exactly one member of the names allowed",
    "E7": "this statement stands only at the top of a rule: groups of a rule of the web ACL, rates of any rule",
    "E8": "the bundle refers to something that isn't in the list of its kind",
    "E9": "the text isn't canonical base64 of the standard alphabet",
    "E10": "the text is no address, or no range of the set's version",
    "E11": "there is more than the program's limit",
    "E12": "the label namespace isn't of its form, or there is none and the ARN gives no account to make one of",
    "E13": "a statement is an object with exactly one member that isn't null",
}


def of_priority(case):
    """E5: the two rules with the same priority."""
    told = []
    for holder in lists_of_rules(case):
        rules = case.root.at(holder).items()
        same = [index for index, rule in enumerate(rules) if is_priority(rule, case.refusal.detail)]
        if len(same) > 1:
            for index in same:
                path = f"{holder}[{index}].Priority"
                told.append(("found", f"{case.rule(path)}, at {case.where(case.root.at(path))}"))
            used = {rule.member("Priority").data for rule in rules if rule.member("Priority") is not None}
            free = next(number for number in range(len(used) + 1) if number not in used)
            cure = f"give one of them another priority; {free} is free, and rules are tried by ascending priority"
            return told + [("cure", cure)]
    return [("cure", "give each rule of a list its own priority")]


def is_priority(rule, text):
    priority = rule.member("Priority")
    return priority is not None and priority.kind == "number" and str(priority.data) == text


def lists_of_rules(case):
    """Returns the paths of the lists of rules, in the order in which the program reads them."""
    if case.root is None or not isinstance(case.root.plain(), dict):
        return []
    groups = [f"{path}.Rules" for path, _ in missing_references.elements(case.root.plain(), "RuleGroups")]
    return [path for path in groups + ["$.WebACL.Rules"] if case.root.at(path) is not None]


def of_action(case):
    """E6: an action that isn't one of its names."""
    expected = case.expected
    told = []
    if case.root is not None and case.value is None:
        holder = case.root.at(case.parent)
        names = [name for name, _ in holder.members()] if holder is not None else []
        told.append(("found", shapes.absent_text(case, names)))
    elif case.value is not None:
        told.append(("found", f"{kind_of(case.value)}: {shown(case.value)}"))
    if expected is None or not expected.words:
        return told
    told.append(("allowed", f"exactly one of {', '.join(expected.words)}"))
    return told + [("cure", action_cure(case))]


def action_cure(case):
    """The cure of an action: the other kind of action, a misspelt name, or one of several."""
    if case.root is None:
        return f'write "{case.step}": {case.expected.example}'
    holder, other = case.root.at(case.parent), {"Action": "OverrideAction", "OverrideAction": "Action"}.get(case.step)
    if case.value is None:
        if holder is not None and holder.member(case.step) is not None:
            return f'write "{case.step}": {case.expected.example}, or another of these names'
        if other and holder is not None and holder.member(other) is not None:
            kind = "a rule with a rule group" if case.step == "OverrideAction" else "a rule without a rule group"
            return f'{kind} has {case.step} and not {other}: write "{case.step}": {case.expected.example}'
        near = likest(case.step, [name for name, _ in holder.members()]) if holder is not None else None
        if near and not shapes.case_reads(case, near):
            return f'write "{case.step}" for "{near}"'
        return f'add "{case.step}": {case.expected.example}, or another of these names'
    if case.value.kind == "string":
        near = likest(case.value.data, case.expected.words) or case.expected.words[0]
        return f'write {{"{near}": {{}}}}'
    if case.value.kind != "object":
        return f"write an object, as {case.expected.example}"
    names = [name for name, value in case.value.members() if name in case.expected.words]
    if len(names) > 1:
        return f"it has {' and '.join(names)}: keep one of them"
    if names:
        return f'{names[0]} is null, which counts as absent: write {{"{names[0]}": {{}}}}'
    present = [name for name, _ in case.value.members()]
    near = likest(present[0], case.expected.words) if present else None
    return f'write "{near}" for "{present[0]}"' if near else f"write one of them, as {case.expected.example}"


def of_nesting(case):
    """E7: a group or a rate that isn't at the top of a rule."""
    kinds = [name for name, _ in case.value.members()] if case.value is not None else []
    told = [("found", f"{kinds[0]} inside of another statement or of a rule group")] if kinds else []
    if kinds == ["RateBasedStatement"]:
        return told + [("cure", "make it the rule's statement, and the other conditions its ScopeDownStatement")]
    if case.path and ".Statement." not in case.path.partition(".Rules")[2]:
        return told + [("cure", "refer to the group in a rule of the web ACL: a rule group has no group inside")]
    label = "give it a rule of its own, and test its labels with a LabelMatchStatement behind it"
    if kinds == ["ManagedRuleGroupStatement"]:
        label = f"make it the rule's statement, and the other conditions its ScopeDownStatement; or {label}"
    return told + [("cure", label)]


def of_missing(case):
    """E8: everything that the bundle lacks, each once."""
    bundle = case.root.plain() if case.root is not None else None
    lacking = missing_references.missing(bundle) if isinstance(bundle, dict) else []
    if not lacking:
        words = {"ARN": case.refusal.detail}
        kinds = {"ipset": "IPSets", "regexpatternset": "RegexPatternSets", "rulegroup": "RuleGroups"}
        kind = next((name for word, name in kinds.items() if f"/{word}/" in f"{case.refusal.detail}"), "RuleGroups")
        lone = references.Reference(kind, words, None, None)
        return [("missing", lone.arn), ("cure", missing_references.cure({}, lone))]
    told, seen = [], set()
    for each in lacking:
        if each.arn not in seen:
            seen.add(each.arn)
            where = case.where(case.root.at(f"{each.path}.ARN"))
            told.append(("missing", f"{each.arn}, of {each.wanted}; {case.rule(each.path)}, at {where}"))
            told.append(("cure", missing_references.cure(bundle, each)))
    acl = case.plain("$.WebACL.ARN")
    if isinstance(acl, str):
        told.append(("cure", f"or all at once: wafkit collect --arn {acl}"))
    return told


def of_base64(case):
    """E9: what is wrong with the base64."""
    if case.value is None or case.value.kind != "string":
        return [("allowed", case.expected.says)] if case.expected else []
    cause, cure = written_bytes.base64_fault(case.value.data)
    told = [("found", f"{shown(case.value)}: {cause}"), ("allowed", "canonical base64 of the standard alphabet")]
    if case.step == "SearchString":
        cure += ', or in a bundle whose search strings are all plain, "SearchStringEncoding": "TEXT" beside WebACL'
    return told + [("cure", cure)]


def of_address(case):
    """E10: what is wrong with the address."""
    if case.value is None or case.value.kind != "string":
        return [("allowed", case.expected.says)] if case.expected else []
    version = None
    if ".Addresses[" in case.path:
        version = case.plain(f"{case.path.rpartition('.Addresses[')[0]}.IPAddressVersion")
    cause, cure = written_bytes.address_fault(case.value.data, version)
    allowed = f"an address of {version}, or a range of it with / and its bits" if version else case.expected.says
    return [("found", f"{shown(case.value)}: {cause}"), ("allowed", allowed), ("cure", cure)]


LIMIT_CURES = {
    "Addresses": "divide the set into two, and refer to both in an OrStatement",
    "RegularExpressionList": "divide the set into two, and refer to both in an OrStatement",
    "RegexString": "divide the pattern at a |, and put the parts into a pattern set or an OrStatement",
    "SearchString": "search for a shorter part of it",
    "TextTransformations": "delete transformations that do the same again",
    "RuleLabels": "let another rule with the same statement add some of them",
}


def of_limit(case):
    """E11: how much there is, and how much may be."""
    value, limit = case.value, case.refusal.limit
    unit = {"SearchString": "bytes", "RegexString": "bytes"}.get(case.step)
    unit = unit or ("elements" if case.step in LIMIT_CURES else "statements in the whole bundle, groups first")
    told = []
    if value is not None and value.kind == "array":
        told.append(("found", f"{len(value.items())} elements"))
    elif value is not None and value.kind == "string" and case.step == "RegexString":
        told.append(("found", f"{len(value.data.encode('utf-8', 'surrogatepass'))} bytes"))
    elif value is not None and value.kind == "string":
        told.append(("found", f"a text of {len(value.data)} characters"))
    elif value is not None:
        told.append(("found", f"the statement number {limit + 1 if limit else 'above the limit'}"))
    told.append(("allowed", f"at most {limit} {unit}"))
    return told + [("cure", LIMIT_CURES.get(case.step, "put addresses into IP sets and patterns into pattern sets"))]


def of_namespace(case):
    """E12: the namespace's form, or what it is made of."""
    at = case.path or "$.WebACL"
    holder = case.parent if at.endswith(".LabelNamespace") else at
    kind, name = ("webacl" if at.startswith("$.WebACL") else "rulegroup"), case.plain(f"{holder}.Name")
    form = f'"awswaf:ACCOUNT:{kind}:{name or "NAME"}:"'
    if at.endswith(".LabelNamespace"):
        found = [("found", shown(case.value))] if case.value is not None else []
        found.append(("allowed", formats.NAMESPACE.says))
        return found + [("cure", f'write "LabelNamespace": {form}')]
    found = []
    if case.root is not None:
        found = [("found", f"no LabelNamespace, and the ARN {shown(case.plain(holder + '.ARN'))}")]
    arn = f"arn:aws:wafv2:REGION:ACCOUNT:regional/{kind}/{name or 'NAME'}/ID"
    allowed = "an ARN whose fifth part between colons is the account, or LabelNamespace"
    return found + [("allowed", allowed), ("cure", f'write "LabelNamespace": {form}, or "ARN": "{arn}"')]


def of_statement(case):
    """E13: how many members the statement has."""
    told = []
    names = [name for name, _ in case.value.members()] if case.value is not None else []
    if case.value is not None:
        told.append(("found", f"{len(names)} members" + (f": {', '.join(map(shown, names))}" if names else "")))
    told.append(("allowed", f"exactly one member, as {', '.join(formats.STATEMENTS)}"))
    if len(names) > 1:
        parts = ", ".join(f'{{"{name}": ..}}' for name in names)
        cure = f'write {{"AndStatement": {{"Statements": [{parts}]}}}} where all must hold, OrStatement where one must'
        return told + [("cure", cure)]
    cure = "write the statement; boto3 gives an empty one where it is older than the statement's kind"
    return told + [("cure", f"{cure}: collect it with a newer one")]


def of_review(case):
    """E0: what the first rule is that can't be reviewed yet."""
    told = []
    if case.value is not None and case.value.kind == "array":
        told.append(("found", f"{len(case.value.items())} rules"))
    elif case.value is not None:
        statement, labels = case.value.member("Statement"), case.value.member("RuleLabels")
        action = case.value.member("Action") or case.value.member("OverrideAction")
        acts = shown(action) if action is not None else "no action"
        told.append(("found", f"the statement {shown(statement)} with {acts}"))
        if labels is not None:
            told.append(("found", f"labels {shown(labels)}"))
    allowed = "at most 1000 rules, each a ByteMatchStatement EXACTLY on UriPath with NONE, Allow or Block, no labels"
    told.append(("allowed", allowed))
    return told + [("cure", "replay requests through both: wafreview impact OLD NEW LOG")]


BY_CODE = {
    "E0": of_review,
    "E2": shapes.of_shape,
    "E3": shapes.of_number,
    "E4": shapes.of_name,
    "E5": of_priority,
    "E6": of_action,
    "E7": of_nesting,
    "E8": of_missing,
    "E9": of_base64,
    "E10": of_address,
    "E11": of_limit,
    "E12": of_namespace,
    "E13": of_statement,
}
