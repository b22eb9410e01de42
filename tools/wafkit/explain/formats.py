"""What the program reads at each place of a file, as docs/FORMATS.md lists it: the kind of value, names and ranges."""

import re

LARGEST = 2**31 - 1


class Expected:
    """What is read at a place. `says` is a phrase, `kind` a JSON kind or `any`; a type's name stands for the type."""

    def __init__(self, kind, says, members=None, needed=(), item=None, words=(), example=None):
        self.kind, self.says, self.needed, self.item, self.words = kind, says, needed, item, words
        self.members, self.example = members or {}, example

    def at(self, step):
        """Returns what is read at a member or an index of it, or None where that isn't read."""
        inner = self.item if isinstance(step, int) else self.members.get(step, self.members.get("*"))
        return TYPES[inner] if isinstance(inner, str) else inner


def words(*names):
    return Expected("string", "one of " + ", ".join(names), words=names, example=f'"{names[0]}"')


def number(least, most):
    return Expected("number", f"a whole number {least} to {most}", example=str(least))


def items(item, says):
    return Expected("array", f"a list of {says}", item=item, example="[]")


def structure(needed, says=None, **members):
    names = [name for name in members if name != "*"]
    listed = [name if name in needed else f"{name} (optional)" for name in names]
    return Expected("object", says or f"an object with {', '.join(listed)}", members, needed, example="{}")


def one_of(says, *names, **inner):
    members = {name: inner.get(name, ANY) for name in names}
    example = f'{{"{names[0]}": {{}}}}'
    return Expected("object", f"{says} {', '.join(names)}", members, words=names, example=example)


ANY = Expected("any", "any value", example="{}")
TEXT = Expected("string", "a text", example='"TEXT"')
TRUTH = Expected("boolean", "true or false", example="true")
NAME = Expected("string", "1 to 128 of A-Z, a-z, 0-9, _ and -", example='"NAME"')
LABEL = Expected("string", "1 to 1024 of A-Z, a-z, 0-9, _, - and :", example='"LABEL"')
NAMESPACE = Expected("string", "a text that begins awswaf: and ends :", example='"awswaf:ACCOUNT:webacl:NAME:"')
MANAGED_LABEL = Expected("string", "awswaf:managed: followed by A-Z, a-z, 0-9, _, - and :")
MANAGED_LABEL.example = '"awswaf:managed:aws:x"'
BODY = Expected("string", "canonical base64 of the standard alphabet", example='""')
BASE64 = Expected("string", f"{BODY.says}, or the text itself under TEXT", example='"L2FkbWlu"')
TOKEN = Expected("string", "a token: 1 or more of A-Z, a-z, 0-9 and !#$%&'*+-.^_`|~", example='"GET"')
FILLED = Expected("string", "a text that isn't empty", example='"host"')
ADDRESS = Expected("string", "an IPv4 or IPv6 address", example='"192.0.2.1"')
RANGE = Expected("string", "an address or a range of the set's version", example='"192.0.2.0/24"')
TIME = structure(("ImmunityTime",), ImmunityTime=number(1, 1_000_000_000))
IMMUNITY = structure((), ImmunityTimeProperty=TIME)
CODE = structure(("ResponseCode",), ResponseCode=number(200, 599))
BLOCK = structure((), CustomResponse=CODE)
# One that is no object counts as one without a response.
BLOCK.kind = "any"
ACTION = one_of("an object with exactly one of", "Allow", "Block", "Count", "Captcha", "Challenge", Block=BLOCK)
# The one that changes no decision by itself.
ACTION.example = '{"Count": {}}'
DEFAULT_ACTION = one_of("an object with exactly one of", "Allow", "Block", Block=BLOCK)
OVERRIDE = one_of("an object with exactly one of", "None", "Count")
OVERSIZE = words("CONTINUE", "MATCH", "NO_MATCH")
NAMED = structure(("Name",), Name=TEXT)
TRANSFORM = structure(("Priority", "Type"), Priority=number(0, LARGEST), Type=TEXT)
TRANSFORMS = items(TRANSFORM, "objects with Priority and Type")
TRANSFORMS.example = '[{"Priority": 0, "Type": "NONE"}]'


def parts(kind):
    """Returns what Headers or Cookies are."""
    lists = {f"{which}{kind}": items(TEXT, "names") for which in ("Included", "Excluded")}
    pattern = one_of("an object with exactly one of", "All", *lists, **lists)
    scope = words("ALL", "KEY", "VALUE")
    return structure(("MatchPattern", "MatchScope"), MatchPattern=pattern, MatchScope=scope, OversizeHandling=OVERSIZE)


FIELD = one_of(
    "an object with exactly one member, as",
    *("SingleHeader", "SingleQueryArgument", "AllQueryArguments", "UriPath", "QueryString", "Method", "Body"),
    *("Headers", "Cookies", "JsonBody", "HeaderOrder", "JA3Fingerprint", "JA4Fingerprint", "UriFragment"),
    SingleHeader=NAMED,
    SingleQueryArgument=NAMED,
    Body=structure((), OversizeHandling=OVERSIZE),
    Headers=parts("Headers"),
    Cookies=parts("Cookies"),
)
FIELD.example = '{"UriPath": {}}'
LOOKS = {"FieldToMatch": FIELD, "TextTransformations": TRANSFORMS}
LOOKED = ("FieldToMatch", "TextTransformations")
POSITION = words("EXACTLY", "STARTS_WITH", "ENDS_WITH", "CONTAINS", "CONTAINS_WORD")
COMPARISON = words("EQ", "NE", "LE", "LT", "GE", "GT")
FORWARDED = structure(
    ("HeaderName", "FallbackBehavior", "Position"),
    HeaderName=TEXT,
    FallbackBehavior=words("MATCH", "NO_MATCH"),
    Position=words("FIRST", "LAST", "ANY"),
)
RULE_OVERRIDE = structure(("Name", "ActionToUse"), Name=TEXT, ActionToUse=ACTION)
OVERRIDES = items(RULE_OVERRIDE, "objects with Name and ActionToUse")
SCOPED = {"ScopeDownStatement": "statement"}
STATEMENTS = {
    "ByteMatchStatement": structure(
        ("SearchString", *LOOKED, "PositionalConstraint"), SearchString=BASE64, **LOOKS, PositionalConstraint=POSITION
    ),
    "SizeConstraintStatement": structure(
        (*LOOKED, "ComparisonOperator", "Size"), **LOOKS, ComparisonOperator=COMPARISON, Size=number(0, 2**63 - 1)
    ),
    "RegexMatchStatement": structure(("RegexString", *LOOKED), RegexString=TEXT, **LOOKS),
    "RegexPatternSetReferenceStatement": structure(("ARN", *LOOKED), ARN=TEXT, **LOOKS),
    "IPSetReferenceStatement": structure(("ARN",), ARN=TEXT, IPSetForwardedIPConfig=FORWARDED),
    "LabelMatchStatement": structure(("Scope", "Key"), Scope=words("LABEL", "NAMESPACE"), Key=LABEL),
    "AndStatement": structure(("Statements",), Statements=items("statement", "statements")),
    "OrStatement": structure(("Statements",), Statements=items("statement", "statements")),
    "NotStatement": structure(("Statement",), Statement="statement"),
    "RateBasedStatement": structure((), CustomKeys=items(ANY, "keys"), **SCOPED),
    "RuleGroupReferenceStatement": structure(
        ("ARN",), ARN=TEXT, ExcludedRules=items(NAMED, "objects with Name"), RuleActionOverrides=OVERRIDES
    ),
    "ManagedRuleGroupStatement": structure(("VendorName", "Name"), VendorName=TEXT, Name=TEXT, Version=TEXT, **SCOPED),
    "SqliMatchStatement": structure(LOOKED, **LOOKS, SensitivityLevel=TEXT),
    "XssMatchStatement": structure(LOOKED, **LOOKS),
    "GeoMatchStatement": Expected("object", "an object"),
    "AsnMatchStatement": Expected("object", "an object"),
}
CONFIGURED = {"CaptchaConfig": IMMUNITY, "ChallengeConfig": IMMUNITY}
LIMITED = structure(
    ("DefaultSizeInspectionLimit",), DefaultSizeInspectionLimit=words("KB_16", "KB_32", "KB_48", "KB_64")
)
IP_SET = {"ARN": TEXT, "IPAddressVersion": words("IPV4", "IPV6"), "Addresses": items(RANGE, "texts")}
PATTERN = structure(("RegexString",), RegexString=TEXT)
PATTERN_SET = {"ARN": TEXT, "RegularExpressionList": items(PATTERN, "objects with RegexString")}
GROUP = {"ARN": TEXT, "Name": NAME, "LabelNamespace": NAMESPACE, "Capacity": number(0, 1_000_000)}
GROUP = {**GROUP, "Rules": items("rule", "rules")}
HEADER = structure(("name", "value"), name=FILLED, valueBase64=BODY, value=TEXT)
TYPES = {
    "statement": one_of("an object with exactly one member, as", *STATEMENTS, **STATEMENTS),
    "rule": structure(
        ("Name", "Priority", "Statement", "Action"),
        Name=NAME,
        Priority=number(0, LARGEST),
        Statement="statement",
        Action=ACTION,
        OverrideAction=OVERRIDE,
        RuleLabels=items(structure(("Name",), Name=LABEL), "objects with Name"),
        **CONFIGURED,
    ),
    "IP set": structure(tuple(IP_SET), **IP_SET, IPSet="IP set"),
    "pattern set": structure(tuple(PATTERN_SET), **PATTERN_SET, RegexPatternSet="pattern set"),
    "rule group": structure(("ARN", "Name", "Capacity"), **GROUP, RuleGroup="rule group"),
    "managed capacity": structure(
        ("VendorName", "Name", "Capacity"), VendorName=TEXT, Name=TEXT, Version=TEXT, Capacity=number(0, 1_000_000)
    ),
    "web ACL": structure(
        ("Name", "DefaultAction"),
        Name=NAME,
        ARN=TEXT,
        LabelNamespace=NAMESPACE,
        DefaultAction=DEFAULT_ACTION,
        **CONFIGURED,
        AssociationConfig=structure((), RequestBody=structure((), "an object of objects", **{"*": LIMITED})),
        Rules=items("rule", "rules"),
    ),
    "bundle": structure(
        ("WebACL",),
        SearchStringEncoding=words("BASE64", "TEXT"),
        IPSets=items("IP set", "IP sets"),
        RegexPatternSets=items("pattern set", "pattern sets"),
        ManagedCapacities=items("managed capacity", "capacities"),
        RuleGroups=items("rule group", "rule groups"),
        WebACL="web ACL",
    ),
    "request": structure(
        ("httpMethod", "uri", "clientIp"),
        httpMethod=TOKEN,
        uri=TEXT,
        args=TEXT,
        clientIp=ADDRESS,
        headers=items(HEADER, "objects with name and value"),
        body=BODY,
        httpRequest="request",
    ),
    "answers": structure(
        (),
        Statements=items(structure(("Key", "Match"), Key=TEXT, Match=TRUTH), "objects with Key and Match"),
        Groups=items(
            structure(
                ("Key", "Verdict"),
                Key=TEXT,
                Verdict=words("NONE", "ALLOW", "BLOCK", "CAPTCHA", "CHALLENGE"),
                Labels=items(MANAGED_LABEL, "texts"),
            ),
            "objects with Key, Verdict and Labels",
        ),
        Tokens=items(
            structure(
                ("Kind", "ImmunityTime", "Valid"),
                Kind=words("CAPTCHA", "CHALLENGE"),
                ImmunityTime=number(1, 1_000_000_000),
                Valid=TRUTH,
            ),
            "objects with Kind, ImmunityTime and Valid",
        ),
    ),
}
# What the text of each role is.
ROLES = {"bundle": "bundle", "old": "bundle", "new": "bundle"}
ROLES.update({"request": "request", "log": "request", "answers": "answers"})


def steps_of(path):
    """Returns the members and indices of a path (`$.WebACL.Rules[3].Action`)."""
    return [int(index) if index else name for name, index in re.findall(r"\.([^.\[]*)|\[(\d+)\]", path[1:])]


def expected_at(role, path):
    """Returns what the program reads at that path of the file of that role, or None where it reads nothing there."""
    found = TYPES[ROLES[role]]
    for step in steps_of(path):
        found = found and found.at(step)
    return found
