"""Files with faults of actions, references, bytes, addresses, limits, namespaces and statements (E6 to E13)."""


from tests.refused_files import (
    ACL_ARN,
    IP_ARN,
    PATTERNS_ARN,
    GROUP_ARN,
    LOOK,
    MATCH,
    MANAGED,
    RATE,
    GEO,
    IP,
    IP_SET,
    REQUEST,
    rule,
    bundle,
    matching,
    of,
    request,
    place,
    AT,
)

LACKING = bundle(
    rule({"OrStatement": {"Statements": [IP, {"NotStatement": {"Statement": IP}}]}}, "office"),
    rule({"RegexPatternSetReferenceStatement": {"ARN": PATTERNS_ARN, **LOOK}}, "bots", 1),
    rule({"RuleGroupReferenceStatement": {"ARN": GROUP_ARN}}, "group", 2, OverrideAction={"None": {}}),
)
LACKING_INSIDE = {"ARN": GROUP_ARN, "Name": "shared", "Capacity": 5, "Rules": [rule(IP)]}
LACKING_INSIDE = bundle(RuleGroups=[{"RuleGroup": LACKING_INSIDE}])
ROWS = [
    # E6
    of(
        "a small letter",
        f"E6 {AT}.Action",
        bundle(rule(MATCH, Action={"block": {}})),
        'found an object: {"block": {}}',
        "allowed exactly one of Allow, Block, Count, Captcha, Challenge",
        'cure write "Block" for "block"',
    ),
    of("an action in quotes", f"E6 {AT}.Action", bundle(rule(MATCH, Action="Block")), 'cure write {"Block": {}}'),
    of(
        "two actions",
        f"E6 {AT}.Action",
        bundle(rule(MATCH, Action={"Block": {}, "Count": {}})),
        "cure it has Block and Count: keep one of them",
    ),
    of(
        "a null action",
        f"E6 {AT}.Action",
        bundle(rule(MATCH, Action={"Block": None})),
        'cure Block is null, which counts as absent: write {"Block": {}}',
    ),
    of(
        "an override action of a rule",
        f"E6 {AT}.Action",
        bundle(rule(MATCH, OverrideAction={"None": {}})),
        'cure a rule without a rule group has Action and not OverrideAction: write "Action": {"Count": {}}',
    ),
    of(
        "an action of a group",
        f"E6 {AT}.OverrideAction",
        bundle(rule(MANAGED)),
        'cure a rule with a rule group has OverrideAction and not Action: write "OverrideAction": {"None": {}}',
    ),
    of(
        "no default action",
        "E6 $.WebACL.DefaultAction",
        bundle(acl={"DefaultAction": {"Count": {}}}),
        "allowed exactly one of Allow, Block",
    ),
    # E7
    of(
        "a managed group inside",
        f"E7 {AT}.Statement.AndStatement.Statements[1]",
        bundle(rule({"AndStatement": {"Statements": [GEO, MANAGED]}})),
        "found ManagedRuleGroupStatement inside of another statement or of a rule group",
        "cure make it the rule's statement, and the other conditions its ScopeDownStatement; "
        "or give it a rule of its own, and test its labels with a LabelMatchStatement behind it",
    ),
    of(
        "a rate inside",
        f"E7 {AT}.Statement.NotStatement.Statement",
        bundle(rule({"NotStatement": {"Statement": RATE}})),
        "cure make it the rule's statement, and the other conditions its ScopeDownStatement",
    ),
    of(
        "a group inside a group",
        "E7 $.RuleGroups[0].Rules[0].Statement",
        bundle(RuleGroups=[{"ARN": GROUP_ARN, "Name": "shared", "Capacity": 5, "Rules": [rule(MANAGED)]}]),
        "cure refer to the group in a rule of the web ACL: a rule group has no group inside",
    ),
    # E8
    of(
        "everything is missing",
        f"E8 {IP_ARN}",
        LACKING,
        f'missing {IP_ARN}, of IPSets; "office", rule 1 of the web ACL "shop", at '
        + place(LACKING, f'"ARN": "{IP_ARN}'),
        f'missing {PATTERNS_ARN}, of RegexPatternSets; "bots", rule 2 of the web ACL "shop", at '
        + place(LACKING, f'"ARN": "{PATTERNS_ARN}'),
        f'missing {GROUP_ARN}, of RuleGroups; "group", rule 3 of the web ACL "shop", at '
        + place(LACKING, f'"ARN": "{GROUP_ARN}'),
        "cure put into IPSets what this prints: "
        "aws wafv2 get-ip-set --scope REGIONAL --name office --id b1 --region us-east-1",
        "cure put into RegexPatternSets what this prints: "
        "aws wafv2 get-regex-pattern-set --scope REGIONAL --name bots --id b2 --region us-east-1",
        f"cure or all at once: wafkit collect --arn {ACL_ARN}",
    ),
    of(
        "a set in another list",
        f"E8 {IP_ARN}",
        bundle(
            rule(IP),
            RuleGroups=[{"ARN": IP_ARN, "Name": "office", "Capacity": 0}],
        ),
        "cure $.RuleGroups[0] has this ARN: it belongs into the list IPSets",
    ),
    of(
        "a set of a group",
        f"E8 {IP_ARN}",
        LACKING_INSIDE,
        f'missing {IP_ARN}, of IPSets; "admin", rule 1 of the rule group "shared", at '
        + place(LACKING_INSIDE, f'"ARN": "{IP_ARN}'),
    ),
    # E9
    of(
        "a plain search string",
        f"E9 {AT}.Statement.ByteMatchStatement.SearchString",
        matching(SearchString="/admin?x"),
        "found \"/admin?x\": '?' is none of A-Z, a-z, 0-9, + and /: it looks like the text itself",
        'cure if the text itself is meant, write "L2FkbWluP3g=", or in a bundle whose search strings are all plain, '
        '"SearchStringEncoding": "TEXT" beside WebACL',
    ),
    of(
        "padding is missing",
        f"E9 {AT}.Statement.ByteMatchStatement.SearchString",
        matching(SearchString="c3RhZmY"),
        'found "c3RhZmY": its padding isn\'t the one of its length',
    ),
    request("a plain body", "E9 $.body", {**REQUEST, "body": "{}"}, 'cure if the text itself is meant, write "e30="'),
    request(
        "a line break",
        "E9 $.headers[0].valueBase64",
        {**REQUEST, "headers": [{"name": "a", "valueBase64": "YWJj\nZGVm"}]},
        'found "YWJj\\nZGVm": it has white space',
    ),
    # E10
    of(
        "all addresses",
        "E10 $.IPSets[0].Addresses[1]",
        bundle(IPSets=[{**IP_SET, "Addresses": ["192.0.2.1", "0.0.0.0/0"]}]),
        'found "0.0.0.0/0": a prefix has at least 1 bit',
        'cure write the two halves: "0.0.0.0/1", "128.0.0.0/1"',
    ),
    of(
        "an address of the other version",
        "E10 $.IPSets[0].IPSet.Addresses[0]",
        bundle(IPSets=[{"IPSet": {**IP_SET, "Addresses": ["2001:db8::/32"]}}]),
        'found "2001:db8::/32": it is of IPv6, and the set is of IPv4',
    ),
    of(
        "a leading zero",
        "E10 $.IPSets[0].Addresses[0]",
        bundle(IPSets=[{**IP_SET, "Addresses": ["192.0.2.010/31"]}]),
        'cure write "192.0.2.10/31"',
    ),
    request("a port", "E10 $.clientIp", {**REQUEST, "clientIp": "192.0.2.1:443"}, 'cure write "192.0.2.1"'),
    request(
        "a range",
        "E10 $.clientIp",
        {**REQUEST, "clientIp": "192.0.2.0/24"},
        'cure write one address, as "192.0.2.0"',
    ),
    request(
        "two addresses",
        "E10 $.clientIp",
        {**REQUEST, "clientIp": "192.0.2.1, 192.0.2.2"},
        "cure write the client's address alone",
    ),
    request(
        "a dotted tail",
        "E10 $.clientIp",
        {**REQUEST, "clientIp": "::ffff:192.0.2.1"},
        'cure write "0000:0000:0000:0000:0000:ffff:c000:0201"',
    ),
    request("a zone", "E10 $.clientIp", {**REQUEST, "clientIp": "fe80::1%eth0"}, 'cure write "fe80::1"'),
    # E11
    of(
        "too many addresses",
        "E11 $.IPSets[0].Addresses 10000",
        bundle(IPSets=[{**IP_SET, "Addresses": ["192.0.2.1"] * 10_001}]),
        "found 10001 elements",
        "allowed at most 10000 elements",
        "cure divide the set into two, and refer to both in an OrStatement",
    ),
    of(
        "a long pattern",
        f"E11 {AT}.Statement.RegexMatchStatement.RegexString 4096",
        bundle(rule({"RegexMatchStatement": {"RegexString": "a" * 4097, **LOOK}})),
        "found 4097 bytes",
        "allowed at most 4096 bytes",
    ),
    of(
        "a long search string",
        f"E11 {AT}.Statement.ByteMatchStatement.SearchString 8192",
        matching(SearchString="YWFh" * 2731),
        "allowed at most 8192 bytes",
        "cure search for a shorter part of it",
    ),
    of(
        "too many statements",
        f"E11 {AT}.Statement.OrStatement.Statements[19999] 20000",
        bundle(rule({"OrStatement": {"Statements": [GEO] * 20_000}})),
        "found the statement number 20001",
        "allowed at most 20000 statements in the whole bundle, groups first",
    ),
    # E12
    of(
        "a namespace without a colon",
        "E12 $.WebACL.LabelNamespace",
        bundle(acl={"LabelNamespace": "awswaf:111122223333:webacl:shop"}),
        'found "awswaf:111122223333:webacl:shop"',
        "allowed a text that begins awswaf: and ends :",
        'cure write "LabelNamespace": "awswaf:ACCOUNT:webacl:shop:"',
    ),
    of(
        "no account",
        "E12 $.WebACL",
        bundle(acl={"ARN": None}),
        "found no LabelNamespace, and the ARN null",
        'cure write "LabelNamespace": "awswaf:ACCOUNT:webacl:shop:", or '
        '"ARN": "arn:aws:wafv2:REGION:ACCOUNT:regional/webacl/shop/ID"',
    ),
    of(
        "a group without an account",
        "E12 $.RuleGroups[0]",
        bundle(RuleGroups=[{"ARN": "shared", "Name": "shared", "Capacity": 5}]),
        'found no LabelNamespace, and the ARN "shared"',
    ),
    # E13
    of(
        "two statements in one",
        f"E13 {AT}.Statement",
        bundle(rule({**MATCH, **GEO})),
        'found 2 members: "ByteMatchStatement", "GeoMatchStatement"',
        'cure write {"AndStatement": {"Statements": [{"ByteMatchStatement": ..}, {"GeoMatchStatement": ..}]}} '
        "where all must hold, OrStatement where one must",
    ),
    of(
        "an empty statement",
        f"E13 {AT}.Statement.NotStatement.Statement",
        bundle(rule({"NotStatement": {"Statement": {}}})),
        "found 0 members",
    ),
]
