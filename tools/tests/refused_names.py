"""Files with names, labels and priorities that aren't taken (E4, E5)."""

from tests.refused_files import (
    GROUP_ARN,
    MATCH,
    GEO,
    REQUEST,
    rule,
    bundle,
    matching,
    of,
    request,
    answers,
    log,
    place,
    AT,
)

OVER = {"FieldToMatch": {"Body": {"OversizeHandling": "continue"}}, **{"TextTransformations": []}}
SAME = bundle(rule(MATCH, "one", 4), rule(GEO, "two", 0), rule(GEO, "three", 4))
SAME_INSIDE = {"ARN": GROUP_ARN, "Name": "shared", "Capacity": 5, "Rules": [rule(GEO, "a", 1), rule(GEO, "b", 1)]}
SAME_INSIDE = bundle(RuleGroups=[{"RuleGroup": SAME_INSIDE}])
ROWS = [
    # E4
    of(
        "a name in small letters",
        f"E4 {AT}.Statement.ByteMatchStatement.PositionalConstraint",
        matching(PositionalConstraint="starts_with"),
        'found "starts_with"',
        "allowed one of EXACTLY, STARTS_WITH, ENDS_WITH, CONTAINS, CONTAINS_WORD",
        'cure write "STARTS_WITH"',
    ),
    of(
        "oversize handling",
        f"E4 {AT}.Statement.ByteMatchStatement.FieldToMatch.Body.OversizeHandling",
        matching(**OVER),
        "allowed one of CONTINUE, MATCH, NO_MATCH",
        'cure write "CONTINUE"',
    ),
    of(
        "a name with a space",
        "E4 $.WebACL.Name",
        bundle(acl={"Name": "my shop"}),
        "allowed 1 to 128 of A-Z, a-z, 0-9, _ and -",
        "cure write it without ' '",
    ),
    of(
        "a body limit",
        "E4 $.WebACL.AssociationConfig.RequestBody.CLOUDFRONT.DefaultSizeInspectionLimit",
        bundle(acl={"AssociationConfig": {"RequestBody": {"CLOUDFRONT": {"DefaultSizeInspectionLimit": "16KB"}}}}),
        "allowed one of KB_16, KB_32, KB_48, KB_64",
    ),
    answers(
        "a verdict",
        "E4 $.Groups[0].Verdict",
        {"Groups": [{"Key": "{}", "Verdict": "Block"}]},
        'cure write "BLOCK"',
    ),
    answers(
        "a label",
        "E4 $.Groups[0].Labels[0]",
        {"Groups": [{"Key": "{}", "Verdict": "NONE", "Labels": ["bad"]}]},
        'cure write the whole label, as "awswaf:managed:aws:GROUP:bad"',
    ),
    request("a method", "E4 $.httpMethod", {**REQUEST, "httpMethod": "G T"}, "cure write it without ' '"),
    log(
        "an empty name of a header",
        "log:1 E4 $.httpRequest.headers[0].name",
        b'{"httpRequest":{"httpMethod":"GET","uri":"/","clientIp":"192.0.2.1","headers":[{"name":"","value":""}]}}',
        "where log.json:1:88",
        "cure write a text that isn't empty",
    ),
    # E5
    of(
        "two rules of one priority",
        "E5 4",
        SAME,
        'found "one", rule 1 of the web ACL "shop", at ' + place(SAME, '"Priority": 4'),
        'found "three", rule 3 of the web ACL "shop", at ' + place(SAME, '"Priority": 4', 1),
        "cure give one of them another priority; 1 is free, and rules are tried by ascending priority",
    ),
    of(
        "two rules of a group",
        "E5 1",
        SAME_INSIDE,
        'found "b", rule 2 of the rule group "shared", at ' + place(SAME_INSIDE, '"Priority": 1', 1),
    ),
]
