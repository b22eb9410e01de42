"""What stands for what isn't known before something is deployed: ids, ARNs and the account.

An id is the version 5 UUID of the kind and the name under which the source knows the thing (the logical id in a
template, the address in a plan), so it is the same wherever the thing is referred to, and in the next revision too.
"""

import uuid

ACCOUNT = "000000000000"
REGION = "us-east-1"
# The kinds of things, as their ARNs name them, with the list of the bundle in which they stand.
KINDS = {"webacl": "WebACL", "ipset": "IPSets", "regexpatternset": "RegexPatternSets", "rulegroup": "RuleGroups"}


class Place:
    """Where the things of a source are deployed: account, region and partition, given or made up."""

    def __init__(self, account=None, region=None):
        self.given_account = account
        self.account = account or ACCOUNT
        self.region = region or REGION

    @property
    def partition(self):
        """The partition of the region."""
        starts = {"cn-": "aws-cn", "us-gov-": "aws-us-gov"}
        return next((partition for start, partition in starts.items() if self.region.startswith(start)), "aws")

    def arn(self, kind, name, identity, scope, region=None):
        """Returns the ARN of a thing of that kind, name, id and scope."""
        where = "global" if scope == "CLOUDFRONT" else "regional"
        region = "us-east-1" if scope == "CLOUDFRONT" else region or self.region
        return f"arn:{self.partition}:wafv2:{region}:{self.account}:{where}/{kind}/{name}/{identity}"


def identity(kind, source_name):
    """Returns the made-up id of a thing."""
    return str(uuid.uuid5(uuid.NAMESPACE_URL, f"wafkit:{kind}:{source_name}"))


def warn_of_account(place, remarks):
    """Says that the account is made up, where it is: label namespaces hold it."""
    if not place.given_account:
        remarks.warn(
            f"the account isn't known: {place.account} stands for it in ARNs and label namespaces; --account gives it"
        )
