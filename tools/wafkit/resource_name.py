"""Names of the service's resources: ARNs of web ACLs, IP sets, pattern sets and rule groups."""

import re

from . import status
from .fault import Fault

# arn:aws:wafv2:us-east-1:111122223333:regional/webacl/shop/a1
PARTS = re.compile(
    r"arn:(?P<partition>[^:/]+):wafv2:(?P<region>[^:/]+):(?P<account>[^:/]+):"
    r"(?P<reach>regional|global)/(?P<kind>[a-z]+)/(?P<name>[^/]+)/(?P<id>[^/]+)"
)
SCOPES = {"regional": "REGIONAL", "global": "CLOUDFRONT"}
# The region whose endpoint answers for the web ACLs of CloudFront.
CLOUDFRONT_REGION = "us-east-1"


class ResourceName:
    """The parts of an ARN of the service."""

    def __init__(self, arn, parts):
        self.arn, self.region, self.account, self.kind = arn, parts["region"], parts["account"], parts["kind"]
        self.scope, self.name, self.id = SCOPES[parts["reach"]], parts["name"], parts["id"]

    def words(self):
        """Returns the arguments by which the get calls of the service find it."""
        return {"Name": self.name, "Scope": self.scope, "Id": self.id}


def read(arn):
    """Returns the parts of the ARN, or None where it isn't one of this service."""
    parts = PARTS.fullmatch(arn) if isinstance(arn, str) else None
    return ResourceName(arn, parts) if parts else None


def needed(arn, kind):
    """Returns the parts of the ARN, or ends the command where it isn't one of that kind."""
    name = read(arn)
    if name is None or name.kind != kind:
        raise Fault(f"{arn} is no ARN of a {kind} of wafv2", status.USAGE)
    return name
