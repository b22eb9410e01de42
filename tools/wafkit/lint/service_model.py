"""The service's model that botocore has, with the structures beside it that only bundles and answers have."""

import functools

from ..fault import package

COMMAND = "lint"
# Read from the package alone, not from the user's folder of models.
SERVICE, KIND = "wafv2", "service-2"


def text(**traits):
    """Returns the description of a text, as the service's model has it."""
    return {"type": "string", **traits}


def a_list(shape):
    """Returns the description of a list of that shape."""
    return {"type": "list", "member": {"shape": shape}}


def a_structure(required=(), **members):
    """Returns the description of an object whose members have these shapes."""
    shapes = {name: {"shape": shape} for name, shape in members.items()}
    return {"type": "structure", "required": list(required), "members": shapes}


# What stands beside a web ACL, set or group in the answer of a call, or in a bundle that was collected.
RECORD = {"ResponseMetadata": "Anything", "Notes": "Anything", "LockToken": "Anything"}

# What a bundle and answers are (docs/FORMATS.md). The names of structures are those of the table of reading.py.
OWN_SHAPES = {
    "Anything": {"type": "structure", "members": {}, "document": True},
    "Bundle": a_structure(
        ["WebACL"],
        WebACL="WebACL",
        SearchStringEncoding="SearchStringEncoding",
        IPSets="BundleIPSets",
        RegexPatternSets="BundleRegexPatternSets",
        ManagedCapacities="ManagedCapacities",
        RuleGroups="BundleRuleGroups",
        ApplicationIntegrationURL="Anything",
        **RECORD,
    ),
    "SearchStringEncoding": text(enum=["BASE64", "TEXT"]),
    "BundleIPSets": a_list("IPSet"),
    "BundleRegexPatternSets": a_list("RegexPatternSet"),
    "BundleRuleGroups": a_list("RuleGroup"),
    "WrappedIPSet": a_structure(IPSet="IPSet", **RECORD),
    "WrappedRegexPatternSet": a_structure(RegexPatternSet="RegexPatternSet", **RECORD),
    "WrappedRuleGroup": a_structure(RuleGroup="RuleGroup", **RECORD),
    "ManagedCapacities": a_list("ManagedCapacity"),
    "ManagedCapacity": a_structure(
        ["VendorName", "Name", "Capacity"],
        VendorName="VendorName",
        Name="EntityName",
        Version="VersionKeyString",
        Capacity="ConsumedCapacity",
    ),
    "Answers": a_structure(Statements="StatementAnswers", Groups="GroupAnswers", Tokens="TokenAnswers"),
    "StatementAnswers": a_list("StatementAnswer"),
    "StatementAnswer": a_structure(["Key", "Match"], Key="AnswerKey", Match="Boolean"),
    "GroupAnswers": a_list("GroupAnswer"),
    "GroupAnswer": a_structure(["Key", "Verdict"], Key="AnswerKey", Verdict="Verdict", Labels="AnswerLabels"),
    "AnswerKey": text(),
    "Verdict": text(enum=["NONE", "ALLOW", "BLOCK", "CAPTCHA", "CHALLENGE"]),
    "AnswerLabels": a_list("AnswerLabel"),
    "AnswerLabel": text(pattern="^awswaf:managed:[0-9A-Za-z_\\-:]*$"),
    "TokenAnswers": a_list("TokenAnswer"),
    "TokenAnswer": a_structure(
        ["Kind", "ImmunityTime", "Valid"],
        Kind="TokenKind",
        ImmunityTime="TimeWindowSecond",
        Valid="Boolean",
    ),
    "TokenKind": text(enum=["CAPTCHA", "CHALLENGE"]),
}

# Elements of these lists may stand in a member of their own name, as the get calls print them.
WRAPPED = ("IPSet", "RegexPatternSet", "RuleGroup")


class Model:
    """The shapes of the service and of bundles, and the words that say of which version they are."""

    def __init__(self):
        loaders = package("botocore.loaders", COMMAND, "botocore (it comes with boto3)")
        model = package("botocore.model", COMMAND, "botocore (it comes with boto3)")
        version = package("botocore", COMMAND, "botocore (it comes with boto3)").__version__
        loader = loaders.Loader([loaders.Loader.BUILTIN_DATA_PATH], include_default_search_paths=False)
        description = loader.load_service_model(SERVICE, KIND)
        whole = {**description, "shapes": {**description["shapes"], **OWN_SHAPES}}
        self.service = model.ServiceModel(whole, SERVICE)
        self.api_version, self.botocore, self.shapes = self.service.api_version, version, {}

    def shape(self, name):
        """Returns the shape of that name. It is kept, for it keeps the shapes of its members."""
        if name not in self.shapes:
            self.shapes[name] = self.service.shape_for(name)
        return self.shapes[name]

    def says(self):
        """Returns of which service and version the names are."""
        return f"{SERVICE} {self.api_version} of botocore {self.botocore}"


@functools.lru_cache(maxsize=None)
def model():
    """Returns the model, which is read once."""
    return Model()
