"""A line of a log as a record. Whatever isn't of the kind that the service writes counts as absent: the program judges
the line, not this reader."""

import json

# So many labels of a request the service logs at most; of a line that has as many, some may lack.
MOST_LABELS = 100
REDACTED = "REDACTED"


class Record:
    """What a line of a log says beside the request."""

    def __init__(self, line):
        try:
            value = json.loads(line)
        except (ValueError, RecursionError):
            value = None
        self.value = value if isinstance(value, dict) else {}
        inner = self.value.get("httpRequest")
        self.request = inner if isinstance(inner, dict) else self.value

    def text(self, name):
        """Returns the text of that member of the record, or None."""
        return text_of(self.value, name)

    def objects(self, name):
        """Returns the objects in the list of that member of the record."""
        return objects_of(self.value, name)

    @property
    def country(self):
        """The country of the client's address, `-` where the service knew none, or None."""
        return text_of(self.request, "country")

    @property
    def labels(self):
        """The names of the labels of the request, or None where some may lack."""
        names = [text_of(it, "name") for it in self.objects("labels")]
        return None if len(names) >= MOST_LABELS or None in names else names

    def label_behind(self, start):
        """Returns what stands behind that beginning in the one label that has it, or None."""
        names = [text_of(it, "name") or "" for it in self.objects("labels")]
        found = {name[len(start) :] for name in names if name.startswith(start)}
        return found.pop() if len(found) == 1 else None

    def headers(self):
        """Returns the headers as pairs of the name in lower case and the value, or None where some may lack."""
        oversized = self.value.get("overSizeFields")
        if oversized or not isinstance(self.request.get("headers"), list):
            return None
        found = objects_of(self.request, "headers")
        return [((text_of(it, "name") or "").lower(), text_of(it, "value")) for it in found]

    def rule_groups(self, is_it):
        """Returns the entries of the rule group list whose id is such."""
        return [it for it in self.objects("ruleGroupList") if is_it(text_of(it, "ruleGroupId") or "")]


def text_of(value, name):
    """Returns the text of a member of an object, or None."""
    found = value.get(name) if isinstance(value, dict) else None
    return found if isinstance(found, str) else None


def object_of(value, name):
    """Returns the object of a member of an object; an empty one where there is none."""
    found = value.get(name) if isinstance(value, dict) else None
    return found if isinstance(found, dict) else {}


def objects_of(value, name):
    """Returns the objects in the list of a member of an object."""
    found = value.get(name) if isinstance(value, dict) else None
    return [it for it in found if isinstance(it, dict)] if isinstance(found, list) else []
