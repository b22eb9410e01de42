"""Search strings that were written in another encoding than the bundle's."""

import base64
import binascii

from . import json_path
from .finding import Finding, shown

# A shorter text may be base64 of printable text by chance.
SHORTEST_ENCODED = 8


def findings(bundle):
    """Returns a finding for each search string that looks like plain text, or under TEXT like base64."""
    is_text = json_path.text_of(bundle, "SearchStringEncoding") == "TEXT"
    found = []
    for it, path in json_path.below(bundle, "$"):
        for name, statement in it.members():
            text = json_path.text_of(statement, "SearchString") if name == "ByteMatchStatement" else None
            if text:
                at = json_path.member(json_path.member(path, name), "SearchString")
                one = (encoded if is_text else plain)(text)
                found += [Finding(one[0], at, statement.member("SearchString"), *one[1:])] if one else []
    return found


def plain(text):
    """Returns the rule, what was found and what to write, or None where the text is base64 of readable text."""
    encoded_text = base64.b64encode(text.encode("utf-8", "surrogatepass")).decode("ascii")
    write = f'write {shown(encoded_text)}, or "SearchStringEncoding": "TEXT" in the bundle where all are plain'
    content = decoded(text)
    if content is None:
        return "plain-search-string", f"{shown(text)} isn't base64", write
    if not is_readable(content):
        return "plain-search-string", f"{shown(text)} is base64 of bytes that are no text, {content[:12]!r}", write
    return None


def encoded(text):
    """Returns the rule, what was found and what to write, or None where the text isn't base64 of readable text."""
    content = decoded(text) if len(text) >= SHORTEST_ENCODED else None
    if content is None or not is_readable(content):
        return None
    found = f"{shown(text)} is searched as it stands under TEXT, and is base64 of {shown(content.decode('utf-8'))}"
    return "encoded-search-string", found, f"write {shown(content.decode('utf-8'))}"


def decoded(text):
    """Returns the bytes of canonical base64, or None of another text."""
    try:
        content = base64.b64decode(text.encode("ascii"), validate=True)
    except (binascii.Error, UnicodeEncodeError):
        return None
    return content if base64.b64encode(content).decode("ascii") == text else None


def is_readable(content):
    """Returns whether bytes are a text of printable characters, tabs and line ends."""
    try:
        text = content.decode("utf-8")
    except UnicodeDecodeError:
        return False
    return all(it.isprintable() or it in "\t\r\n" for it in text)
