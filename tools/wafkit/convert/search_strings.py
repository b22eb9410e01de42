"""Search strings of byte matches, brought to base64, as the API's answers print them."""

import base64
import re

from .service_members import base64_of, is_base64

# A text that Python's `repr` made of bytes, which `json.dumps(answer, default=str)` writes.
BYTES_TEXT = re.compile(r"""b(['"])(.*)\1\Z""", re.DOTALL)
ESCAPE = re.compile(r"\\(x[0-9a-fA-F]{2}|.)", re.DOTALL)
NAMED = {"n": "\n", "r": "\r", "t": "\t", "\\": "\\", "'": "'", '"': '"'}


def packed(value, as_text, path, remarks):
    """Returns the value with each `SearchString` in base64. As they stand they are plain where `as_text`, else base64
    or what Python writes for bytes; one that can't be either is an obstacle."""
    if isinstance(value, list):
        return [packed(item, as_text, f"{path}[{index}]", remarks) for index, item in enumerate(value)]
    if not isinstance(value, dict):
        return value
    found = {name: packed(item, as_text, f"{path}.{name}", remarks) for name, item in value.items()}
    statement = found.get("ByteMatchStatement")
    if isinstance(statement, dict) and isinstance(statement.get("SearchString"), str):
        place = f"{path}.ByteMatchStatement.SearchString"
        statement["SearchString"] = one_packed(statement["SearchString"], as_text, place, remarks)
    return found


def one_packed(text, as_text, path, remarks):
    if as_text:
        return base64_of(text)
    written = BYTES_TEXT.match(text)
    if written:
        return base64.b64encode(bytes_of(written[2])).decode("ascii")
    if not is_base64(text):
        remarks.obstacle(f"{path}: isn't base64; --search-strings text takes search strings as they stand")
    elif not reads_as_text(base64.b64decode(text)):
        text_is_plain = "where it is plain, --search-strings text says so"
        remarks.warn(f"{path}: is taken as base64, of bytes that are no text; {text_is_plain}")
    return text


def bytes_of(written):
    """Returns the bytes whose Python text, between its quotes, is this one."""

    def meant(found):
        escape = found[1]
        return chr(int(escape[1:], 16)) if len(escape) == 3 else NAMED.get(escape, found[0])

    return ESCAPE.sub(meant, written).encode("latin-1", "replace")


def reads_as_text(data):
    try:
        return data.decode("utf-8").isprintable()
    except UnicodeDecodeError:
        return False
