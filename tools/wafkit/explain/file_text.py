"""The text of a file that the program was given: what its bytes are, and where a JSON reader stops in it."""

import codecs
import json
import math
import re

from .. import placed_json, status
from ..fault import Fault, package

# The most bytes of a file that the program reads.
MOST_BYTES = 67_108_864
# Longer texts aren't tried as YAML.
MOST_YAML = 4_194_304
# JSON texts may be nested so deep.
MOST_LEVELS = 127
ENCODINGS = (
    (codecs.BOM_UTF32_LE, "UTF-32"),
    (codecs.BOM_UTF32_BE, "UTF-32"),
    (codecs.BOM_UTF16_LE, "UTF-16"),
    (codecs.BOM_UTF16_BE, "UTF-16"),
)


class Stop:
    """Why bytes are no JSON text: line and column, the cause and the cure."""

    def __init__(self, line, column, cause, cure):
        self.line, self.column, self.cause, self.cure = line, column, cause, cure


def read(name, most=MOST_BYTES):
    """Returns the bytes of the file, of which at most so many are read, or ends the command."""
    try:
        with open(name, "rb") as file:
            return file.read(most + 1)
    except (OSError, ValueError) as error:
        raise Fault(f"{name} can't be read: {getattr(error, 'strerror', None) or error}", status.UNREADABLE) from error


def value_of(data):
    """Returns the value with places that the bytes are, or None where they are no JSON text."""
    try:
        return placed_json.read(data.decode())
    except (ValueError, RecursionError):
        return None


def stop_of(data):
    """Returns why the bytes are no JSON text that the program reads, or None where a JSON reader finds nothing."""
    return encoding_stop(data) or text_stop(data.decode())


def encoding_stop(data):
    """Returns why the bytes are no text in UTF-8, or None."""
    if data[:2] == b"\x1f\x8b":
        cure = "decompress it with gunzip -c, or give it to wafkit convert"
        return Stop(1, 1, "the file is compressed by gzip", cure)
    encoding = next((name for mark, name in ENCODINGS if data.startswith(mark)), None)
    if encoding is None and b"\0" in data[:4]:
        encoding = "UTF-16"
    if encoding is not None:
        cure = f"write it in UTF-8: iconv -f {encoding} -t UTF-8 FILE (PowerShell: Out-File -Encoding utf8NoBOM)"
        return Stop(1, 1, f"the file is in {encoding}, and JSON is in UTF-8", cure)
    if data.startswith(codecs.BOM_UTF8):
        cure = "write it without the mark: tail -c +4 FILE (PowerShell: Out-File -Encoding utf8NoBOM)"
        return Stop(1, 1, "the file begins with a byte order mark, which is no JSON", cure)
    try:
        data.decode()
    except UnicodeDecodeError as error:
        line, column = data.count(b"\n", 0, error.start) + 1, error.start - data.rfind(b"\n", 0, error.start)
        cause = f"byte {column} of the line, {data[error.start]:#04x}, is no UTF-8"
        cure = "write the file in UTF-8: iconv -f ISO-8859-1 -t UTF-8 FILE, if that is what it is"
        return Stop(line, column, cause, cure)
    return None


def text_stop(text):
    """Returns where a JSON reader stops in the text, and why, or None."""
    if not text.strip(" \t\r\n"):
        return Stop(1, 1, "there is nothing but white space", "name the file that holds the JSON text")
    deep = depth_stop(text)
    if deep:
        return deep
    try:
        value = placed_json.read(text)
    except json.JSONDecodeError as error:
        cause, cure = written_otherwise(text, error)
        return Stop(error.lineno, error.colno, cause, cure)
    except (ValueError, RecursionError) as error:
        return Stop(1, 1, str(error), "write numbers and nesting as other JSON readers take them")
    return unread_value(value)


def depth_stop(text):
    """Returns the place where the text is nested too deep, or None."""
    level = 0
    for mark in re.finditer(r'"[^"\\]*(?:\\.[^"\\]*)*"|[\[{]|[\]}]', text):
        if mark.group() in "[{":
            level += 1
            if level > MOST_LEVELS:
                line, column = place_of(text, mark.start())
                cause = f"it is nested deeper than {MOST_LEVELS} here"
                cure = "nest less: label matches on rules that count take the place of inner statements"
                return Stop(line, column, cause, cure)
        elif mark.group() in "]}":
            level -= 1
    return None


def place_of(text, offset):
    return text.count("\n", 0, offset) + 1, offset - text.rfind("\n", 0, offset)


def unread_value(value):
    """Returns the place of a number or a text that the program's JSON reader refuses, or None."""
    data = value.data
    if value.kind == "number" and isinstance(data, (int, float)):
        try:
            if math.isinf(float(data)):
                raise OverflowError
        except OverflowError:
            cure = "write a number that a JSON reader can hold"
            return Stop(value.line, value.column, "the number is out of range", cure)
    if value.kind == "string" and has_lone_surrogate(data):
        cause = "the text has half of a surrogate pair (\\ud800 to \\udfff)"
        return Stop(value.line, value.column, cause, "write both halves")
    for name, inner in value.members():
        if has_lone_surrogate(name):
            return Stop(inner.line, inner.column, "the member's name has half of a surrogate pair", "write both halves")
    inner = [part for _, part in value.members()] or value.items()
    return next((stop for stop in map(unread_value, inner) if stop), None)


def has_lone_surrogate(text):
    return any("\ud800" <= letter <= "\udfff" for letter in text)


def written_otherwise(text, error):
    """Returns why a text is no JSON and the cure, by what else it looks like."""
    begins = text.lstrip()
    said = f"a JSON reader says: {error.msg}"
    if re.match(r"[{\[]\s*'|\[\s*\{\s*'", begins):
        cure = "write it with json.dump, or give the dump to wafkit convert"
        return f"{said}; it looks like a printed Python value", cure
    if error.msg == "Extra data":
        cure = "give one JSON text; a log, with one record a line, goes to impact, and wafkit convert makes logs"
        return f"{said}: another text begins behind the first", cure
    if begins[:1] not in "{[" or re.match(r"\{\s*[A-Za-z_]+\s*:", begins):
        other = yaml_kind(text)
        if other:
            return f"{said}; it is YAML{other[0]}", other[1]
    if error.msg.startswith("Expecting") and re.match(r"(//|/\*|#)", text[error.pos :]):
        return f"{said}; JSON has no comments", "delete the comment"
    if text[: error.pos].rstrip().endswith(",") and text[error.pos : error.pos + 1] in "]}":
        return f"{said}; a comma stands before the closing bracket", "delete the comma"
    if error.pos >= len(text.rstrip()):
        return f"{said}; the text ends too early", "see whether the file was written whole"
    return said, "write JSON there, or let a program write the file, as aws --output json or wafkit collect"


def yaml_kind(text):
    """Returns what is said of a YAML text and the cure, or None where it isn't known to be one."""
    if len(text) > MOST_YAML:
        return None
    try:
        yaml = package("yaml", "explain", "PyYAML")
    except Fault:
        return None
    try:
        node = yaml.compose(text, Loader=yaml.SafeLoader)
    except (yaml.YAMLError, RecursionError, ValueError):
        return None
    if not isinstance(node, yaml.MappingNode):
        return None
    names = {key.value for key, _ in node.value if isinstance(key, yaml.ScalarNode)}
    if names & {"AWSTemplateFormatVersion", "Resources"}:
        return ", a CloudFormation template", "wafkit convert makes a bundle of it"
    return "", "write it as JSON: aws --output json, or wafkit convert where it is a template"
