"""The text of an input file: its bytes, unpacked and decoded; and the value of a JSON text."""

import gzip
import io
import json
import zlib

from .. import placed_json
from ..fault import Fault

# More than any log that the program takes; a packed file of a few bytes can unpack to any length.
LONGEST = 1 << 30
MARKS = ((b"\xef\xbb\xbf", "utf-8"), (b"\xff\xfe", "utf-16-le"), (b"\xfe\xff", "utf-16-be"))


class Repeated(ValueError):
    """An object has two members of one name."""


def text_of_file(path):
    """Returns the text that a file holds: gzip is unpacked, a byte order mark is taken off, UTF-16 is decoded."""
    try:
        with open(path, "rb") as file:
            data = file.read(LONGEST + 1)
    except (OSError, ValueError) as cause:
        raise Fault(f"{path}: can't be read: {getattr(cause, 'strerror', None) or cause}") from cause
    return text_of_bytes(data, path)


def text_of_bytes(data, name):
    """Returns the text that these bytes are, with the same care; `name` says in a fault what they are."""
    data = unpacked(data, name)
    encoding = "utf-8"
    for mark, its_encoding in MARKS:
        if data.startswith(mark):
            data, encoding = data[len(mark) :], its_encoding
            break
    try:
        return data.decode(encoding)
    except UnicodeDecodeError as cause:
        raise Fault(f"{name}: no {encoding.upper()} text: byte {cause.start} can't be read as one") from cause


def unpacked(data, name):
    """Returns the bytes, unpacked where they are in gzip's format, also more than once."""
    while data.startswith(b"\x1f\x8b"):
        try:
            with gzip.GzipFile(fileobj=io.BytesIO(data)) as file:
                data = file.read(LONGEST + 1)
        except (OSError, EOFError, zlib.error) as cause:
            raise Fault(f"{name}: begins as gzip does and can't be unpacked: {cause}") from cause
    if len(data) > LONGEST:
        raise Fault(f"{name}: more than {LONGEST} bytes")
    return data


def once(pairs):
    """Returns the object of these members; a reader that keeps the last of two of one name would drop the other."""
    members = dict(pairs)
    if len(members) != len(pairs):
        names = [name for name, _ in pairs]
        raise Repeated(next(name for name in names if names.count(name) > 1))
    return members


def no_number(text):
    raise ValueError(f"{text} is no JSON number")


DECODER = json.JSONDecoder(object_pairs_hook=once, parse_constant=no_number)


def json_value(text, name):
    """Returns the value of a JSON text, or ends the command with the place of its fault."""
    try:
        return DECODER.decode(text)
    except json.JSONDecodeError as cause:
        raise Fault(f"{name}: no JSON text: {cause.msg} at line {cause.lineno} column {cause.colno}") from cause
    except Repeated as cause:
        raise Fault(f"{name}: two members of one name: {repeated_place(text)}") from cause
    except ValueError as cause:
        raise Fault(f"{name}: no JSON text: {cause}") from cause


def repeated_place(text):
    """Returns name, line and column of the first member whose object has one of that name before."""
    waiting = [placed_json.read(text)]
    places = []
    while waiting:
        value = waiting.pop()
        names = set()
        for member in value.data if value.kind == "object" else []:
            if member.name in names:
                places.append((member.offset, member.name))
            names.add(member.name)
            waiting.append(member.value)
        waiting.extend(value.items())
    offset, name = min(places)
    line = text.count("\n", 0, offset) + 1
    return f"{json.dumps(name)} at line {line} column {offset - text.rfind(chr(10), 0, offset)}"
