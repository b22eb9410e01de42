"""Texts that should be base64, addresses or ranges: what is wrong with one, and what to write."""

import base64
import binascii
import ipaddress
import re

ALPHABET = "A-Z, a-z, 0-9, + and /"


def base64_fault(text):
    """Returns what is wrong with a text that isn't canonical base64, and what to write for it."""
    stray = re.search(r"[^A-Za-z0-9+/=]", text)
    if re.fullmatch(r"[A-Za-z0-9+/=]*", "".join(text.split())) and text.split() != [text] and text:
        return "it has white space", f'write it without: "{"".join(text.split())}"; {as_text(text)}'
    if stray and re.fullmatch(r"[A-Za-z0-9_-]+=*", text) and len(text) % 4 == 0:
        swapped = text.replace("-", "+").replace("_", "/")
        return f"{stray.group()!r} is of the URL-safe alphabet", f'write "{swapped}" if it is base64; {as_text(text)}'
    if stray:
        return f"{stray.group()!r} is none of {ALPHABET}: it looks like the text itself", as_text(text)
    if len(text.rstrip("=")) % 4 == 1 or "=" in text.rstrip("="):
        return "no bytes have such a text in base64: it looks like the text itself", as_text(text)
    padded = text.rstrip("=") + "=" * (-len(text.rstrip("=")) % 4)
    try:
        canonical = base64.b64encode(base64.b64decode(padded)).decode("ascii")
    except (binascii.Error, ValueError):
        return "it is no base64", as_text(text)
    cause = "bits behind its end aren't 0" if padded == text else "its padding isn't the one of its length"
    return cause, f'write "{canonical}" if it is base64; {as_text(text)}'


def as_text(text):
    """Returns what to write where the text is meant as it stands."""
    encoded = base64.b64encode(text.encode("utf-8", "surrogatepass")).decode("ascii")
    return f'if the text itself is meant, write "{encoded}"'


def address_fault(text, version=None):
    """Returns what is wrong with a text that is no address, or no range of a set's version, and what to write."""
    parsed = None if "%" in text else parsed_range(text.strip())
    if version is None and "/" in text and parsed is not None:
        return "it is a range, and an address is asked for", f'write one address, as "{parsed.network_address}"'
    if parsed is None:
        return unparsed(text, version)
    wanted = None if version is None else int(version[-1:])
    if wanted in (4, 6) and parsed.version != wanted:
        cure = f'put it into a set with "IPAddressVersion": "IPV{parsed.version}", and refer to both in an OrStatement'
        return f"it is of IPv{parsed.version}, and the set is of IPv{wanted}", cure
    if parsed.prefixlen == 0:
        halves = ", ".join(f'"{half}"' for half in parsed.subnets())
        return "a prefix has at least 1 bit", f"write the two halves: {halves}"
    # Without a dotted tail, which the program reads in no address of IPv6, and which newer Pythons write.
    address = str(parsed.network_address)
    if parsed.version == 6 and "." in text + address:
        address = ":".join(re.findall("....", parsed.network_address.packed.hex()))
    bits = f"/{parsed.prefixlen}" if "/" in text else ""
    return "it isn't written as the program reads one", f'write "{address}{bits}"'


def parsed_range(text):
    """Returns the range that the standard library reads, also with leading zeros of numbers deleted, or None."""
    for written in (text, re.sub(r"(?<![0-9a-fA-F:])0+(?=\d)", "", text)):
        try:
            return ipaddress.ip_network(written, strict=False)
        except ValueError:
            continue
    return None


def unparsed(text, version):
    """Returns what is wrong with a text that no reader takes as an address."""
    if "," in text or len(text.split()) > 1:
        cure = "write one address an element" if version else "write the client's address alone"
        return "it is more than one address", cure
    port = re.fullmatch(r"\[?([0-9A-Fa-f:.]+?)\]?:\d+", text)
    if port and parsed_range(port.group(1)):
        return "it has a port", f'write "{port.group(1)}"'
    if "%" in text:
        return "it has a zone", f'write "{text.split("%")[0]}"'
    return "it is no address", "write an IPv4 address (192.0.2.1) or an IPv6 address (2001:db8::1)" + (
        ", with /BITS behind it for a range" if version else ""
    )
