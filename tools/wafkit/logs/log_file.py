"""The lines of logs: bytes as they stand, of files that gzip packed too, and of all files of a folder."""

import gzip
import os
import zlib

from .. import status
from ..fault import Fault

PACKED = b"\x1f\x8b"


def paths_of(words):
    """Returns the paths of the logs that the words name: files, and all files below folders, ascending."""
    found = []
    for word in words:
        if not os.path.isdir(word):
            found.append(word)
            continue
        for folder, inner, names in os.walk(word):
            inner.sort()
            found += [os.path.join(folder, name) for name in sorted(names)]
    return found


def is_packed(path):
    """Returns whether a file begins as those of gzip do."""
    with open(path, "rb") as file:
        return file.read(2) == PACKED


def lines(path, begin=0, end=None):
    """Yields the lines of a file, without the byte that ends each; of one that isn't packed, those between two places
    at which lines begin."""
    try:
        packed = is_packed(path)
        with gzip.open(path, "rb") if packed else open(path, "rb") as file:
            if begin:
                file.seek(begin)
            left = None if end is None else end - begin
            for line in file:
                left = None if left is None else left - len(line)
                yield line[:-1] if line.endswith(b"\n") else line
                if left is not None and left <= 0:
                    return
    except (OSError, EOFError, zlib.error, ValueError) as cause:
        said = getattr(cause, "strerror", None) or cause
        raise Fault(f"{path}: can't be read: {said}", status.UNREADABLE) from cause


def places(path, size):
    """Returns the places at which a file is cut into pieces of about that size, at the beginnings of lines: pairs of
    begin and end; of a packed file, or a small one, the whole."""
    try:
        length = os.path.getsize(path)
        if length <= size or is_packed(path):
            return [(0, None)]
        cuts = [0]
        with open(path, "rb") as file:
            while cuts[-1] + size < length:
                file.seek(cuts[-1] + size)
                file.readline()
                cuts.append(file.tell())
    except (OSError, ValueError):
        # Who reads the file says what is wrong with it.
        return [(0, None)]
    ends = [cut for cut in cuts[1:] if cut < length] + [None]
    return list(zip(cuts, ends))
