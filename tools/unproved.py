#!/usr/bin/env python3
"""Runs the program on these words before any proof, by `rt try`, with its text and its status, or ends with 126.

`rt try` runs a program in a new folder, so the files that the words name are handed in as copies. They get other names, since it
also hands in what a word names in the crate's own folder, as `args`.
"""

import os
import re
import subprocess
import sys
import tempfile

TOP = os.path.dirname(os.path.dirname(os.path.realpath(__file__)))
# The tool's last line where the program ended.
ENDED = re.compile(rb"^run=ended status=(\d+) .*proved=no\n\Z", re.M)


def say(text):
    print(f"wafreview: {text}", file=sys.stderr, flush=True)


def is_file_word(place, word):
    """Returns whether a word may name a file: not the command, no flag, and UTF-8, else the words are no command."""
    try:
        os.fsencode(word).decode("utf-8")
    except UnicodeDecodeError:
        return False
    return place > 0 and word != "" and not word.startswith("-")


def handed_in(words, room):
    """Returns the words with other names for files, and the flags that hand in a copy of each file that can be read."""
    renamed, flags = [], []
    for place, word in enumerate(words):
        if not is_file_word(place, word):
            renamed.append(word)
            continue
        # (a number keeps its name, since it may be meant as one)
        name = word if re.fullmatch("[0-9]+", word) else f"file-{place}"
        renamed.append(name)
        try:
            with open(word, "rb") as given, open(f"{room}/{name}", "wb") as copy:
                copy.write(given.read())
            flags += ["--data", f"{name}={room}/{name}"]
        except OSError:
            # (the program finds no file of that name, and says so)
            pass
    return renamed, flags


def main(words):
    say("trying the program, which takes a minute or two; nothing of it is proved")
    with tempfile.TemporaryDirectory(prefix="wafreview-") as room:
        renamed, flags = handed_in(words, room)
        ran = subprocess.run(
            ["rt", "try", *flags, "--", *renamed],
            cwd=f"{TOP}/crates/wafreview",
            stdin=subprocess.DEVNULL,
            capture_output=True,
        )
    ended = ENDED.search(ran.stderr)
    if not ended:
        sys.stderr.buffer.write(ran.stderr)
        say("the try gave no answer")
        return 126
    sys.stdout.buffer.write(ran.stdout)
    return int(ended[1])


if __name__ == "__main__":
    sys.exit(main(sys.argv[1:]))
