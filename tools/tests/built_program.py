"""The program as it stands built, called without the launcher, which looks at all sources first."""

import subprocess

from wafkit import program

PATH = f"{program.TOP}/crates/wafreview/out/wafreview"


def run(*words):
    """Returns the status of the program with these words and what it printed, as `wafkit.program.run` does."""
    ended = subprocess.run([PATH, *words], stdin=subprocess.DEVNULL, stdout=subprocess.PIPE, check=False)
    return ended.returncode, ended.stdout
