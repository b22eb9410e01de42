"""Calls of the proved program. Nothing else in this package says what a web ACL decides, costs or asks."""

import os
import subprocess

from . import status
from .fault import Fault

TOP = os.path.dirname(os.path.dirname(os.path.dirname(os.path.realpath(__file__))))
PATH = f"{TOP}/crates/wafreview/out/wafreview"
# The status with which the launcher says that there is no program.
NO_PROGRAM = 126


def run(*words):
    """Runs `wafreview` with these words and returns its status and what it printed, as bytes. The launcher builds the
    program where it isn't built; what that prints goes to standard error."""
    ended = subprocess.run([f"{TOP}/wafreview", *words], stdin=subprocess.DEVNULL, stdout=subprocess.PIPE, check=False)
    if ended.returncode == NO_PROGRAM:
        raise Fault("the program wafreview could not be built", status.MISSING)
    return ended.returncode, ended.stdout


def is_built():
    """Returns whether the program stands built, so that a call answers at once."""
    return os.access(PATH, os.X_OK)


def call(*words):
    """Calls the built program itself, without the launcher, which looks at all sources first: for callers that had an
    answer by `run` before. Returns its status and what it printed, as bytes."""
    ended = subprocess.run([PATH, *words], stdin=subprocess.DEVNULL, stdout=subprocess.PIPE, check=False)
    return ended.returncode, ended.stdout
