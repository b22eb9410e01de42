"""The exit statuses of wafkit."""

DONE = 0
# There are findings.
FOUND = 1
# The words are no command (the status that argparse gives too).
USAGE = 2
# A file can't be read, or holds nothing that can be worked on.
UNREADABLE = 3
# A Python package, the program or its kit is missing.
MISSING = 4
# The service refused or couldn't be reached.
SERVICE = 5
