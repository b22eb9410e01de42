"""What is to be said of a conversion: warnings, which let it go on, and obstacles, which end it once all are known."""

import sys

from ..fault import Fault

PROGRAM_LIMIT = 67_108_864


def printable(text):
    """Returns the text with what a terminal would act on, from an input's names, written as escapes."""
    return "".join(one if one.isprintable() else one.encode("unicode_escape").decode("ascii") for one in text)


class Remarks:
    """Collects the warnings and obstacles of a conversion, each once, in the order in which they were met."""

    def __init__(self):
        self.warnings, self.obstacles = [], []

    def warn(self, text):
        """Notes what the user should know of the output."""
        text = printable(text)
        if text not in self.warnings:
            self.warnings.append(text)

    def obstacle(self, text):
        """Notes what makes the output impossible; `end_if_hindered` ends the command with all of these."""
        text = printable(text)
        if text not in self.obstacles:
            self.obstacles.append(text)

    def end_if_hindered(self):
        """Ends the command where there is an obstacle: a line for each on standard error."""
        if self.obstacles:
            raise Fault("\nwafkit: ".join(self.obstacles))

    def print_warnings(self):
        """Prints a line for each warning on standard error."""
        for text in self.warnings:
            print(f"wafkit: warning: {text}", file=sys.stderr)
