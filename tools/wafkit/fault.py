"""What ends a command early."""

from . import status


class Fault(Exception):
    """Ends the command with a line on standard error and a status."""

    def __init__(self, text, code=status.UNREADABLE):
        super().__init__(text)
        self.code = code


def package(name, command, wanted):
    """Returns the module of an optional package, or ends the command with what is missing and how to install it."""
    import importlib

    try:
        return importlib.import_module(name)
    except ImportError as missing:
        text = f"{command} needs the Python package {wanted}: python3 -m pip install -r tools/requirements.txt"
        raise Fault(text, status.MISSING) from missing
