"""Texts of logs as they are printed: one line, without what would steer a terminal."""


def shown(text):
    """Returns a text with each character that isn't printed written as an escape."""
    return "".join(it if it.isprintable() else it.encode("unicode_escape").decode("ascii") for it in text)
