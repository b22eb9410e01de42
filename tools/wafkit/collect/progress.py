"""Progress on a terminal's standard error."""

import sys


class Silent:
    """No progress: standard error is no terminal, or rich isn't there."""

    def __enter__(self):
        return self

    def __exit__(self, *_):
        return None

    def found(self, count):
        """So many more things are to be read."""

    def reading(self, text):
        """This is read now."""


class Shown(Silent):
    """A bar of what was read, by rich."""

    def __init__(self, rich_progress, rich_console):
        columns = (
            rich_progress.SpinnerColumn(),
            rich_progress.MofNCompleteColumn() if hasattr(rich_progress, "MofNCompleteColumn") else "{task.completed}",
            rich_progress.TextColumn("{task.description}", markup=False),
        )
        self.bar = rich_progress.Progress(*columns, console=rich_console.Console(stderr=True), transient=True)
        self.task = self.bar.add_task("", total=0)

    def __enter__(self):
        self.bar.start()
        return self

    def __exit__(self, *_):
        self.bar.stop()

    def found(self, count):
        self.bar.update(self.task, total=self.bar.tasks[0].total + count)

    def reading(self, text):
        self.bar.update(self.task, advance=1, description=text)


def shown():
    """Returns the progress to use: a bar where standard error is a terminal and rich is there, and else none."""
    if not sys.stderr.isatty():
        return Silent()
    try:
        from rich import console, progress
    except ImportError:
        return Silent()
    return Shown(progress, console)
