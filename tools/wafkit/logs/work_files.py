"""Files that the program is to read, in a folder that goes with them."""

import os
import tempfile


class WorkFiles:
    """Writes logs and answers for the program; a context that takes its folder away at its end."""

    def __init__(self):
        self.folder = tempfile.TemporaryDirectory(prefix="wafkit-")
        self.bundles = os.path.join(self.folder.name, "bundles")
        self.path = self.folder.name
        os.mkdir(self.bundles)

    def __enter__(self):
        return self

    def __exit__(self, *_):
        self.folder.cleanup()

    def written(self, name, data):
        """Returns the path of a file of that name with those bytes, instead of what it held."""
        path = os.path.join(self.path, name)
        with open(path, "wb") as file:
            file.write(data)
        return path

    def log(self, lines):
        """Returns the path of a log of these lines."""
        return self.written("log", b"\n".join(lines) + b"\n")

    def answers(self, text):
        """Returns the path of a file of answers."""
        return self.written("answers.json", text.encode("utf-8", "surrogatepass"))
