"""The floor (floor.c), compiled and started: a proxy that makes the calls of `adaptproxy serve` and checks next to nothing."""
import os
import subprocess
import tempfile

from .memory import compiler

SOURCE = os.path.join(os.path.dirname(os.path.abspath(__file__)), "floor.c")


class Floor:
    """The program, in a folder of its own."""

    def __init__(self):
        self.folder = tempfile.TemporaryDirectory(prefix="floor.")
        self.path = os.path.join(self.folder.name, "floor")
        subprocess.run([compiler(), "-O2", "-pthread", "-o", self.path, SOURCE], check=True)

    def command(self, port, origin_port, served=None, **settings):
        """The command that starts it; the service is (port, path), and the settings are those of floor.c."""
        return ([self.path] + ["--%s=%s" % setting for setting in settings.items()] + [str(port), str(origin_port)]
                + [str(word) for word in served or ()])

    def close(self):
        self.folder.cleanup()
