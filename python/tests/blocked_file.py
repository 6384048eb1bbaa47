"""A file for the tests of the log."""
import io
import threading


class BlockedFile(io.StringIO):
    """A file that takes nothing until `go`."""

    def __init__(self):
        super().__init__()
        self.go = threading.Event()

    def write(self, text):
        self.go.wait()
        return super().write(text)
