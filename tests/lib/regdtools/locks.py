"""Locks between calls of scripts."""

import fcntl
import os


class Lock:
    """A lock on a file, which one process at a time has. The file exists while it is locked, and the system unlocks it when its process ends."""

    def __init__(self, path):
        self.path, self.file = path, None

    def take(self, *, waits):
        """Takes the lock and returns True. If another process has it, waits until it is free, or returns False."""
        while self.file is None:
            file = open(self.path, "w")
            try:
                fcntl.flock(file, fcntl.LOCK_EX | (0 if waits else fcntl.LOCK_NB))
            except BlockingIOError:
                file.close()
                return False
            if self._is_at_path(file):
                self.file = file
            else:
                file.close()
        return True

    def release(self):
        """Releases the lock, if this process has it."""
        if self.file is not None:
            self.path.unlink(missing_ok=True)
            self.file.close()
            self.file = None

    def _is_at_path(self, file):
        """Returns whether the file is the one at the path: the process that had the lock removes its file."""
        try:
            return os.path.samestat(os.fstat(file.fileno()), os.stat(self.path))
        except FileNotFoundError:
            return False
