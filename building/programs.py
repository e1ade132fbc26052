"""The folder in the user's cache where programs are kept, each under the number of its sources,
so that no name leads to another."""
import os

from .answers import Refused

NAME = "iocm"
ANOTHER = "set XDG_CACHE_HOME to a folder of yours"


def place():
    """The folder, as the XDG rules say: a path that isn't absolute counts for nothing."""
    home = os.environ.get("XDG_CACHE_HOME", "")
    if not os.path.isabs(home):
        home = os.path.join(os.path.expanduser("~"), ".cache")
    if not os.path.isabs(home):
        raise Refused(f"no home is known, and programs are kept there: {ANOTHER}")
    return os.path.join(home, NAME)


class Programs:
    """The programs that are kept: `quick` ones without proofs, and `proved` ones."""

    def __init__(self):
        self.folder = place()

    def open(self):
        """Makes the folder where it isn't there, for this user alone."""
        try:
            os.makedirs(self.folder, mode=0o700, exist_ok=True)
            at = os.stat(self.folder)
        except OSError as error:
            why = f"programs are kept there ({error.strerror}): {ANOTHER}"
            raise Refused(f"{self.folder} can't be made, and {why}") from error
        if at.st_uid != os.geteuid():
            raise Refused(f"{self.folder} isn't yours, and programs are kept there: {ANOTHER}")
        if at.st_mode & 0o077:
            os.chmod(self.folder, 0o700)

    def path(self, kind, number):
        return os.path.join(self.folder, f"{kind}-{number}", NAME)

    def has_any(self, kind):
        return any(name.startswith(f"{kind}-") for name in os.listdir(self.folder))

    def has(self, kind, number):
        return os.access(self.path(kind, number), os.X_OK)
