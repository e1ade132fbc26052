"""Which files the program is made of, and the numbers that tell one state of them from another.

The number of the `code` is that of all that a program without proofs is built from, the number of the
`proofs` that of all that is read where it is proved. Each is a sum of names and texts, so a change
that is taken back has the old number again.
"""
import os
import time
from binascii import crc32

from .crates_list import CRATES, needed

PROGRAM = "iocm"
CODE, PROOFS = "code", "proofs"
HANDLES = "HANDLES"
PARTS = {CODE: (("src", ".rt"),), PROOFS: (("src", ".rt"), ("specs", ".antt"), ("proofs", ".antt"))}
SETTLED = 2_000_000_000


def gather(found, folder, ending):
    """Adds the files below a folder whose names end so, with what the system says of each."""
    with os.scandir(folder) as entries:
        for entry in entries:
            if entry.name.endswith(ending):
                found.append((entry.path, entry.stat()))
            elif entry.is_dir(follow_symlinks=False):
                gather(found, entry.path, ending)


class Sources:
    """The sources of the program in a tree, for the kit that builds it."""

    def __init__(self, top, kit):
        self.top, self.kit, self.crates = top, kit, needed(top, [PROGRAM])

    def files(self, of):
        """Each file of which a number is made, with what the system says of it, by name."""
        found, handles = [], os.path.join(self.top, HANDLES)
        if os.path.exists(handles):
            found.append((handles, os.stat(handles)))
        if of == CODE:
            gather(found, os.path.join(self.top, "building"), ".py")
        for crate in self.crates:
            for part, ending in PARTS[of]:
                folder = os.path.join(self.top, "crates", crate, part)
                if os.path.isdir(folder):
                    gather(found, folder, ending)
        return sorted(found)

    def patterns(self, of):
        """Patterns of the names of these files, and of the list of crates; a `*` of git is also for folders."""
        own = ["building/*.py"] if of == CODE else []
        parts = [f"crates/{crate}/{part}/*{ending}" for crate in self.crates for part, ending in PARTS[of]]
        return [CRATES, HANDLES, *own, *parts]

    def number(self, of, kept):
        """The number of the code or of the proofs as they are now;
        `kept` has that of the last listing, if no file has changed since.

        A listing has ctime too, since `cp -p`, `tar` and `touch -d` set the other time back, and this file,
        which says how is counted.
        """
        found, lines = self.files(of), "".join(self.crates.values())
        listed = [*found, (__file__, os.stat(__file__))]
        told = [f"{path} {at.st_size} {at.st_mtime_ns} {at.st_ctime_ns} {at.st_ino}\n" for path, at in listed]
        listing = "".join([f"{self.top}\n", self.kit.identity(), lines, *told])
        number = kept.number_of(listing)
        if number is None:
            number = self.count(found)
            if time.time_ns() - max(at.st_ctime_ns for _, at in found) > SETTLED:
                kept.keep(listing, number)
        return number

    def count(self, found):
        """The number that the texts of these files have."""
        from hashlib import sha256

        whole = sha256((self.kit.identity() + "".join(sorted(self.crates.values()))).encode())
        for path, _ in found:
            with open(path, "rb") as file:
                line = f"{os.path.relpath(path, self.top)} {sha256(file.read()).hexdigest()}\n"
            whole.update(line.encode("utf-8", "surrogateescape"))
        return whole.hexdigest()[:16]


class Listing:
    """The last listing of a tree's files and the number that it had, in a file of the cache."""

    def __init__(self, folder, top, of):
        self.path = os.path.join(folder, f"listing-{of}-{crc32(os.fsencode(top)):08x}")

    def number_of(self, listing):
        """The number that was kept with just this listing; None where another was kept, or none."""
        try:
            with open(self.path, encoding="utf-8", errors="surrogateescape") as file:
                number, kept = file.readline().strip(), file.read()
        except (OSError, ValueError):
            return None
        return number if kept == listing else None

    def keep(self, listing, number):
        """Keeps both, if the file can be written: without it each call reads all sources again, and is right too."""
        beside = f"{self.path}.{os.getpid()}"
        try:
            with open(beside, "w", encoding="utf-8", errors="surrogateescape") as file:
                file.write(f"{number}\n{listing}")
            os.replace(beside, self.path)
        except OSError:
            pass
