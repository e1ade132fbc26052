"""A small tree with the launcher, a stand-in for the kit on the PATH, and a cache of its own."""
import os
import shutil
import subprocess
import time
from collections import namedtuple

TOP = os.path.dirname(os.path.dirname(os.path.dirname(os.path.abspath(__file__))))
KIT = os.path.join(os.path.dirname(os.path.abspath(__file__)), "kit")
FILES = {
    "crates.txt": "# ground\nlow:\niocm: low\ntrials: low\n",
    "HANDLES": "Handles allowed: none.\n",
    "crates/iocm/src/main.rt": "one\n",
    "crates/low/src/lib.rt": "// low\n",
    "crates/low/specs/Lib.antt": "-- low\n",
    "crates/trials/src/lib.rt": "// trials\n",
}
KIT_LOGIC = "0123456789abcdef"
KIT_NAME = f"stand-in-kit logic {KIT_LOGIC}"
PATIENCE = 60

Ran = namedtuple("Ran", "status out said")


class Tree:
    """A tree of two crates of the program and one more; folders have names that a shell would split."""

    def __init__(self, room):
        self.top, self.state, self.home = (os.path.join(room, name) for name in ("a tree", "state", "someone's home"))
        self.cache = os.path.join(self.home, ".cache", "iocm")
        os.makedirs(self.home)
        shutil.copytree(KIT, os.path.join(self.state, "kit"))
        shutil.copytree(os.path.join(TOP, "building"), os.path.join(self.top, "building"))
        shutil.copy(os.path.join(TOP, "iocm"), self.top)
        for name, text in FILES.items():
            self.write(name, text)

    def path(self, name):
        return os.path.join(self.top, name)

    def write(self, name, text):
        os.makedirs(os.path.dirname(self.path(name)), exist_ok=True)
        with open(self.path(name), "w", encoding="utf-8") as file:
            file.write(text)

    def note(self, name):
        """What the stand-in wrote down in one of its files; empty if there is none."""
        path = os.path.join(self.state, name)
        if not os.path.exists(path):
            return ""
        with open(path, encoding="utf-8") as file:
            return file.read()

    def builds(self):
        """How often the stand-in was asked to build without proofs, and how often to prove."""
        calls = self.note("calls").split("\n")
        return calls.count("try"), calls.count("ci")

    def kept(self, beginning):
        """The names in the cache that begin so."""
        return [name for name in os.listdir(self.cache) if name.startswith(beginning)]

    def given(self, **changes):
        """The environment of a call, with these changes: None removes a name."""
        path = os.pathsep.join([os.path.join(self.state, "kit", "bin"), os.environ["PATH"]])
        given = {**os.environ, "PATH": path, "HOME": self.home, "STATE": self.state, **changes}
        if "XDG_CACHE_HOME" not in changes:
            given.pop("XDG_CACHE_HOME", None)
        return {name: text for name, text in given.items() if text is not None}

    def start(self, *words, mode="build", launcher=None, folder=None, **changes):
        """A call that goes on: the stand-in does what the mode says; `changes` are made to the environment."""
        with open(os.path.join(self.state, "mode"), "w", encoding="utf-8") as file:
            file.write(mode)
        how = {"stdin": subprocess.DEVNULL, "stdout": subprocess.PIPE, "stderr": subprocess.PIPE, "text": True}
        how |= {"cwd": folder or self.top, "env": self.given(**changes)}
        return subprocess.Popen([launcher or self.path("iocm"), *words], **how)

    def run(self, *words, **how):
        """What a call answers: status, standard output, standard error."""
        return end(self.start(*words, **how))

    def reach(self, name="waiting"):
        """Waits until the stand-in has written a file, and gives what it wrote."""
        limit = time.monotonic() + PATIENCE
        while not self.note(name).strip():
            assert time.monotonic() < limit, f"the stand-in has not written {name}"
            time.sleep(0.02)
        return self.note(name).strip()


def version(commit="unknown", is_proved=False):
    """What `--version` says of the stand-in."""
    return f"iocm 0.0 (commit {commit}, kit {KIT_LOGIC}){'' if is_proved else ' not proved here'}"


def end(call):
    out, said = call.communicate(timeout=PATIENCE)
    return Ran(call.returncode, out, said)


def is_running(number):
    """Whether a process is there, and not only its exit status."""
    try:
        with open(f"/proc/{number}/stat", encoding="utf-8") as file:
            return file.read().rpartition(")")[2].split()[0] != "Z"
    except OSError:
        return False
