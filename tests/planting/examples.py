"""Tries an edit of a definition on iocm_examples, if its own crate lets it stand:
an example worked by hand has to become false by it.

Such an edit can have a part for `../iocm_examples/proofs/..`, which turns the counterpart on lists in
the same way. So it is the example that refuses it, and not the counterpart. The crates between the
two are built anew, in a copy of the tree.
"""
import os
import shutil
import subprocess
import tempfile

from building.crates_list import needed

from . import edits as files
from . import kit, verdicts

CRATE = "iocm_examples"


def stand_on(crate):
    """Whether the examples are of what a crate states."""
    return CRATE in kit.crates() and crate in kit.below(CRATE)


class Examples:
    """A check of the examples over a crate with an edit."""

    def __init__(self, crate, edit):
        self.crate, self.edit = crate, edit

    def memory(self):
        return kit.memory(CRATE)

    def run(self):
        with tempfile.TemporaryDirectory(prefix="mutants-") as room:
            copy_tree(room, self.crate)
            base = os.path.join(room, "crates")
            pairs = [(f"{self.crate}/{path}", *pair) for path, *pair in self.edit.pairs]
            texts, wrong = files.applied(pairs, reader(base))
            if wrong:
                return {self.edit: verdicts.Verdict(False, why=f"BAD EDIT: {wrong}")}, []
            for path, text in texts.items():
                with open(os.path.join(base, path), "w", encoding="utf-8") as file:
                    file.write(text)
            how = {"capture_output": True, "text": True, "stdin": subprocess.DEVNULL}
            ran = subprocess.run(["rt", "check", "--jobs", "1"], cwd=os.path.join(base, CRATE), **how)
        return {self.edit: verdict_on(self.edit, ran.stdout + ran.stderr, ran.returncode)}, []


def verdict_on(edit, output, status):
    """The verdict of the examples, whose goals are told from those of the edit's own crate."""
    found = verdicts.on_crate(edit, output, status)
    was_reached = any(line.startswith(f"crate {CRATE}: ") or "no proof" in line for line in output.split("\n"))
    if found.is_refused and not was_reached:
        return verdicts.Verdict(False, why=f"NOT JUDGED: {CRATE} was not reached: {output[-400:]}")
    found.goals = [f"{CRATE} {goal}" for goal in found.goals]
    return found


def reader(base):
    """What reads a file below a folder, by a path that may go up from a crate to another;
    None for one that isn't there."""

    def read(path):
        whole = os.path.normpath(os.path.join(base, path))
        if not os.path.isfile(whole):
            return None
        with open(whole, encoding="utf-8") as file:
            return file.read()

    return read


def copy_tree(room, crate):
    """Copies the examples and what they stand on: with all kept work of those between them and a crate,
    and of others the library alone."""
    crates = [*kit.below(CRATE), CRATE]
    whole = [it for it in crates if it == crate or crate in kit.below(it)]

    def left_out(folder, names):
        if os.path.basename(folder) == "out" and os.path.basename(os.path.dirname(folder)) not in whole:
            return [name for name in names if name != "rlib"]
        return []

    for it in crates:
        shutil.copytree(kit.folder(it), os.path.join(room, "crates", it), ignore=left_out)
    shutil.copy(os.path.join(files.TOP, "HANDLES"), room)
    with open(os.path.join(room, "crates.txt"), "w", encoding="utf-8") as file:
        file.writelines(needed(files.TOP, [CRATE]).values())
