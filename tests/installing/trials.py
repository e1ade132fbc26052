"""Installs, in a small tree with the stand-in for the kit:
what is put where, what is refused, and what a removal leaves."""
import os
import shutil
import subprocess

from launching.trees import TOP, Tree, version
from launching.versions import committed

COPIED = ("install", "man", "docs", "examples")
PLACES = (
    "bin/iocm",
    "libexec/iocm/iocm",
    "share/man/man1/iocm.1",
    "share/bash-completion/completions/iocm",
    "share/zsh/site-functions/_iocm",
    "share/fish/vendor_completions.d/iocm.fish",
    "share/doc/iocm/MESSAGES.md",
    "share/doc/iocm/examples/base.deck",
    "share/iocm/sources",
    "share/iocm/files",
)


class Place(Tree):
    """A tree from which can be installed, and a folder to install in."""

    def __init__(self, room):
        super().__init__(room)
        self.prefix = os.path.join(room, "a prefix")
        for name in COPIED:
            source = os.path.join(TOP, name)
            (shutil.copytree if os.path.isdir(source) else shutil.copy)(source, self.path(name))

    def install(self, *words):
        return self.run(*(words or ("--prefix", self.prefix)), launcher=self.path("install"))

    def says(self, *words, root=None):
        """What the installed program answers."""
        program = os.path.join(root or self.prefix, "bin/iocm")
        ran = subprocess.run([program, *words], capture_output=True, text=True, check=False)
        return ran.returncode, ran.stdout

    def files(self, folder=None):
        top = folder or self.prefix
        return {os.path.relpath(os.path.join(at, name), top) for at, _, names in os.walk(top) for name in names}

    def number(self, *options):
        return self.run(*options, "--which").out.split("sources  ")[1].split()[0]


def installs_the_proved_program(place):
    place.run("--prove")
    ran = place.install()
    assert ran == (0, f"{version(is_proved=True)} is in {place.prefix}\n", ""), ran
    assert place.says("show", "a deck") == (4, "built from one, given show a deck\n")
    assert set(PLACES) <= place.files(), set(PLACES) - place.files()
    with open(os.path.join(place.prefix, "share/iocm/sources"), encoding="utf-8") as file:
        assert file.read() == f"{place.number('--proved')} proved\n"


def installs_no_other_unasked(place):
    place.run()
    ran = place.install()
    assert ran[:2] == (70, ""), ran
    hint = "isn't proved here: ./iocm --prove proves it; --unproved installs one that isn't"
    for text in (hint, "nothing was installed"):
        assert text in ran.said, (text, ran.said)
    assert not place.files(), place.files()


def installs_the_quick_program_if_asked(place):
    words = ("--unproved", "--prefix", place.prefix)
    assert place.install(*words).status == 70 and place.builds() == (0, 0)
    place.run()
    ran = place.install(*words)
    assert ran[:2] == (0, f"{version()} is in {place.prefix}\n"), ran
    for word in ("--version", "-V"):
        assert place.says(word) == (0, f"{version()}\n"), word
    assert place.says("show", "a deck") == (4, "built from one, given show a deck\n")
    with open(os.path.join(place.prefix, "share/iocm/sources"), encoding="utf-8") as file:
        assert file.read() == f"{place.number()} unproved\n"


def says_the_commit_that_was_installed(place):
    """Whatever the tree has afterwards."""
    commit = committed(place.top)
    place.run("--prove")
    assert place.install().status == 0
    place.write("crates/iocm/src/main.rt", "two\n")
    for word in ("--version", "-V"):
        assert place.says(word) == (0, f"{version(commit, is_proved=True)}\n"), word
    place.run()
    assert place.install("--unproved", "--prefix", place.prefix).status == 0
    assert place.says("--version") == (0, f"{version(f'{commit}+')}\n")


def starts_the_program_itself(place):
    """With the words as they are, by the process that was called, from any folder and by links."""
    place.run("--prove")
    place.install()
    bin_folder, links = os.path.join(place.prefix, "bin"), os.path.join(place.state, "links")
    os.mkdir(links)
    os.symlink(os.path.join(bin_folder, "iocm"), os.path.join(links, "iocm"))
    os.symlink("iocm", os.path.join(links, "second"))
    os.symlink(bin_folder, os.path.join(links, "bin"))
    with open(os.path.join(place.prefix, "libexec/iocm/iocm"), "w", encoding="utf-8") as file:
        file.write('#!/bin/sh\nprintf "%s\\n" $$ "$@"\nexit 9\n')
    words = ["show", "a  deck", "", "*", "$HOME", "--version", "-V", "--", "back\\slash"]
    for program in ("iocm", "second", "bin/iocm"):
        call = subprocess.Popen([os.path.join(links, program), *words], stdout=subprocess.PIPE, text=True)
        out = call.communicate()[0]
        assert (call.returncode, out.splitlines()) == (9, [str(call.pid), *words]), (program, out)
    for folder, call in ((links, ["iocm"]), (bin_folder, ["iocm"]), (bin_folder, ["sh", "iocm"])):
        how = {"cwd": folder, "env": {**os.environ, "PATH": f":{os.environ['PATH']}"}}
        ran = subprocess.run(["env", *call, "show"], capture_output=True, text=True, check=False, **how)
        assert (ran.returncode, ran.stdout.splitlines()[1:]) == (9, ["show"]), (folder, call, ran)


def ends_as_the_program_does(place):
    """If its version can't be written, if the program fails, and if it isn't there."""
    place.run("--prove")
    place.install()
    program, started = os.path.join(place.prefix, "libexec/iocm/iocm"), os.path.join(place.prefix, "bin/iocm")
    with open("/dev/full", "w", encoding="utf-8") as full:
        ran = subprocess.run([started, "-V"], stdout=full, stderr=subprocess.PIPE, text=True, check=False)
    assert (ran.returncode, ran.stderr) == (3, "fault L6\n"), ran
    with open(program, "w", encoding="utf-8") as file:
        file.write("#!/bin/sh\nexit 5\n")
    assert place.says("--version") == (5, "")
    os.remove(program)
    for words in (("--version",), ("show", "a deck")):
        assert place.says(*words) == (127, ""), words


def puts_all_below_a_stage(place):
    place.run("--prove")
    stage = os.path.join(os.path.dirname(place.prefix), "stage")
    ran = place.install("--destdir", stage, "--prefix", "/opt/iocm")
    assert ran.status == 0 and os.listdir(stage) == ["opt"], (ran, os.listdir(stage))
    assert place.says(root=f"{stage}/opt/iocm") == (4, "built from one, given \n")
    assert place.install("--uninstall", "--destdir", stage, "--prefix", "/opt/iocm").status == 0
    assert not place.files(stage), place.files(stage)


def removes_what_it_installed(place):
    """And no file of others; also what an earlier version had left."""
    other = os.path.join(place.prefix, "share/man/man1/other.1")
    os.makedirs(os.path.dirname(other))
    with open(other, "w", encoding="utf-8") as file:
        file.write("another page\n")
    place.run()
    place.run("--prove")
    place.write("docs/OLD.md", "an older page\n")
    place.install("--unproved", "--prefix", place.prefix)
    os.remove(place.path("docs/OLD.md"))
    assert "share/doc/iocm/OLD.md" in place.files()
    place.install()
    assert "share/doc/iocm/OLD.md" not in place.files(), place.files()
    assert place.install("--uninstall", "--prefix", place.prefix).status == 0
    assert place.files() == {"share/man/man1/other.1"}, place.files()
    assert place.install("--uninstall", "--prefix", place.prefix).status == 1


def says_what_could_not_be_written(place):
    place.run("--prove")
    place.write("a file", "")
    ran = place.install("--prefix", place.path("a file"))
    assert ran[:2] == (1, "") and "a file" in ran.said, ran


def understands_no_other_word(place):
    for words in (("--prefix",), ("--all",), ("somewhere",)):
        ran = place.install(*words)
        assert ran[:2] == (2, "") and "usage: ./install" in ran.said, (words, ran)


TRIALS = (
    installs_the_proved_program,
    installs_no_other_unasked,
    installs_the_quick_program_if_asked,
    says_the_commit_that_was_installed,
    starts_the_program_itself,
    ends_as_the_program_does,
    puts_all_below_a_stage,
    removes_what_it_installed,
    says_what_could_not_be_written,
    understands_no_other_word,
)
