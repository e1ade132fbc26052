"""Trials of what is said with the version: the commit, whether its sources have changed, and the kit."""
import os
import shutil
import subprocess

from .trees import version

SOURCE = "crates/iocm/src/main.rt"
PROOF = "crates/low/proofs/F/Answers.antt"
WHO = ("-c", "user.name=someone", "-c", "user.email=someone@example.invalid")


def git(folder, *words):
    """What git prints of a repository, whatever the environment names."""
    given = {name: text for name, text in os.environ.items() if not name.startswith("GIT_")}
    how = {"cwd": folder, "env": given, "stdout": subprocess.PIPE, "text": True, "check": True}
    return subprocess.run(["git", *WHO, *words], **how).stdout.strip()


def committed(folder):
    """The first digits of a commit of all that is in a folder."""
    git(folder, "init", "-q")
    git(folder, "add", "--all")
    git(folder, "commit", "-q", "--no-verify", "-m", "all")
    return git(folder, "rev-parse", "HEAD")[:8]


def says_the_version(tree, commit, *words, is_proved=False, **how):
    for word in ("--version", "-V"):
        ran = tree.run(*words, word, **how)
        assert ran == (0, f"{version(commit, is_proved)}\n", ""), (word, ran)


def says_the_commit(tree):
    commit = committed(tree.top)
    tree.run()
    says_the_version(tree, commit)
    tree.run("--prove")
    says_the_version(tree, commit, is_proved=True)
    says_the_version(tree, commit, "--unproved")


def says_that_sources_have_changed(tree):
    """Those of the program that is asked: proofs aren't in the quick one, and pages in none."""
    commit = committed(tree.top)
    for name in ("docs/PAGE.md", "crates/trials/src/lib.rt", "crates/low/src/a note"):
        tree.write(name, "another text\n")
    tree.run()
    says_the_version(tree, commit)
    tree.write(PROOF, "-- an answer\n")
    tree.run("--prove")
    says_the_version(tree, commit, "--unproved")
    says_the_version(tree, f"{commit}+", "--proved", is_proved=True)
    changes = {"a new source": "crates/low/src/deep/more.rt", "a source": SOURCE, "another build": "building/more.py"}
    for what, name in changes.items():
        tree.write(name, "MORE = 1\n")
        tree.run("--unproved")
        says_the_version(tree, f"{commit}+", "--unproved")
        git(tree.top, "add", name)
        says_the_version(tree, f"{commit}+", "--unproved")
        git(tree.top, "reset", "-q", "--hard")
        assert git(tree.top, "rev-parse", "HEAD")[:8] == commit, what
    says_the_version(tree, commit, "--unproved")


def knows_no_commit_of_a_copy(tree):
    """Also of one inside the repository of something else, or without git."""
    tree.run()
    says_the_version(tree, "unknown")
    tree.write(f"{os.path.dirname(tree.top)}/other", "another project\n")
    committed(os.path.dirname(tree.top))
    says_the_version(tree, "unknown")
    git(tree.top, "init", "-q")
    says_the_version(tree, "unknown")
    committed(tree.top)
    tools = os.path.join(tree.state, "tools")
    os.mkdir(tools)
    for name in ("env", "python3", "sh", "dirname", "readlink", "cat"):
        os.symlink(shutil.which(name), os.path.join(tools, name))
    path = os.pathsep.join([os.path.join(tree.state, "kit", "bin"), tools])
    says_the_version(tree, "unknown", PATH=path)


def looks_at_no_other_repository(tree):
    """Such as the environment of a hook names; and it writes nothing in its own."""
    commit, other = committed(tree.top), os.path.join(tree.state, "other")
    os.mkdir(other)
    git(other, "init", "-q")
    tree.run()
    index = os.path.join(tree.top, ".git", "index")
    os.utime(tree.path(SOURCE))
    before = os.stat(index).st_mtime_ns
    named = {"GIT_DIR": f"{other}/.git", "GIT_WORK_TREE": other, "GIT_INDEX_FILE": f"{other}/.git/index"}
    says_the_version(tree, commit, **named)
    assert os.stat(index).st_mtime_ns == before


def written_to(tree, output):
    """The status, and what standard error has, if the version goes to this output."""
    call = [tree.path("iocm"), "--version"]
    ran = subprocess.run(call, stdout=output, stderr=subprocess.PIPE, text=True, env=tree.given(), check=False)
    return ran.returncode, ran.stderr


def ends_as_the_program_does(tree):
    """If its version can't be written, if the reader of it has gone, and if the program fails."""
    tree.run()
    with open("/dev/full", "w", encoding="utf-8") as full:
        assert written_to(tree, full) == (3, "fault L6\n")
    reader, writer = os.pipe()
    os.close(reader)
    with open(writer, "w", encoding="utf-8") as gone:
        assert written_to(tree, gone) == (3, "")
    program = os.path.join(tree.cache, *tree.kept("quick-"), "iocm")
    with open(program, "w", encoding="utf-8") as file:
        file.write("#!/bin/sh\nexit 5\n")
    assert tree.run("--version") == (5, "", "")


TRIALS = (
    says_the_commit,
    says_that_sources_have_changed,
    knows_no_commit_of_a_copy,
    looks_at_no_other_repository,
    ends_as_the_program_does,
)
