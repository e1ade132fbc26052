"""How the program is called, and what is wrong with its answer:
`run(words, room)` and `differences(got, status, stdout)`."""
import os
import re
import subprocess

QUIET = {"--quiet", "-q"}
HELP = {"--help", "help"}
EDITS = re.compile(rb"^(no|\d+) edits?\b.*\n")
CENSUS = re.compile(rb"^[^\n]*: \d+ images?, \d+ paths?, \d+ control units?, \d+ devices?\n")
BESIDE = {"diff": EDITS, "check": CENSUS}
REFUSED = re.compile(rb"refused ([A-Z]\d+)(?: line (\d+))?")


def read(folder, name, absent=b""):
    path = os.path.join(folder, name)
    if not os.path.exists(path):
        return absent
    with open(path, "rb") as file:
        return file.read()


def run(words, room, output="", given=b"", source=""):
    """What a command answers, given a standard input, or what to open for it, run in a folder,
    with its output as it is asked for."""
    how = {"cwd": room, "stderr": subprocess.PIPE, "timeout": 60}
    if not source:
        return run_to(output, words, how | {"input": given})
    reader = os.open(source, os.O_RDONLY)
    try:
        return run_to(output, words, how | {"stdin": reader})
    finally:
        os.close(reader)


def run_to(output, words, how):
    """What a command answers, with its output kept, at a device, or in a pipe that nobody reads."""
    if not output:
        return subprocess.run(words, stdout=subprocess.PIPE, **how)
    if output == "closed pipe":
        reader, writer = os.pipe()
        os.close(reader)
    else:
        writer = os.open(output, os.O_WRONLY)
    try:
        return subprocess.run(words, stdout=writer, **how)
    finally:
        os.close(writer)


def differences(got, status, stdout, stderr=None, others=()):
    """What is wrong with an answer, as lines of text. Others may be right, too. Standard error has to have a text in
    it, if one is given, and to be empty if that is."""
    wrong = []
    if got.returncode != status:
        wrong.append(f"status {got.returncode}, wanted {status}")
    printed = got.stdout or b""
    if printed != stdout and printed not in others:
        wrong.append(f"standard output differs: {printed[:400]!r}")
    if stderr is not None and (stderr.strip() not in got.stderr or not stderr and got.stderr):
        wrong.append(f"standard error differs: {got.stderr[:400]!r}")
    return wrong + faults_of_remark(got, (stderr or b"").strip())


def faults_of_remark(got, noted=b""):
    """What is wrong with what standard error says: beside a refusal its line, its number and which entry says more;
    else, where all was done, how much `check` accepted, how many edits `diff` printed, and the notes of the case."""
    refused = REFUSED.match(got.stdout or b"")
    is_quiet = not QUIET.isdisjoint(got.args)
    if got.returncode == 0 or is_quiet:
        forms = [] if is_quiet or HELP & set(got.args) else [BESIDE[word] for word in got.args if word in BESIDE]
        return more_than_due(got, forms, noted)
    if not refused:
        return []
    rule, line = refused.groups()
    wanted = [b" (" + rule + b")", b"\n  see: iocm explain " + rule + b"\n"]
    wanted += [b", line " + line + b": "] if line else []
    return [f"standard error says no {text!r}: {got.stderr[:400]!r}" for text in wanted if text not in got.stderr]


def more_than_due(got, forms, noted):
    """What is wrong where standard error has a line of each of these forms, these notes, and nothing more."""
    said = got.stderr
    for form in forms:
        said, count = form.subn(b"", said, count=1)
        if not count:
            return [f"standard error has no line that is due: {got.stderr[:400]!r}"]
    said = said.replace(noted + b"\n", b"", 1) if noted else said
    return [f"standard error: {got.stderr[:400]!r}"] if said else []
