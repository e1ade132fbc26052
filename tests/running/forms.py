"""Forms of operands, one case a line of tests/forms: `cases()` gives each by a name,
and `faults_of` says what is wrong with one.

A file has the name of a statement. In each of its lines is an operand part. One that is refused comes after the
number of the rule: the deck of that statement on line 2 is refused by this rule on this line. One that is
accepted comes before ` = ` and what `write` prints of it, without the operation: ` & ` is between two
statements, and `nothing` says that there is none. The deck has the statements of BEFORE in front, so that it
keeps the rules; these are left out of what is printed.

A file that has the name of a verb has lines of change decks: the operation and its operands. The statement is alone
in a change of the deck of CHANGED. One that is refused is so on line 1; after ` = ` is what `apply --deck` prints
otherwise than `write`: `- ` is before a statement that is gone, and `+ ` before one that came.
"""
import os
import re
import tempfile
from typing import NamedTuple

from .answers import differences, read, run

FORMS = os.path.join(os.path.dirname(os.path.dirname(os.path.abspath(__file__))), "forms")
REFUSED = re.compile(r"([A-Z]\d+) (.*)")
ACCEPTED = re.compile(r"(.*) = (.*)")
IMAGES = "RESOURCE PARTITION=((CSS(0),(LPA,1),(LPB,2)),(CSS(1),(LPC,1)))"
PATHS = [f"CHPID PATH=(CSS({css}),{path}),SHARED" for css, path in ((0, 50), (0, 51), (1, 50), (1, 52))]
UNITS = ["CNTLUNIT CUNUMBR=1000,PATH=((CSS(0),50),(CSS(1),52))", "CNTLUNIT CUNUMBR=1001,PATH=(51)"]
BEFORE = {"RESOURCE": [], "CHPID": [IMAGES], "CNTLUNIT": [IMAGES, *PATHS], "IODEVICE": [IMAGES, *PATHS, *UNITS]}
# a deck of which each kind of record may be deleted, modified or added
LISTS = ["CHPID PATH=50,SHARED,PARTITION=((LPA,LPB),(=))", "CHPID PATH=51,SHARED,PARTITION=((LPA),(LPA,LPB))"]
SPARE = ["CHPID PATH=60", "CNTLUNIT CUNUMBR=10,PATH=(51),CUADD=2"]
DEVICES = [
    "CNTLUNIT CUNUMBR=1000,PATH=(50)",
    "IODEVICE ADDRESS=(1000,4),CUNUMBR=1000",
    "IODEVICE ADDRESS=(FFFE,2),CUNUMBR=1000,SCHSET=2",
]
ADDED_TO = ["RESOURCE PARTITION=((CSS(0),(LPA,1),(LPB,2)),(CSS(1),(LPC,1)))", *LISTS, *DEVICES]
FULL = [
    "ID MSG1=OLD",
    "RESOURCE PARTITION=((LPA,1),(LPB,2),(LPD,3)),MAXDEV=((CSS(0),900,800,700),(CSS(1),,5)),NOTE=1",
    *LISTS,
    *SPARE,
    *DEVICES,
]
CHANGED = {"ADD": ADDED_TO, "MODIFY": FULL, "DELETE": FULL}
LAST = 71  # column; what is in column 72 says that the next card goes on, in column 16


class Form(NamedTuple):
    """A line of a file of this name: what is before or after its answer, the rule that refuses it,
    or what is written of it."""

    file: str
    text: str
    rule: str = ""
    written: tuple = ()

    def statement(self):
        """The statement, in one line."""
        return f"{self.file:<9}{self.text}" if self.file in CHANGED else " " * 9 + f"{self.file} {self.text}"


def cards(text):
    """The cards of a statement, which is in one line."""
    lines = [text[:LAST]]
    for at in range(LAST, len(text), LAST - 15):
        lines[-1] += "X"
        lines.append(" " * 15 + text[at : at + LAST - 15])
    return "".join(f"{line}\n" for line in lines)


def statements(deck):
    """The statements of a deck that was written, each in one line."""
    found, goes_on = [], False
    for line in deck.decode().splitlines():
        if goes_on:
            found[-1] += line[15:LAST]
        else:
            found.append(line[:LAST].strip())
        goes_on = line[LAST : LAST + 1] not in ("", " ")
    return found


def form_of(file, line):
    """The form of a line."""
    refused = REFUSED.fullmatch(line)
    if refused:
        return Form(file, refused[2], refused[1])
    text, written = ACCEPTED.fullmatch(line).groups()
    return Form(file, text, "", () if written == "nothing" else tuple(written.split(" & ")))


def cases():
    """Each form, by a name."""
    for file in sorted(os.listdir(FORMS)):
        for line in read(FORMS, file).decode().splitlines():
            form = form_of(file, line)
            yield f"forms/{file}: {form.text}", form


def deck_of(statements_before, last=""):
    """A deck of statements, the last of which is in one line already."""
    return "".join(map(cards, [*(" " * 9 + it for it in statements_before), *([last] if last else [])]))


def answer(binary, words, **texts):
    """What a command prints, where these texts are in files of their names."""
    with tempfile.TemporaryDirectory() as room:
        for name, text in texts.items():
            with open(os.path.join(room, name), "w", encoding="utf-8") as file:
                file.write(text)
        return run([binary, *words], room)


def faults_of(binary, form):
    """What is wrong with how a form is refused or written."""
    if form.file in CHANGED:
        return faults_of_change(binary, form)
    if form.rule:
        first = "ID MSG1=X" if form.file == "RESOURCE" else IMAGES
        got = answer(binary, ["show", "deck"], deck=deck_of([first], form.statement()))
        return differences(got, 1, f"refused {form.rule} line 2\n".encode())
    before = BEFORE[form.file]
    got = answer(binary, ["write", "deck"], deck=deck_of(before, form.statement()))
    left = statements(answer(binary, ["write", "deck"], deck=deck_of(before)).stdout)
    found = [it.removeprefix(f"{form.file} ") for it in statements(got.stdout) if it not in left]
    return faults_of_text(got, form, found)


def faults_of_change(binary, form):
    """The same of a statement of a change deck."""
    texts = {"deck": deck_of(CHANGED[form.file]), "change": cards(form.statement())}
    got = answer(binary, ["apply", "deck", "change", "--deck"], **texts)
    if form.rule:
        return differences(got, 1, f"refused {form.rule} line 1\n".encode())
    before = statements(answer(binary, ["write", "deck"], **texts).stdout)
    after = statements(got.stdout)
    found = [f"- {it}" for it in before if it not in after] + [f"+ {it}" for it in after if it not in before]
    return faults_of_text(got, form, found)


def faults_of_text(got, form, found):
    """What is wrong with an answer that has these statements."""
    wrong = differences(got, 0, got.stdout)
    return wrong if tuple(found) == form.written else wrong + [f"written otherwise: {' & '.join(found) or 'nothing'}"]
