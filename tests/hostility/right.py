"""Which answers of a command are right where something failed under it."""
import functools
import os

from legality.playing import read_case
from legality.search import Illegal, TooMany, outputs_of

NO_MEMORY = (1, b"refused M1\n")
NO_MEMORY_LINE = (1, b'{"rule":"M1","title":"not enough storage","type":"refused"}\n')
M1_SAID = (b"", b"not enough storage (M1)\n  see: iocm explain M1\n")
L5 = b"fault L5\n"
L5_SAID = b": a file can't be read (L5)\n  see: iocm explain L5\n"
L6 = b"fault L6\n"
SEE = b"\n  see: iocm explain "
FAULT, NOT_UNDERSTOOD = 3, 2  # exit statuses
MOST_WAYS = 2000  # to go through a round


class Right:
    """What a command may answer, of what it answers where nothing fails. Of a script that runs any output is right
    that the reading of tests/legality accepts."""

    def __init__(self, command, whole):
        self.command, self.whole = command, whole
        is_run = command.words[:1] == ("run",) and whole.status == 0 and b"\ntrace " in b"\n" + whole.out
        self.case = case_of(command) if is_run else None

    def is_answer(self, got, is_short=False):
        """Whether an answer is the one where nothing fails. Standard error may lack the file and the line of a
        refusal: the text can be unreadable by then. Memory may be short for a call of a script."""
        if self.case is None:
            return got[:2] == self.whole[:2] and (got.err == self.whole.err or is_short_remark(got.err, self.whole.err))
        return got.status == 0 and not got.err and self.is_legal(got.out, is_short)

    @functools.lru_cache(maxsize=None)
    def is_legal(self, out, is_short):
        """Whether the reading of tests/legality accepts what a script printed."""
        try:
            self.case.judge(out.decode("latin-1"), is_short)
            return True
        except Illegal:
            return False

    def is_without_memory(self, got):
        """Where memory is missing for the words of the command line, the form isn't known."""
        is_in_lines = "--json" in self.command.words
        return got[:2] in (NO_MEMORY, *[NO_MEMORY_LINE][:is_in_lines]) and got.err in M1_SAID

    def is_unread(self, got, has_to_name=False):
        """Whether an answer says L5 and nothing else, or which file it is, too."""
        if got.status != FAULT or got.out or not got.err.startswith(L5):
            return False
        said = got.err.removeprefix(L5)
        if not said:
            return not has_to_name
        names = [name.encode() for name in (*self.command.words[1:], "standard input")]
        return said in [name + L5_SAID for name in names]

    def is_unwritten(self, got):
        """Whether an answer says L6, and what was written is the beginning of a right one."""
        return got.status == FAULT and got.err in (b"", L6) and any(out.startswith(got.out) for out in self.outputs)

    def is_unsaid(self, got):
        """Whether it is L6 that words aren't understood: only standard error says that, and it could not be written."""
        return self.whole.status == NOT_UNDERSTOOD and got.status == FAULT and not got.out and got.err in (b"", L6)

    @functools.cached_property
    def outputs(self):
        """All outputs that are right; where a script has too many, the one that was seen."""
        if self.case is None:
            return (self.whole.out,)
        try:
            of = self.case
            return tuple(text.encode() for text in outputs_of(of.opening, of.trees, of.rounds, MOST_WAYS))
        except TooMany:
            return (self.whole.out,)


def is_short_remark(said, whole):
    """Whether standard error says of a refusal what it would say, but for the file and the line. Of the further faults
    of a deck it may say nothing."""
    first, mark, further = whole.partition(SEE)
    rule, end, further = further.partition(b"\n")
    titles, title = first.split(b"\n", 1)[0], said.split(b"\n", 1)[0]
    if not mark or not title or not titles.endswith(title):
        return False
    ends = (title + mark + rule + end, first + mark + rule + end)
    return said in (*ends, *(it + further for it in ends))


def case_of(command):
    """The script of a command with its deck and its change decks, as tests/legality reads them."""
    words = list(command.words[1:])
    if "--heap" in words:
        at = words.index("--heap")
        del words[at : at + 2]
    files = [word for word in words if word == "-" or not word.startswith("--")]
    deck, script, *changes = (command.given if name == "-" else read(command.room, name) for name in files)
    return read_case(deck, script, tuple(changes))


def read(*names):
    with open(os.path.join(*names), "rb") as file:
        return file.read()
