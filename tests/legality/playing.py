"""A script with its deck and its change decks, as files and as they are read."""
import os
from typing import NamedTuple, Optional

from .cards import Fault
from .changes import tree_of
from .histories import forget
from .machine import State, opening
from .printed import breach_text
from .records import configuration_of
from .scripts import rounds_of
from .search import Illegal, judged

BAD_LINES = (
    "A start 0.1.0.0001 x", "A show", "P start 0.1.0.0000", "B modify 0.1.0.0000 2 80 00000000", "A store 0.1.0.00a0",
    "sync x", "Q undo 0", "P activate 99", "C show", "a store 0.1.0.0000", "A start 6.1.0.0000", "P undo 4294967296",
)


class Case(NamedTuple):
    """The bytes of the files, and either what is printed of a fault or the machine, the change trees and the rounds."""

    deck: bytes
    script: bytes
    changes: tuple
    refusal: Optional[str]
    opening: Optional[State] = None
    trees: tuple = ()
    rounds: tuple = ()

    def write(self, room):
        """Writes the files, and gives the words of the command line."""
        names = ["deck", "script"] + [f"change{place + 1}" for place in range(len(self.changes))]
        for name, data in zip(names, (self.deck, self.script, *self.changes)):
            with open(os.path.join(room, name), "wb") as file:
                file.write(data)
        return ["run"] + names

    def status(self):
        return 0 if self.refusal is None else 1

    def judge(self, text, is_short=False):
        """What was found of each round of an output, or why it is illegal. Memory may be short."""
        if self.refusal is None:
            return judged(self.opening, self.trees, self.rounds, text, is_short)
        if text != self.refusal:
            raise Illegal(f"{self.refusal!r} is right")
        return []

    def text(self):
        """All files, to be read."""
        changes = [(f"change {place}", data) for place, data in enumerate(self.changes, 1)]
        parts = [("deck", self.deck), *changes, ("script", self.script)]
        return "\n".join(f"-- {name}\n{data.decode('latin-1')}" for name, data in parts)


def read_case(deck, script, changes):
    """A case of the bytes of its files. Faults come in this order: the deck's, its rules, the change decks', the
    script's."""
    forget()
    try:
        state = opening(configuration_of(deck))
        if state.breach is not None:
            return Case(deck, script, changes, f"refused {breach_text(state.breach)}\n")
        trees = tuple(tree_of(change) for change in changes)
        return Case(deck, script, changes, None, state, trees, tuple(rounds_of(script, len(trees))))
    except Fault as fault:
        return Case(deck, script, changes, fault.text() + "\n")


def case_of(drawn):
    return read_case(drawn.deck.encode(), drawn.script.encode(), tuple(change.encode() for change in drawn.changes))


def spoiled(dice, drawn):
    """A drawn case with a line in its script that is no command, or with too many lines of operators."""
    lines = drawn.script.splitlines()
    more = ["P show"] * 15 if dice.random() < 0.2 else [dice.choice(BAD_LINES)]
    place = dice.randint(0, len(lines))
    return drawn._replace(script="\n".join(lines[:place] + more + lines[place:]) + "\n")
