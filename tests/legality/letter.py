"""Histories by the letter: a list of all entries, of which each call plays what counts again from the opening. For
trials of `histories`."""
from typing import NamedTuple

from .histories import change_of, overwritten, share_a_cell
from .machine import Refused
from .orders import is_quiet, stepped
from .printed import refusal_text
from .scripts import IMAGES
from .trees import fits, meaning


class Entry(NamedTuple):
    """A call with its answer, and what it left: a live record, or a change that was made or staged."""

    line: object
    answer: str
    left: object = None

    def is_step(self):
        return self.line.actor in IMAGES and self.answer != "held"

    def is_accepted(self, word):
        return self.answer.startswith(word + " ") or self.answer == word


class Letter:
    def __init__(self, opening, trees):
        self.opening, self.trees, self.entries = opening, trees, []

    def accepted(self):
        """The places of the entries by which changes were accepted, in their order."""
        return [place for place, entry in enumerate(self.entries) if entry.is_accepted("change")]

    def change(self, number):
        return self.entries[self.accepted()[number - 1]].left

    def struck(self):
        """The places of the entries that are struck, and where each change that is undone was undone last."""
        struck, newly, undone = set(), {}, {}
        for place, entry in enumerate(self.entries):
            number = entry.line.at
            if entry.is_accepted("undone"):
                start = self.accepted()[number - 1]
                newly[number] = ({start} | self.steps(number, start, place)) - struck
                struck |= newly[number]
                undone[number] = place
            elif entry.is_accepted("redone"):
                struck = (struck - newly[number]) | self.steps(number, undone.pop(number), place)
        return struck, undone

    def steps(self, number, start, end):
        """The places of the steps on a change's subchannels between two places."""
        altered = self.change(number).altered()
        steps = (place for place in range(start, end) if self.entries[place].is_step())
        return {place for place in steps if self.entries[place].line.at in altered}

    def state(self):
        """The state that the entries leave which aren't struck."""
        state, (struck, _) = self.opening, self.struck()
        for place, entry in enumerate(self.entries):
            if place not in struck and entry.is_step():
                state = overwritten(state, (), (), [(entry.line.at, entry.left)])
            elif place not in struck and entry.is_accepted("change"):
                state = overwritten(state, entry.left.records, entry.left.numbers, entry.left.lives)
        return state

    def staged(self):
        """The change that was begun, and how often it was advanced since; or None."""
        staged = None
        for entry in self.entries:
            if entry.is_accepted("staged"):
                staged = [entry.left, 0]
            elif staged and entry.is_accepted("left"):
                staged[1] += 1
            elif staged and entry.line.command in ("commit", "abort"):
                staged = None
        return staged

    def call(self, line):
        """Takes a call, and gives its answer."""
        try:
            answer, left = self.step(line) if line.actor in IMAGES else self.operate(line)
        except Refused as refused:
            answer, left = refusal_text(refused), None
        self.entries.append(Entry(line, answer, left))
        return answer

    def step(self, line):
        state, staged = self.state(), self.staged()
        if staged and line.at in staged[0].altered():
            return "held", None
        view = state.views.get(line.at)
        if view is None:
            return ("nothing" if line.command in ("active", "end") else "cc 3"), None
        return stepped(state.lives[line.at], view, line.command, line.operands)

    def operate(self, line):
        state, staged = self.state(), self.staged()
        if line.command in ("advance", "commit", "abort"):
            if not staged:
                raise Refused("O2")
            answers = {"advance": f"left {max(0, len(staged[0].performed) - staged[1] - 1)}", "abort": "aborted"}
            return answers.get(line.command, f"change {len(self.accepted()) + 1}"), staged[0]
        if staged:
            raise Refused("O1")
        if line.command in ("activate", "begin"):
            after, performed = meaning(state, self.trees[line.at - 1])
            word = f"staged {len(performed)}" if line.command == "begin" else f"change {len(self.accepted()) + 1}"
            return word, change_of(after, performed)
        if line.command == "show":
            standing = len(self.accepted()) - len(self.struck()[1])
            counts = (len(state.records), len(state.views), standing, len(self.undone_now()))
            return "records %d subchannels %d standing %d undone %d" % counts, None
        return self.undo(line.at, state) if line.command == "undo" else self.redo(line.at, state)

    def undone_now(self):
        """The changes that are undone and not past, in the order of their undos."""
        last = self.accepted()[-1] if self.accepted() else -1
        return sorted((number for number, place in self.struck()[1].items() if place > last), key=self.struck()[1].get)

    def need_quiet(self, number, state):
        busy = [subchannel for subchannel in self.change(number).altered() if not is_quiet(state.lives.get(subchannel))]
        if busy:
            raise Refused("B1", None, busy[0])

    def undo(self, number, state):
        places, undone = self.accepted(), self.struck()[1]
        if not 1 <= number <= len(places) or number in undone:
            raise Refused("J1")
        later = [it for it in range(number + 1, len(places) + 1) if it not in undone]
        if fits(state, self.change(number).performed):
            standing_on = [it for it in later if share_a_cell(self.change(it), self.change(number))]
        else:
            standing_on = later + [it for it in range(1, number) if undone.get(it, -1) > places[number - 1]]
        if standing_on:
            raise Refused("J2", None, max(standing_on))
        self.need_quiet(number, state)
        return f"undone {number}", None

    def redo(self, number, state):
        if number not in self.struck()[1]:
            raise Refused("J1")
        if self.undone_now()[-1:] != [number]:
            raise Refused("J3")
        self.need_quiet(number, state)
        return f"redone {number}", None
