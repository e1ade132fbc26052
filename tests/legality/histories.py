"""Histories of calls: what they come to, and the one answer that each call gets.

A history is not a list here: it is what later answers depend on. Of each subchannel it keeps a line of what
happened there, in order: the changes that altered it, the undos that struck there, and the steps, each with the
live record that it left and whether it counts. The state follows: each cell has what the last entry wrote that
isn't struck.
"""
from typing import NamedTuple

from .machine import FRAMES, Refused, State, frame_of
from .orders import is_quiet, stepped
from .printed import refusal_text
from .trees import fits, meaning

STANDS, UNDONE, PAST = "stands", "undone", "past"
FOR_GOOD = 0  # what a redo strikes; a change strikes under its own number

# equal changes are one object, so that histories are quickly compared
KNOWN_CHANGES = {}


def forget():
    """Forgets what was found of a machine, before another one."""
    FRAMES.clear()
    KNOWN_CHANGES.clear()


class Change(NamedTuple):
    """An accepted change: what its edits did, and the cells that it wrote with their values after it."""

    performed: tuple
    records: tuple  # (key, record) and so on
    numbers: tuple
    lives: tuple

    def cells(self):
        return [{cell for cell, _ in part} for part in (self.records, self.numbers, self.lives)]

    def altered(self):
        return [subchannel for subchannel, _ in self.lives]


class Step(NamedTuple):
    """A step on a subchannel: the live record that it left, and what struck it, if anything did."""

    live: object
    struck: object = None


class Mark(NamedTuple):
    """That a change was accepted, or undone."""

    what: str
    number: int


def change_of(after, performed):
    """The change of edits that were performed and left this state."""
    keys = sorted({done.key for done in performed})
    cells = sorted({cell for done in performed for cell, _ in done.numbers})
    subchannels = sorted({subchannel for done in performed for subchannel in done.subchannels()})
    at = lambda names, table: tuple((name, table.get(name)) for name in names)
    # the live records that come along with inverses are left out: an undo is replayed, and `fits` doesn't look at them
    bare = tuple(done._replace(inverse=done.inverse._replace(kept=())) for done in performed)
    change = Change(bare, at(keys, after.records), at(cells, after.numbers), at(subchannels, after.lives))
    return KNOWN_CHANGES.setdefault(change, change)


def share_a_cell(one, other):
    return any(mine & theirs for mine, theirs in zip(one.cells(), other.cells()))


class History:
    """What a list of calls came to. It is never changed: a call gives its answer and another history."""

    __slots__ = ("opening", "state", "changes", "status", "undone_at", "undone", "lines", "staged", "_key")

    def __init__(self, opening):
        self.opening = self.state = opening
        self.changes, self.status, self.undone_at, self.undone = (), (), (), ()
        self.lines, self.staged, self._key = {}, None, None

    def going_on(self, **parts):
        """The same history but for these parts."""
        other = History.__new__(History)
        for name in self.__slots__:
            setattr(other, name, parts.get(name, getattr(self, name)))
        other._key = None
        return other

    def key(self):
        """What all later answers depend on, as a value."""
        if self._key is None:
            changes = tuple(id(change) for change in self.changes)
            staged = self.staged and (id(self.staged.change), self.staged.advances)
            lines = frozenset((subchannel, self.short_line(line)) for subchannel, line in self.lines.items())
            self._key = (changes, self.status, self.undone_at, self.undone, lines, staged)
        return self._key

    def short_line(self, line):
        """What of a subchannel's line may still decide something: nothing of changes that are past, and no undo
        that was redone."""
        short = []
        for it in line:
            if isinstance(it, Step):
                if it.struck == FOR_GOOD or (it.struck and self.status_of(it.struck) == PAST):
                    continue
                if short and isinstance(short[-1], Step) and short[-1].struck == it.struck:
                    short.pop()
            elif self.status_of(it.number) == PAST or (it.what == "undo" and self.status_of(it.number) == STANDS):
                continue
            short.append(it)
        return tuple(short)

    # steps of images

    def stepped(self, command, subchannel, operands):
        if self.staged is not None and subchannel in self.staged.change.altered():
            return "held", self
        live, view = self.state.lives.get(subchannel), self.state.views.get(subchannel)
        answer, after = stepped(live, view, command, operands) if view is not None else unseen(command)
        if after == live:
            # whatever strikes what left this live record strikes this step too, so the step never decides a cell
            return answer, self
        line = self.lines.get(subchannel, ())
        # of steps with nothing between them the last alone counts: what strikes one strikes them all
        line = (line[:-1] if line and isinstance(line[-1], Step) else line) + (Step(after),)
        state = State(self.state.frame, {**self.state.lives, subchannel: after})
        return answer, self.going_on(lines={**self.lines, subchannel: line}, state=state)

    # calls of operators

    def called(self, command, argument, trees):
        """The answer to an operator's call and the history with it. `trees` are the change decks of the command
        line."""
        try:
            if command in ("advance", "commit", "abort"):
                return self.stage_call(command)
            if self.staged is not None:
                raise Refused("O1")
            if command in ("activate", "begin"):
                return self.change_call(command, trees[argument - 1])
            if command == "show":
                return self.shown(), self
            return self.undo(argument) if command == "undo" else self.redo(argument)
        except Refused as refused:
            return refusal_text(refused), self

    def change_call(self, command, tree):
        after, performed = meaning(self.state, tree)
        change = change_of(after, performed)
        if command == "begin":
            return f"staged {len(performed)}", self.going_on(staged=Stage(change, 0))
        return self.accept(change)

    def stage_call(self, command):
        if self.staged is None:
            raise Refused("O2")
        change, advances = self.staged
        if command == "abort":
            return "aborted", self.going_on(staged=None)
        if command == "commit":
            return self.accept(change)
        edits = len(change.performed)
        advances = min(advances + 1, edits)
        return f"left {edits - advances}", self.going_on(staged=Stage(change, advances))

    def accept(self, change):
        """The change is made, as its effect says, and all that were undone are past."""
        number = len(self.changes) + 1
        status = tuple(PAST if it == UNDONE else it for it in self.status) + (STANDS,)
        lines = dict(self.lines)
        for subchannel in change.altered():
            lines[subchannel] = lines.get(subchannel, ()) + (Mark("change", number),)
        state = overwritten(self.state, change.records, change.numbers, change.lives)
        parts = {"changes": self.changes + (change,), "status": status, "undone_at": self.undone_at + (0,)}
        return f"change {number}", self.going_on(lines=lines, state=state, staged=None, undone=(), **parts)

    def shown(self):
        counts = (len(self.state.records), len(self.state.views), self.status.count(STANDS), self.status.count(UNDONE))
        return "records %d subchannels %d standing %d undone %d" % counts

    def status_of(self, number):
        return self.status[number - 1] if 1 <= number <= len(self.status) else None

    def standing_on(self, number):
        """The changes that stand on a change."""
        change, later = self.changes[number - 1], range(number + 1, len(self.changes) + 1)
        standing = [it for it in later if self.status_of(it) == STANDS]
        if fits(self.state, change.performed):
            return [it for it in standing if share_a_cell(self.changes[it - 1], change)]
        earlier = [it for it in range(1, number) if self.status_of(it) != STANDS]
        return standing + [it for it in earlier if self.undone_at[it - 1] >= number]

    def need_quiet(self, number):
        busy = [it for it in self.changes[number - 1].altered() if not is_quiet(self.state.lives.get(it))]
        if busy:
            raise Refused("B1", None, busy[0])

    def undo(self, number):
        """Strikes the change, and each step since on its subchannels that isn't struck."""
        if self.status_of(number) != STANDS:
            raise Refused("J1")
        standing_on = self.standing_on(number)
        if standing_on:
            raise Refused("J2", None, max(standing_on))
        self.need_quiet(number)
        lines = dict(self.lines)
        for subchannel in self.changes[number - 1].altered():
            line = lines[subchannel]
            start = line.index(Mark("change", number))
            lines[subchannel] = line[:start] + restruck(line[start:], None, number) + (Mark("undo", number),)
        undone_at = put(self.undone_at, number, len(self.changes))
        parts = {"status": put(self.status, number, UNDONE), "undone_at": undone_at, "undone": self.undone + (number,)}
        return f"undone {number}", self.going_on(lines=lines, **parts).replayed(number)

    def redo(self, number):
        """Takes back what the last undo of the change newly struck, and strikes each step since on its subchannels
        for good."""
        if self.status_of(number) not in (UNDONE, PAST):
            raise Refused("J1")
        if not self.undone or self.undone[-1] != number:
            raise Refused("J3")
        self.need_quiet(number)
        lines = dict(self.lines)
        for subchannel in self.changes[number - 1].altered():
            line = lines[subchannel]
            last = max(place for place, it in enumerate(line) if it == Mark("undo", number))
            lines[subchannel] = restruck(line[:last], number, None) + restruck(line[last + 1 :], None, FOR_GOOD)
        undone_at = put(self.undone_at, number, 0)
        parts = {"status": put(self.status, number, STANDS), "undone_at": undone_at, "undone": self.undone[:-1]}
        return f"redone {number}", self.going_on(lines=lines, **parts).replayed(number)

    # replay

    def replayed(self, number):
        """The history with the cells of a change as its entries leave them."""
        change = self.changes[number - 1]
        counting = [it for it, status in zip(self.changes, self.status) if status == STANDS]
        records = replayed_cells(change.records, self.opening.records, [it.records for it in counting])
        numbers = replayed_cells(change.numbers, self.opening.numbers, [it.numbers for it in counting])
        lives = [(subchannel, self.replayed_live(subchannel)) for subchannel in change.altered()]
        return self.going_on(state=overwritten(self.state, records, numbers, lives))

    def replayed_live(self, subchannel):
        """What the last entry of a subchannel's line left that isn't struck."""
        live = self.opening.lives.get(subchannel)
        for it in self.lines[subchannel]:
            if isinstance(it, Step):
                live = live if it.struck is not None else it.live
            elif it.what == "change" and self.status_of(it.number) == STANDS:
                live = dict(self.changes[it.number - 1].lives)[subchannel]
        return live


class Stage(NamedTuple):
    """The change that a begin decided, and how often it was advanced."""

    change: Change
    advances: int


def unseen(command):
    """A step where no image sees anything."""
    return ("nothing" if command in ("active", "end") else "cc 3"), None


def restruck(line, before, after):
    """Part of a line, in which each step that one thing struck, or nothing, is struck by another."""
    return tuple(it._replace(struck=after) if isinstance(it, Step) and it.struck == before else it for it in line)


def put(items, number, item):
    return items[: number - 1] + (item,) + items[number:]


def with_cells(table, cells):
    """A map with some cells overwritten, absent values too."""
    table = dict(table)
    for cell, value in cells:
        if value is None:
            table.pop(cell, None)
        else:
            table[cell] = value
    return table


def overwritten(state, records, numbers, lives):
    """A state with some of its cells overwritten."""
    lives = with_cells(state.lives, lives)
    if not records and not numbers:
        return State(state.frame, lives)
    return State(frame_of(with_cells(state.records, records), with_cells(state.numbers, numbers)), lives)


def replayed_cells(cells, opening, written):
    """Some cells as the opening has them, overwritten by what changes wrote there, in order."""
    values = {cell: opening.get(cell) for cell, _ in cells}
    for change in written:
        values.update((cell, value) for cell, value in change if cell in values)
    return tuple(values.items())
