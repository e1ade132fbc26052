"""What the reading of tests/legality says of decks and change decks: it knows nothing of the program."""
from typing import NamedTuple, Optional

from legality.cards import Fault
from legality.changes import Edit, tree_of
from legality.histories import change_of
from legality.machine import Refused, State, opening
from legality.orders import bits_of
from legality.printed import breach_text, refusal_text, subchannel_text, table_of
from legality.records import ONLINE, configuration_of, key_text
from legality.rules import RULES
from legality.trees import meaning, size_of


class Deck(NamedTuple):
    """A deck that was read: the line of its refusal, or the state at its opening; of a breach both."""

    refusal: Optional[str]
    state: Optional[State]

    def line(self):
        """What `check` prints."""
        return self.refusal or f"accepted {len(self.state.records)}"

    def table(self):
        return table_of(self.state.views)

    def breaches(self):
        """What `check --all` prints: every breach of every rule, or the first fault."""
        if self.state is None or self.refusal is None:
            return [self.line()]
        lines = []
        for rule in RULES:
            for key in rule(self.state.records, self.state.numbers):
                line = f"refused {rule.__name__.upper()} {key_text(key)}"
                if line not in lines[-1:]:
                    lines.append(line)
        return lines


def read_deck(data):
    """A deck of these bytes."""
    try:
        records = configuration_of(data)
    except Fault as fault:
        return Deck(fault.text(), None)
    state = opening(records)
    return Deck(f"refused {breach_text(state.breach)}" if state.breach else None, state)


class Applied(NamedTuple):
    """A change deck that was read and made: its refusal, or the state after it, and how many it altered."""

    refusal: Optional[str]
    after: Optional[State] = None
    altered: int = 0
    nodes: int = 0
    performed: tuple = ()

    def line(self):
        return self.refusal or f"change 1 altered {self.altered}"

    def is_fault(self):
        """Whether its text is refused, so that nothing is known of its size."""
        return self.refusal is not None and " line " in self.refusal

    def table(self):
        return table_of(self.after.views)

    def inverses(self):
        """The edits that take it back, the last one first."""
        return [done.inverse for done in reversed(self.performed)]

    def notes(self):
        """What `--undo` says of each of them: the numbers that were freed, and the live records that are replaced."""
        lines = []
        for edit in self.inverses():
            for (css, number_set, device), number in edit.places:
                lines.append(f"* css {css} device {number_set}.{device:04X} had number {number:04X}")
            for subchannel, live in edit.kept:
                state = f"lpm {live.lpm:02X} ena {live.enabled} parm {live.parm:08X} scsw {bits_of(live.phase):X}"
                lines.append(f"* subchannel {subchannel_text(subchannel)} had {state}")
        return lines


def apply_change(state, data):
    """What a change deck of these bytes comes to in a state."""
    nodes = 0
    try:
        tree = tree_of(data)
        nodes = size_of(tree)
        after, performed = meaning(state, tree)
    except Fault as fault:
        return Applied(fault.text())
    except Refused as refused:
        return Applied(refusal_text(refused), nodes=nodes)
    return Applied(None, after, len(change_of(after, performed).altered()), nodes, tuple(performed))


def edits_in(tree):
    """The edits of a tree in order."""
    return [tree] if isinstance(tree, Edit) else [edit for part in tree.parts for edit in edits_in(part)]


def edits_of(data):
    """The edits of a change deck that was printed; none where it has a fault."""
    try:
        return edits_in(tree_of(data))
    except Fault:
        return []


def records_of(data):
    """The records of a deck that was printed; none where it has a fault."""
    try:
        return configuration_of(data)
    except Fault:
        return {}


def online_key(text):
    """The key of `0.51 LPB`, a path and a name."""
    path, name = text.split(" ")
    css, number = path.split(".")
    return (ONLINE, int(css), int(number, 16), name)


def differing_keys(old, new):
    """The keys in which two tables of records differ."""
    return sorted(key for key in old.keys() | new.keys() if old.get(key) != new.get(key))
