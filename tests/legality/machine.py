"""States of a machine: its configuration, its numbers, its live records; what is seen of them, and single edits."""
from typing import NamedTuple

from .changes import Edit
from .orders import fresh, is_quiet, with_lpm
from .records import DEVICE, IMAGE, ONLINE, PATH, UNIT
from .rules import first_breach

SHOWN = 8  # the most paths that a view has


class Refused(Exception):
    """A refusal of a change: its number, the node of the tree, and what it is about: a key, a subchannel or a
    change."""

    def __init__(self, rule, node=None, about=None):
        super().__init__(rule, node, about)
        self.rule, self.node, self.about = rule, node, about


class View(NamedTuple):
    device: int
    paths: tuple
    pim: int
    pam: int


class Frame:
    """A configuration by key, with devices by number cell (css, set, number), and what is seen of them."""

    def __init__(self, records, numbers):
        self.records, self.numbers = records, numbers
        self.path_lists = path_lists(records)
        self.views = views_of(records, numbers, self.path_lists)
        self.breach_found, self.edits = None, {}

    @property
    def breach(self):
        """The first rule that is broken, with the least key that breaks it, or None."""
        if self.breach_found is None:
            self.breach_found = (first_breach(self.records, self.numbers),)
        return self.breach_found[0]


# equal frames are one object, so that what is seen is found once, and so is what an edit does to it
FRAMES = {}


def frame_of(records, numbers):
    key = (frozenset(records.items()), frozenset(numbers.items()))
    if key not in FRAMES:
        FRAMES[key] = Frame(records, numbers)
    return FRAMES[key]


class State:
    """A configuration with its numbers, and live records by subchannel (css, image, set, number)."""

    def __init__(self, frame, lives):
        self.frame, self.lives = frame, lives
        self.records, self.numbers, self.views = frame.records, frame.numbers, frame.views

    @property
    def breach(self):
        return self.frame.breach


def path_list(records, css, device):
    """The paths of a device's control units in a channel subsystem, joined."""
    units = (records.get((UNIT, number)) for number in device.units)
    return tuple(path for unit in units if unit is not None for path in unit.paths_in(css))


def path_lists(records):
    """The path list of each device in each channel subsystem where it has one, by (css, set, device)."""
    found = {}
    for key, record in records.items():
        if key[0] == DEVICE:
            for css in range(6):
                paths = path_list(records, css, record)
                if paths:
                    found[css, key[1], key[2]] = paths
    return found


def mask_of(bits):
    return sum(0x80 >> place for place, bit in enumerate(bits) if bit)


def views_of(records, numbers, lists):
    """What every image sees at each subchannel, by the path lists of the devices."""
    views = {}
    images = [(key[1], key[2], record.name) for key, record in records.items() if key[0] == IMAGE]
    for css, mif, name in images:
        reached = {key[2] for key, record in records.items() if key[:2] == (PATH, css) and name in record.names}
        for (at, number_set, number), device in numbers.items():
            paths = lists.get((css, number_set, device), ()) if at == css else ()
            listed = records[DEVICE, number_set, device].candidates if paths else None
            if not reached.intersection(paths) or (listed is not None and name not in listed):
                continue
            shown = paths[:SHOWN]
            pim = mask_of(path in reached for path in shown)
            pam = mask_of((ONLINE, css, path, name) in records for path in shown)
            views[css, mif, number_set, number] = View(device, shown, pim, pam)
    return views


def lowest_free(taken):
    number = 0
    while number in taken:
        number += 1
    return number


def numbers_after(numbers, reached, places):
    """Devices that leave lose their number; those that stay keep theirs; those that come in take their place, or
    the lowest free one."""
    kept = {cell: device for cell, device in numbers.items() if (cell[0], cell[1], device) in reached}
    stay = {(css, number_set, device) for (css, number_set, _), device in kept.items()}
    come, carried = sorted(set(reached) - stay), dict(reversed(places))
    taken = {}
    for css, number_set, number in kept:
        taken.setdefault((css, number_set), set()).add(number)
    for with_place in (True, False):
        for place in come:
            if (place in carried) == with_place:
                used = taken.setdefault(place[:2], set())
                number = carried[place] if with_place else lowest_free(used)
                used.add(number)
                kept[place[0], place[1], number] = place[2]
    return kept


def is_number_taken(numbers, reached, places):
    """E4: a carried number of a device that comes in is held by one that stays, or is carried twice."""
    kept = {cell: device for cell, device in numbers.items() if (cell[0], cell[1], device) in reached}
    stay = {(css, number_set, device) for (css, number_set, _), device in kept.items()}
    come = set(reached) - stay
    cells = [(*place[:2], number) for place, number in places if place in come]
    return len(cells) != len(set(cells)) or any(cell in kept for cell in cells)


def opening(records):
    """The state at opening: numbers from 0 in order of device number, fresh live records."""
    frame = frame_of(records, numbers_after({}, path_lists(records), ()))
    return State(frame, {subchannel: fresh(view.pim) for subchannel, view in frame.views.items()})


def differing(before, after):
    """Where two maps differ: what stands there in each, absent as None."""
    keys = before.keys() | after.keys()
    return {key: (before.get(key), after.get(key)) for key in keys if before.get(key) != after.get(key)}


class Performed(NamedTuple):
    """What an edit did: its key, the edit that takes it back, and the number cells and views that it changed."""

    key: tuple
    inverse: Edit
    numbers: tuple  # (cell, (before, after)) in order
    altered: tuple  # (subchannel, (view before, view after)) in order

    def subchannels(self):
        return [subchannel for subchannel, _ in self.altered]


def bar(records, edit):
    """E1 and E2."""
    if edit.action == "add" and edit.key in records:
        return "E1"
    return "E2" if edit.action != "add" and edit.key not in records else None


def edited(frame, edit):
    """What an edit does to a frame: the frame after it, or the rule by which it is refused whatever is quiet."""
    rule = bar(frame.records, edit)
    if rule:
        return rule
    records = dict(frame.records)
    if edit.action == "delete":
        del records[edit.key]
    else:
        records[edit.key] = edit.record
    reached = path_lists(records)
    if is_number_taken(frame.numbers, reached, edit.places):
        return "E4"
    return frame_of(records, numbers_after(frame.numbers, reached, edit.places))


def frame_after(frame, edit):
    """The frame after an edit, or E1, E2 or E4."""
    asked = edit._replace(kept=())
    if asked not in frame.edits:
        frame.edits[asked] = edited(frame, edit)
    if isinstance(frame.edits[asked], str):
        raise Refused(frame.edits[asked], None, edit.key)
    return frame.edits[asked]


def live_after(live, view, kept, change):
    """The live record of an altered subchannel that is still there."""
    if kept is not None:
        return kept
    if live is None:
        return fresh(view.pim)
    before, after = change
    return live if before.paths == after.paths else with_lpm(live, view.pim)


def inverse_of(state, edit, after, altered):
    """The edit that takes an edit back: the old record, the numbers that were freed, by device,
    and the live records that altered subchannels had."""
    old = state.records.get(edit.key)
    action = {"add": "delete", "delete": "add", "modify": "modify"}[edit.action]
    numbered = {(css, number_set, device) for (css, number_set, _), device in after.numbers.items()}
    freed = sorted(
        ((css, number_set, device), number)
        for (css, number_set, number), device in state.numbers.items()
        if (css, number_set, device) not in numbered
    )
    kept = tuple((subchannel, state.lives[subchannel]) for subchannel in sorted(altered) if subchannel in state.lives)
    return Edit(action, edit.key, old if action != "delete" else None, tuple(freed), kept)


def perform(state, edit, is_forced=False):
    """The state after an edit and what it did, or its refusal, which names no node. A forced one doesn't ask
    whether all is quiet."""
    frame = frame_after(state.frame, edit)
    altered = differing(state.views, frame.views)
    busy = [subchannel for subchannel in sorted(altered) if not is_quiet(state.lives.get(subchannel))]
    if busy and not is_forced:
        raise Refused("B1", None, busy[0])
    lives, kept = dict(state.lives), dict(edit.kept)
    for subchannel, change in altered.items():
        live, view = lives.pop(subchannel, None), change[1]
        if view is not None:
            lives[subchannel] = live_after(live, view, kept.get(subchannel), change)
    changed, inverse = differing(state.numbers, frame.numbers), inverse_of(state, edit, frame, altered)
    numbers, views = (tuple(sorted(changes.items())) for changes in (changed, altered))
    return State(frame, lives), Performed(edit.key, inverse, numbers, views)
