"""Paths that may go off and on again though no mask shows it: which changed objects are the reason, and whose."""
from typing import NamedTuple

from legality.records import DEVICE, IMAGE, PATH, UNIT

from .effects import route_of
from .objects import numbers_text, runs_of, told_run


class Reason(NamedTuple):
    """An object that is a reason, for each path or for one, of an image's device."""

    key: tuple
    is_each: bool
    path: tuple  # css, number
    image: tuple
    device: tuple
    is_over_another: bool = False  # a path leads over this control unit, and led over another


class Line(NamedTuple):
    """Runs of objects of which the same is told, with the reasons that they are."""

    runs: list
    fields: str
    reasons: list


def reasons_of(old, new, effects):
    """Every reason of every path that goes off and on."""
    return [reason for it in effects for path in it.rerouted for reason in reasons_at(old, new, it, path)]


def reasons_at(old, new, effect, path):
    css = effect.image[0]
    before, after = (route_of(records, effect.image, effect.device, path) for records in (old, new))
    rest = (css, path), effect.image, effect.device
    device = (DEVICE, *effect.device)
    moved = before.unit != after.unit and old[device].units != new[device].units
    if before.name != after.name:
        yield Reason((IMAGE, *effect.image), True, *rest)
    if before.path != after.path:
        yield Reason((PATH, css, path), False, *rest)
    if before.unit == after.unit:
        if before.unit_way != after.unit_way:
            yield Reason((UNIT, after.unit), True, *rest)
        elif before.link != after.link:
            yield Reason((UNIT, after.unit), False, *rest)
    elif not moved:
        yield Reason((UNIT, after.unit), False, *rest, True)
    if moved or before.device != after.device:
        yield Reason(device, True, *rest)


def lines_of(objects, reasons):
    """What is told of the objects that are reasons, in the order of their keys."""
    by_key, lines = {}, {}
    for reason in reasons:
        by_key.setdefault(reason.key, []).append(reason)
    for run in runs_of(objects):
        own = [reason for it in run.objects for reason in by_key.get(it.key, ())]
        if own:
            fields = told_run(run, lambda name, text: leads(run.first.key[0], name, text, own))
            lines.setdefault(same_told(run, fields, own), Line([], fields, [])).runs.append(run)
            lines[same_told(run, fields, own)].reasons.extend(own)
    return list(lines.values())


def same_told(run, fields, reasons):
    """Objects of one kind of which the same is told; and paths of one number with the same fields."""
    key = run.first.key
    if key[0] == PATH:
        return key[0], fields, key[2]
    return key[0], fields, paths_told(reasons), frozenset(it.image for it in reasons)


def leads(kind, name, text, reasons):
    """Whether a field that is told leads to devices."""
    if name in ("online", "candidates", "access", "PARTITION") or kind == UNIT and name == "UNITADD":
        return False
    if kind == UNIT and name == "PATH":
        return any(it.is_over_another for it in reasons)
    return text not in ("CUADD 00 -> none", "CUADD none -> 00") and not (
        name == "LINK" and text.endswith((" ** -> none", " none -> **"))
    )


def paths_told(reasons):
    """`path 0.43`, `paths ..` or `each path`."""
    if any(it.is_each for it in reasons):
        return "each path"
    numbers = {}
    for place in sorted({it.path for it in reasons}):
        numbers.setdefault(place[1], []).append(place)
    words = [numbers_text(places) for places in numbers.values()]
    return f"{'path' if sum(map(len, numbers.values())) == 1 else 'paths'} {' '.join(words)}"
