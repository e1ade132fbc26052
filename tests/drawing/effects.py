"""What a change does to whom: what each image sees of each device before and after, and the paths that lead there."""
from typing import NamedTuple, Optional

from legality.machine import SHOWN, path_list
from legality.records import DEVICE, IMAGE, ONLINE, PATH, UNIT


class Seen(NamedTuple):
    """What an image sees of a device: its paths, those that are installed, and those that are online."""

    paths: tuple
    installed: tuple
    online: tuple


class Route(NamedTuple):
    """How a path leads from an image to a device."""

    name: str
    path: tuple
    unit: int
    unit_way: tuple
    link: Optional[str]
    device: tuple


class Effect(NamedTuple):
    """What a change does to an image (css, MIF) and a device (set, number)."""

    image: tuple
    device: tuple
    before: Optional[Seen]
    after: Optional[Seen]
    rerouted: tuple  # the paths online before and after with another route
    is_kept: bool  # a path is online before and after with one route

    @property
    def gone(self):
        return self.before is not None and self.after is None

    @property
    def came(self):
        return self.before is None and self.after is not None

    @property
    def changed(self):
        return self.before is not None and self.after is not None and self.before != self.after

    @property
    def same(self):
        return self.before is not None and self.before == self.after

    @property
    def lost(self):
        return online_count(self.before) > 0 and online_count(self.after) == 0

    @property
    def interrupted(self):
        return online_count(self.before) > 0 and online_count(self.after) > 0 and not self.is_kept

    @property
    def onepath(self):
        return online_count(self.before) > 1 and online_count(self.after) == 1

    @property
    def offon(self):
        return bool(self.rerouted)

    @property
    def has_row(self):
        return self.before != self.after or self.interrupted

    @property
    def affects(self):
        return self.has_row or self.offon


def online_count(seen):
    return len(seen.online) if seen else 0


def seen_of(records, image, device):
    """What an image sees of a device, or None."""
    css, mif = image
    name, record = records.get((IMAGE, css, mif)), records.get((DEVICE, *device))
    if name is None or record is None or record.candidates is not None and name.name not in record.candidates:
        return None
    paths = path_list(records, css, record)
    installed = [path for path in paths if name.name in names_at(records, css, path)]
    if not installed:
        return None
    online = [path for path in paths if (ONLINE, css, path, name.name) in records]
    shown = paths[:SHOWN]
    return Seen(shown, *(tuple(path for path in shown if path in some) for some in (installed, online)))


def names_at(records, css, path):
    record = records.get((PATH, css, path))
    return record.names if record else ()


def unit_with(records, css, device, path):
    """The control unit of a device that has a path."""
    return next(number for number in records[(DEVICE, *device)].units if has_path(records, number, css, path))


def has_path(records, number, css, path):
    unit = records.get((UNIT, number))
    return unit is not None and path in unit.paths_in(css)


def unit_way(unit):
    """What leads over a control unit whatever the path is: no CUADD is 00."""
    return unit.cuadd or 0, unit.carried


def link_of(unit, css, path):
    """The link of a path of a control unit, as it is written; None where there is none."""
    place, links = unit.paths_in(css).index(path), unit.links_in(css)
    return links[place] if place < len(links) else None


def link_way(unit, css, path):
    """The link that leads to a control unit: `**` is none."""
    link = link_of(unit, css, path)
    return None if link == "**" else link


def path_way(record):
    return record.kind, record.carried


def device_way(record):
    return record.address, record.carried


def route_of(records, image, device, path):
    css, mif = image
    number = unit_with(records, css, device, path)
    unit = records[UNIT, number]
    return Route(
        records[IMAGE, css, mif].name,
        path_way(records[PATH, css, path]),
        number,
        unit_way(unit),
        link_way(unit, css, path),
        device_way(records[(DEVICE, *device)]),
    )


def effect_on(old, new, image, device):
    before, after = seen_of(old, image, device), seen_of(new, image, device)
    both = [path for path in before.online if path in after.online] if before and after else []
    rerouted = tuple(it for it in both if route_of(old, image, device, it) != route_of(new, image, device, it))
    return Effect(image, device, before, after, rerouted, len(rerouted) < len(both))


def places_of(kind, *configurations):
    return sorted({key[1:] for records in configurations for key in records if key[0] == kind})


def effects_of(old, new):
    """Of every image and every device of either configuration."""
    devices = places_of(DEVICE, old, new)
    return [effect_on(old, new, image, device) for image in places_of(IMAGE, old, new) for device in devices]
