"""The objects that a change adds, deletes or changes, and how their fields are told."""
from typing import NamedTuple

from legality.records import DEVICE, ID, IMAGE, LIMIT, ONLINE, PATH, RESOURCE, UNIT, key_text

from .effects import link_of
from .listed import span

SIGNS = {"added": "+", "deleted": "-", "changed": "~"}
USES = {"shared": "SHARED", "rec": "REC", "dedicated": "DEDICATED"}
NAMES = ("online", "candidates", "access")
NOT_THERE = {"PARTITION": "all"}  # what is told of a field that isn't there, but `none`
OTHERWISE = "written otherwise"


class Object(NamedTuple):
    """A key whose record differs, with its fields before and after, in order."""

    key: tuple
    change: str
    before: tuple
    after: tuple
    told: tuple  # of each field that is told its name and its text


class Run(NamedTuple):
    """Objects of which the same is told: devices in a run, else one."""

    objects: tuple

    @property
    def first(self):
        return self.objects[0]

    @property
    def keys(self):
        return {it.key for it in self.objects}

    @property
    def name(self):
        if self.first.key[0] != DEVICE:
            return key_text(self.first.key)
        return f"device {range_text([it.key[1:] for it in self.objects])}"


def range_text(devices):
    """A run of devices, as `--device` takes it, with their number."""
    number_set, first = devices[0]
    own = "" if number_set == 0 else f"{number_set}."
    count = f" ({len(devices)})" if len(devices) > 1 else ""
    return f"{own}{span(first, devices[-1][1], '04X')}{count}"


def objects_of(old, new):
    """The objects that differ, in the order of keys."""
    found = []
    for key in sorted(key for key in old.keys() | new.keys() if key[0] != ONLINE):
        before, after = whole(old, key), whole(new, key)
        if before != after:
            change = "added" if before is None else "deleted" if after is None else "changed"
            fields = fields_of(old, key), fields_of(new, key)
            found.append(Object(key, change, *fields, told_of(key, change, *fields)))
    return found


def whole(records, key):
    """A record; of a path with those that are online at it."""
    if key not in records:
        return None
    return (records[key], online_at(records, key)) if key[0] == PATH else records[key]


def online_at(records, key):
    return tuple(sorted(it[3] for it in records if it[0] == ONLINE and it[1:3] == key[1:3]))


# ---- fields: a name and a value, which is a text or a list of names


def fields_of(records, key):
    if key not in records:
        return ()
    kind, record = key[0], records[key]
    if kind in (ID, RESOURCE):
        return tuple(carried_fields(record))
    if kind in (IMAGE, LIMIT):
        return (("name", record.name) if kind == IMAGE else ("limit", str(record)),)
    own = {PATH: path_fields, UNIT: unit_fields, DEVICE: device_fields}[kind](records, key, record)
    return (*own, *carried_fields(record.carried))


def carried_fields(carried):
    """Carried operands in order; the bare words together, where the first is."""
    words, fields = [text for keyword, text in carried if keyword is None], {}
    for keyword, text in carried:
        fields.setdefault(keyword or "words", text if keyword else ",".join(words))
    return fields.items()


def path_fields(records, key, path):
    online, access = online_at(records, key), tuple(sorted(set(path.access)))
    return (
        ("use", USES[path.kind]),
        ("online", online),
        ("candidates", tuple(sorted(set(path.names)))),
        ("access", access),
    )


def unit_fields(records, key, unit):
    ranges = ",".join(span(first, first + count - 1, "02X") for first, count in unit.ranges)
    paths = tuple((css, path, link_of(unit, css, path)) for css, numbers in unit.paths for path in numbers)
    cuadd = () if unit.cuadd is None else (("CUADD", f"{unit.cuadd:02X}"),)
    return (("PATH", paths), ("UNITADD", ranges), *cuadd)


def device_fields(records, key, device):
    units = ",".join(f"{unit:04X}" for unit in device.units) or "none"
    partition = () if device.candidates is None else (("PARTITION", ",".join(device.candidates) or "0"),)
    return (("CUNUMBR", units), ("UNITADD", f"{device.address:02X}"), *partition)


# ---- what is told of them


def told_of(key, change, before, after):
    if change != "changed":
        return tuple(told_alone(before or after))
    told = tuple(told_change(key, dict(before), dict(after)))
    return told or ((OTHERWISE, OTHERWISE),)


def told_alone(fields):
    values = dict(fields)
    for name, value in fields:
        if name == "use":
            yield name, value
        elif name in NAMES:
            if name != "access" or value != values["online"]:
                yield name, f"{name} {','.join(value) or 'none'}"
        else:
            yield name, f"{name} {paths_text(value) if is_paths(name, value) else value}"


def is_paths(name, value):
    """Whether these are paths, and not the text of a carried operand PATH."""
    return name == "PATH" and not isinstance(value, str)


def told_change(key, before, after):
    """First the fields of before, then those that came."""
    for name in [*before, *(name for name in after if name not in before)]:
        old, new = before.get(name), after.get(name)
        if is_paths(name, old or new):
            yield from told_paths(old, new)
        elif old == new or name == "access" and old == before["online"] and new == after["online"]:
            continue
        elif name in NAMES:
            yield name, came_and_went(name, old, new)
        elif name == "PARTITION" and old not in (None, "0") and new not in (None, "0"):
            yield name, came_and_went(name, old.split(","), new.split(","))
        else:
            none = NOT_THERE.get(name, "none")
            yield name, f"{name} {none if old is None else old} -> {none if new is None else new}"


def came_and_went(name, old, new):
    signs = [f"-{it}" for it in old if it not in new] + [f"+{it}" for it in new if it not in old]
    return " ".join([name, *signs])


def told_paths(old, new):
    """The paths of a control unit that went and came, and the links of those that stay."""
    before, after = ({it[:2]: it[2] for it in paths} for paths in (old, new))
    both = [place for place in before if place in after]
    if both != [place for place in after if place in before]:
        yield "PATH", f"PATH {paths_text(old)} -> {paths_text(new)}"
    elif before.keys() != after.keys():
        went = [path_text(it) for it in old if it[:2] not in after]
        came = [path_text(it) for it in new if it[:2] not in before]
        yield "PATH", came_and_went("PATH", went, came)
    links = {}
    for place in both:
        if before[place] != after[place]:
            links.setdefault((place[1], before[place], after[place]), []).append(place)
    for (_, link, other), places in links.items():
        yield "LINK", f"LINK {numbers_text(places)} {link or 'none'} -> {other or 'none'}"


def path_text(path):
    css, number, link = path
    return f"{css}.{number:02X}" + (f"/{link}" if link else "")


def numbers_text(places):
    """Paths of one number in their channel subsystems: `0,1.43`."""
    return f"{','.join(str(css) for css, _ in places)}.{places[0][1]:02X}"


def paths_text(paths):
    """The paths of a control unit with their links; channel subsystems with the same stand together."""
    texts, alike = {}, {}
    for css, number, link in paths:
        texts.setdefault(css, []).append(f"{number:02X}" + (f"/{link}" if link else ""))
    for css, items in texts.items():
        alike.setdefault(",".join(items), []).append(str(css))
    return ";".join(f"{','.join(subsystems)}:{text}" for text, subsystems in alike.items())


# ---- runs


def runs_of(objects):
    """Objects, devices of which the same is told joined while the number, and an address that is told, is one more."""
    runs = []
    for it in objects:
        if runs and is_next(runs[-1][-1], it):
            runs[-1].append(it)
        else:
            runs.append([it])
    return [Run(tuple(run)) for run in runs]


def is_next(one, other):
    if one.key[0] != DEVICE or other.key != (DEVICE, one.key[1], one.key[2] + 1) or one.change != other.change:
        return False
    is_told = any(name == "UNITADD" for name, _ in one.told)
    rests = [[it for it in told if it[0] != "UNITADD"] for told in (one.told, other.told)]
    sides = ((one.before, other.before), (one.after, other.after))
    return (
        rests[0] == rests[1]
        and is_told == any(name == "UNITADD" for name, _ in other.told)
        and (not is_told or all(is_one_more(*side) for side in sides))
    )


def is_one_more(fields, others):
    if not fields:
        return True
    return int(dict(fields)["UNITADD"], 16) + 1 == int(dict(others)["UNITADD"], 16)


def told_run(run, is_wanted=lambda name, text: True):
    """The fields of a run as they are told, those that are wanted alone."""
    texts = [
        run_addresses(run) if name == "UNITADD" and run.first.key[0] == DEVICE else text
        for name, text in run.first.told
        if is_wanted(name, text)
    ]
    return "  ".join(texts) or OTHERWISE


def run_addresses(run):
    texts = [
        span(*(int(dict(fields)["UNITADD"], 16) for fields in sides), "02X")
        for sides in zip(*((it.before, it.after) for it in (run.first, run.objects[-1])))
        if all(sides)
    ]
    return f"UNITADD {' -> '.join(texts)}"
