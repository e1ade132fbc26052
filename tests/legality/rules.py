"""The rules V1 to V14 of a configuration."""
from .records import DEVICE, IMAGE, LIMIT, ONLINE, PATH, UNIT

MOST = 8
LIMITS = (65280, 65535, 65535, 65535)


def of_kind(records, kind):
    """The keys and records of a kind, in order of keys."""
    return sorted((item for item in records.items() if item[0][0] == kind), key=lambda item: item[0])


def has_twice(items):
    return len(items) != len(set(items))


def v1(records, _):
    names = set()
    for key, image in of_kind(records, IMAGE):
        if image.name in names:
            yield key
        names.add(image.name)


def v2(records, _):
    for key, path in of_kind(records, PATH):
        names = {image.name for image_key, image in of_kind(records, IMAGE) if image_key[1] == key[1]}
        if not set(path.names) <= names:
            yield key


def v3(records, _):
    for key, path in of_kind(records, PATH):
        if (path.kind == "dedicated" and len(set(path.names)) > 1) or (path.kind == "rec" and len(path.access) > 1):
            yield key


def v4(records, _):
    used = set()
    for key, _ in of_kind(records, ONLINE):
        path = records.get((PATH, key[1], key[2]))
        if path is None or key[3] not in path.names or (path.kind != "shared" and key[1:3] in used):
            yield key
        used.add(key[1:3])


def v5(records, _):
    for key, unit in of_kind(records, UNIT):
        paths = [(css, number) for css, numbers in unit.paths for number in numbers]
        too_many = any(len(numbers) > MOST for _, numbers in unit.paths)
        if not paths or too_many or has_twice(paths) or any((PATH, *path) not in records for path in paths):
            yield key


def v6(records, _):
    for key, unit in of_kind(records, UNIT):
        if any(links and len(links) != len(unit.paths_in(css)) for css, links in unit.links):
            yield key


def addresses_of(unit):
    return [address for start, count in unit.ranges for address in range(start, start + count)]


def v7(records, _):
    for key, unit in of_kind(records, UNIT):
        addresses = addresses_of(unit)
        if has_twice(addresses) or max(addresses) > 0xFF:
            yield key


def v8(records, _):
    for key, device in of_kind(records, DEVICE):
        units = device.units
        if not units or len(units) > MOST or has_twice(units) or any((UNIT, unit) not in records for unit in units):
            yield key


def units_of(records, device):
    return [(number, records[UNIT, number]) for number in device.units if (UNIT, number) in records]


def v9(records, _):
    for key, device in of_kind(records, DEVICE):
        if any(device.address not in addresses_of(unit) for _, unit in units_of(records, device)):
            yield key


def v10(records, _):
    used = set()
    for key, device in of_kind(records, DEVICE):
        at = {(number, device.address) for number in device.units}
        if at & used:
            yield key
        used |= at


def v11(records, _):
    for key, device in of_kind(records, DEVICE):
        for css in range(6):
            paths = [path for _, unit in units_of(records, device) for path in unit.paths_in(css)]
            if len(paths) > MOST or has_twice(paths):
                yield key
                break


def v12(records, _):
    names = {image.name for _, image in of_kind(records, IMAGE)}
    for key, device in of_kind(records, DEVICE):
        if device.candidates is not None and not set(device.candidates) <= names:
            yield key


def v13(records, numbers):
    over = []
    for (css, number_set, number), device in numbers.items():
        if number >= records.get((LIMIT, css, number_set), LIMITS[number_set]):
            over.append((DEVICE, number_set, device))
    return iter(sorted(over))


def linked(unit):
    """The path of each link of a unit, with the link's text or none."""
    pairs = set()
    for css, numbers in unit.paths:
        links = unit.links_in(css)
        for place, number in enumerate(numbers):
            link = links[place] if place < len(links) else "**"
            pairs.add((css, number, link))
    return pairs


def v14(records, _):
    before = []
    for key, unit in of_kind(records, UNIT):
        at = (linked(unit), unit.cuadd or 0, set(addresses_of(unit)))
        if any(at[0] & links and at[1] == cuadd and at[2] & addresses for links, cuadd, addresses in before):
            yield key
        before.append(at)


RULES = (v1, v2, v3, v4, v5, v6, v7, v8, v9, v10, v11, v12, v13, v14)


def first_breach(records, numbers):
    """The first rule that is broken, with the least key that breaks it, or None."""
    for rule in RULES:
        key = next(rule(records, numbers), None)
        if key is not None:
            return rule.__name__.upper(), key
    return None
