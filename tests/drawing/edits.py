"""Edits of a machine, one after the other: each function gives the statements of one, and makes it on the machine."""
from .cards import Words
from .forms import by_css, decimal, hexadecimal, path_place
from .machines import Path, drawn_carried, drawn_name, drawn_path, drawn_run, drawn_unit, few, fitted, some
from .machines import addresses_of, free_number, weighted
from .statements import device_runs, device_words, id_words, online_words, path_words, resource_words, unit_words

IGNORED = ("CUNUMBR=XYZ", "SHARED=1", "TYPE=A", "PARTITION=", "UNITADD=((", "LINK=1")


def one_of(dice, table):
    return dice.choice(sorted(table)) if table else None


def more_ignored(dice, operands, looked_at=()):
    """DELETE ignores all operands but those of the key."""
    if dice.random() < 0.1:
        extra = [text for text in IGNORED if text.count("(") == text.count(")") and text.split("=")[0] not in looked_at]
        return (*operands, dice.choice(extra))
    return operands


def add_devices(dice, machine):
    run = drawn_run(dice, machine) if machine.units else {}
    machine.devices.update(run)
    return [device_words(dice, machine, keys, "ADD") for keys in device_runs(dice, machine, run)]


def neighbours(dice, machine):
    """Devices of a set whose numbers follow each other."""
    key = one_of(dice, machine.devices)
    keys = []
    while key in machine.devices and (not keys or dice.random() < 0.6):
        keys.append(key)
        key = (key[0], key[1] + 1)
    return keys


def delete_devices(dice, machine):
    keys = neighbours(dice, machine)
    if not keys:
        return []
    for key in keys:
        del machine.devices[key]
    text = f"({hexadecimal(dice, keys[0][1], 4)},{decimal(dice, len(keys))})"
    text = hexadecimal(dice, keys[0][1], 4) if len(keys) == 1 and dice.random() < 0.5 else text
    operands = (f"ADDRESS={text}",) + ((f"SCHSET={keys[0][0]}",) if keys[0][0] else ())
    return [Words("DELETE", "IODEVICE", more_ignored(dice, operands, ("ADDRESS", "SCHSET", "PARTITION", "UNITADD")))]


def modify_device(dice, machine):
    key = one_of(dice, machine.devices)
    if key is None:
        return []
    device = machine.devices.pop(key)
    names = machine.names()
    kind = dice.choice(("candidates", "address", "units", "carried", "nothing"))
    if kind == "candidates":
        device = device._replace(candidates=some(dice, names) if dice.random() < 0.8 else None)
    elif kind in ("address", "units"):
        other = next(iter(drawn_run(dice, machine).values()), device)
        device = device._replace(units=other.units, address=other.address)
    elif kind == "carried":
        device = device._replace(carried=drawn_carried(dice, "IODEVICE", 0.7))
    machine.devices[key] = device
    return [device_words(dice, machine, [key], "MODIFY")]


def bring_online(dice, machine, key, names, verb="ADD"):
    """ONLINE of a path for some names, in one statement or in one for each."""
    change = machine.online.update if verb == "ADD" else machine.online.difference_update
    change({(*key, name) for name in names})
    groups = [list(names)] if dice.random() < 0.6 else [[name] for name in names]
    return [online_words(dice, *key, group, verb) for group in groups if group]


def online_at(machine, key):
    return sorted(name for css, number, name in machine.online if (css, number) == key)


def may_come(machine, key):
    """The names that may be online at a path beside those that are."""
    path, there = machine.paths[key], online_at(machine, key)
    names = sorted({*path.access, *path.candidates} - set(there))
    return names if path.kind == "shared" else [] if there else names[:1]


def add_path(dice, machine):
    if not machine.images:
        return []
    css = dice.choice(machine.csss())
    key = (css, free_number(dice, {number for at, number in machine.paths if at == css}, 0xFF, 16))
    machine.paths[key] = drawn_path(dice, machine.names(css))
    statements = [path_words(dice, machine, key, machine.paths[key], "ADD")]
    names = some(dice, may_come(machine, key))
    return statements + (bring_online(dice, machine, key, names) if names else [])


def modify_path(dice, machine):
    """Other lists of a path, which still hold what is online there; or another kind."""
    key = one_of(dice, machine.paths)
    if key is None:
        return []
    path, there = drawn_path(dice, machine.names(key[0])), online_at(machine, key)
    if path.kind == "dedicated" and there and there != list(path.access):
        path = Path("dedicated", tuple(there[:1]), ())
    if path.kind != "dedicated" or len(there) > 1:
        kind = "shared" if len(there) > 1 else path.kind
        path = path._replace(kind=kind, candidates=tuple(sorted({*path.candidates, *there})))
    machine.paths[key] = path
    return [path_words(dice, machine, key, path, "MODIFY")]


def delete_path(dice, machine):
    """A path goes: offline, out of its units, and then itself."""
    key = one_of(dice, machine.paths)
    units = [number for number, unit in machine.units.items() if key and key[1] in machine.paths_of(number, key[0])]
    if key is None or any(len(machine.units[number].paths) < 2 for number in units):
        return []
    statements = bring_online(dice, machine, key, online_at(machine, key), "DELETE")
    for number in units:
        unit = machine.units[number]
        paths = tuple(group for group in unit.paths if group[0] != key[0])
        links = tuple(group for group in unit.links if group[0] != key[0])
        machine.units[number] = unit._replace(paths=paths, links=links)
        statements.append(unit_words(dice, number, machine.units[number], "MODIFY"))
    del machine.paths[key]
    return statements + [Words("DELETE", "CHPID", more_ignored(dice, (f"PATH={path_place(dice, *key)}",), ("PATH",)))]


def switch_online(dice, machine):
    """A path comes online to an image, or goes offline."""
    key = one_of(dice, machine.paths)
    there = online_at(machine, key) if key else []
    names = may_come(machine, key) if key else []
    if there and (not names or dice.random() < 0.5):
        return bring_online(dice, machine, key, some(dice, there, 1), "DELETE")
    return bring_online(dice, machine, key, some(dice, names, 1)) if names else []


def add_unit(dice, machine):
    if not machine.paths:
        return []
    number = free_number(dice, machine.units, 0xFFFE, 0x100)
    machine.units[number] = fitted(dice, machine, number, drawn_unit(dice, machine))
    return [unit_words(dice, number, machine.units[number], "ADD")]


def modify_unit(dice, machine):
    """Other paths, links or ranges of a unit, in which its devices still have their unit addresses."""
    number = one_of(dice, machine.units)
    if number is None or not machine.paths:
        return []
    old, new = machine.units[number], drawn_unit(dice, machine)
    used = {device.address for device in machine.devices.values() if number in device.units}
    if used - addresses_of(new):
        new = new._replace(ranges=old.ranges)
    if any(number in device.units and len(device.units) > 1 for device in machine.devices.values()):
        new = new._replace(paths=old.paths, links=())
    if dice.random() < 0.3:
        new = new._replace(paths=tuple((css, paths[::-1]) for css, paths in old.paths), links=())
    machine.units[number] = fitted(dice, machine, number, new)
    return [unit_words(dice, number, machine.units[number], "MODIFY")]


def delete_unit(dice, machine):
    free = [number for number in machine.units if not any(number in it.units for it in machine.devices.values())]
    if not free:
        return []
    number = dice.choice(free)
    del machine.units[number]
    operands = (f"CUNUMBR={hexadecimal(dice, number, 4)}",)
    return [Words("DELETE", "CNTLUNIT", more_ignored(dice, operands, ("CUNUMBR",)))]


def add_image(dice, machine):
    css = dice.choice([*machine.csss(), dice.randrange(6)])
    free = [mif for mif in range(1, 16) if (css, mif) not in machine.images]
    if not free:
        return []
    key = (css, dice.choice(free))
    machine.images[key] = drawn_name(dice, machine.names())
    return [resource_words(dice, {key: machine.images[key]}, {}, (), "ADD")]


def unlisted(machine):
    """The images that are in no list."""
    listed = {name for path in machine.paths.values() for name in (*path.access, *path.candidates)}
    listed |= {name for device in machine.devices.values() for name in device.candidates or ()}
    return {key for key, name in machine.images.items() if name not in listed}


def change_image(dice, machine):
    """An image goes, or has another name."""
    key = one_of(dice, unlisted(machine))
    if key is None:
        return []
    if dice.random() < 0.5:
        machine.images[key] = drawn_name(dice, machine.names())
        return [resource_words(dice, {key: machine.images[key]}, {}, (), "MODIFY")]
    name = dice.choice(("*", machine.images.pop(key), "1X"))
    text = by_css(dice, [(key[0], [f"({name},{key[1]:X})"])])
    return [Words("DELETE", "RESOURCE", more_ignored(dice, (f"PARTITION={text}",), ("PARTITION",)))]


def change_limit(dice, machine):
    """A limit comes, goes, or is another; now and then a low one."""
    key = (dice.choice(machine.csss() or [0]), weighted(dice, {0: 60, 1: 20, 2: 10, 3: 10}))
    if key in machine.limits and dice.random() < 0.5:
        del machine.limits[key]
        text = by_css(dice, [(key[0], [""] * key[1] + [dice.choice(("0", "77", "X"))])])
        return [Words("DELETE", "RESOURCE", more_ignored(dice, (f"MAXDEV={text}",), ("MAXDEV", "PARTITION")))]
    verb = "MODIFY" if key in machine.limits else "ADD"
    least = machine.reached(*key)
    machine.limits[key] = dice.choice((least, least + dice.randrange(9), 65535))
    return [resource_words(dice, {}, {key: machine.limits[key]}, (), verb)]


def change_identity(dice, machine):
    """What ID or RESOURCE carries comes, goes, or is other text."""
    if dice.random() < 0.5:
        verb = dice.choice(("MODIFY", "DELETE")) if machine.identity is not None else "ADD"
        machine.identity = None if verb == "DELETE" else drawn_carried(dice, "ID", 0.8)
        return [Words(verb, "ID", ()) if verb == "DELETE" else id_words(dice, machine, verb)]
    carried = drawn_carried(dice, "RESOURCE", 0.9)
    verb = dice.choice(("MODIFY", "DELETE")) if machine.resource else "ADD"
    if verb != "DELETE" and not carried:
        return []
    machine.resource = () if verb == "DELETE" else carried
    return [Words("DELETE", "RESOURCE", ()) if verb == "DELETE" else resource_words(dice, {}, {}, carried, verb)]


EDITS = {
    add_devices: 14, delete_devices: 16, modify_device: 12, add_path: 5, modify_path: 6, delete_path: 3,
    switch_online: 12,
    add_unit: 5, modify_unit: 7, delete_unit: 3, add_image: 4, change_image: 4, change_limit: 6, change_identity: 3,
}


def drawn_edits(dice, machine, count=None):
    """The statements of some edits, which are made on the machine."""
    statements = []
    for _ in range(few(dice, 1, 4, 10) if count is None else count):
        statements += weighted(dice, EDITS)(dice, machine)
    return statements


def exchanged(dice, machine):
    """Two devices exchange their unit addresses: a rule is broken for a while."""
    keys = [key for key in sorted(machine.devices) if machine.devices[key].units]
    pairs = [(one, other) for one in keys for other in keys[:30] if one < other and same_units(machine, one, other)]
    if not pairs:
        return []
    one, other = dice.choice(pairs)
    first, second = machine.devices[one], machine.devices[other]
    machine.devices[one] = first._replace(address=second.address)
    machine.devices[other] = second._replace(address=first.address)
    return [device_words(dice, machine, [key], "MODIFY") for key in (one, other)]


def same_units(machine, one, other):
    return machine.devices[one].units == machine.devices[other].units
