"""Machines that break a rule, V1 to V14 but V4, which no deck breaks: each function breaks one, where it can."""
from .machines import MOST_PATHS, WHOLE, Device, Path, drawn_name


def some_key(dice, table):
    return dice.choice(sorted(table)) if table else None


def name_twice(dice, machine):
    """V1: an image has the name of another."""
    if len(machine.images) > 1:
        one, other = dice.sample(sorted(machine.images), 2)
        machine.images[one] = machine.images[other]


def list_of_strangers(dice, machine):
    """V2: a path lists a name that is no image's, or that of an image of another channel subsystem."""
    key = some_key(dice, machine.paths)
    if key:
        path = machine.paths[key]
        others = [name for (css, _), name in machine.images.items() if css != key[0]]
        name = dice.choice(others + [drawn_name(dice, machine.names())])
        access = tuple(sorted({*path.access, name})) if dice.random() < 0.5 else path.access
        machine.paths[key] = path._replace(access=access, candidates=tuple(sorted({*path.candidates, name})))


def too_many_names(dice, machine):
    """V3: a dedicated path of several images, or a REC path with several in its access list."""
    keys = [key for key in sorted(machine.paths) if len(machine.names(key[0])) > 1]
    if keys:
        key = dice.choice(keys)
        names = machine.names(key[0])[:2]
        lists = dice.choice(((names, names), (names[:1], names), (names[:1], names[1:]), ((), names)))
        machine.paths[key] = Path("dedicated", *lists) if dice.random() < 0.6 else Path("rec", names, names)


def paths_that_are_not(dice, machine):
    """V5: a unit without paths, with nine, with one twice, or with one that isn't there."""
    number = some_key(dice, {number for number, unit in machine.units.items() if unit.paths})
    if number is None:
        return
    unit = machine.units[number]
    css, paths = dice.choice(unit.paths)
    nine = tuple(range(0x80, 0x80 + MOST_PATHS + 1))
    if dice.random() < 0.3:
        machine.paths.update({(css, path): Path("shared", (), ()) for path in nine})
    changed = dice.choice(((), nine, paths[:7] + paths[:1], paths[:7] + (dice.randrange(256),)))
    others = tuple(group for group in unit.paths if group[0] != css)
    groups = others + (((css, changed),) if changed else ())
    machine.units[number] = unit._replace(paths=tuple(sorted(groups)) if changed else (), links=())


def links_too_few(dice, machine):
    """V6: more links than paths, or fewer, or in a channel subsystem without paths."""
    number = some_key(dice, {number for number, unit in machine.units.items() if unit.paths})
    if number is not None:
        unit = machine.units[number]
        css, paths = dice.choice(unit.paths)
        count = len(paths) + dice.choice((1, 2, -1))
        links = (css, ("1A", "**", "001B")[:count] + ("2A",) * (count - 3)) if count > 0 else ((css + 1) % 6, ("1A",))
        if dice.random() < 0.2:
            links = ((css + 1) % 6, ("1A",) * (len(machine.paths_of(number, (css + 1) % 6)) + 1))
        machine.units[number] = unit._replace(links=(links,))


def ranges_that_overlap(dice, machine):
    """V7: a range past FF, or two ranges with an address in common."""
    number = some_key(dice, machine.units)
    if number is not None:
        start, count = dice.randrange(256), dice.randint(1, 256)
        wrong = dice.choice(([(start, 257 - start)], [(0, 16), (dice.randrange(16), count)], [(255, 2)]))
        wrong = [(start, min(count, 256)) for start, count in wrong]
        dice.shuffle(wrong)
        machine.units[number] = machine.units[number]._replace(ranges=tuple(wrong))


def units_that_are_not(dice, machine):
    """V8: a device on no unit, on nine, on one twice, or on one that isn't there."""
    key = some_key(dice, machine.devices)
    if key:
        units = machine.devices[key].units
        changed = dice.choice(((), tuple(range(9)), units[:7] + units[:1], units[:7] + (dice.randrange(0xFFFF),)))
        machine.devices[key] = machine.devices[key]._replace(units=changed)


def address_outside(dice, machine):
    """V9: a unit address that a unit doesn't have."""
    numbers = [number for number, unit in machine.units.items() if unit.ranges != WHOLE]
    if numbers:
        number = dice.choice(numbers)
        have = {address for start, count in machine.units[number].ranges for address in range(start, start + count)}
        key = (dice.choice((0, 0, 1)), dice.randrange(0x10000))
        left = sorted(set(range(256)) - have)
        if left:
            machine.devices[key] = Device((number,), dice.choice(left))


def address_twice(dice, machine):
    """V10: two devices with the same unit address and a unit in common."""
    key = some_key(dice, machine.devices)
    if key:
        other = (dice.choice((0, 0, 1, 3)), dice.randrange(0x10000))
        units = machine.devices[key].units
        machine.devices[other] = machine.devices[key]._replace(units=units[:1] if dice.random() < 0.3 else units)


def paths_twice(dice, machine):
    """V11: a device whose units have a path in common, or more than eight paths in a channel subsystem."""
    if len(machine.units) > 1:
        units = tuple(dice.sample(sorted(machine.units), dice.randint(2, min(len(machine.units), 8))))
        common = set(range(256)).intersection(*(covered(machine.units[unit]) for unit in units))
        if common:
            machine.devices[dice.choice((0, 2)), dice.randrange(0x10000)] = Device(units, dice.choice(sorted(common)))


def covered(unit):
    return {address for start, count in unit.ranges for address in range(start, start + count)}


def candidates_that_are_not(dice, machine):
    """V12: a candidate that is no image."""
    key = some_key(dice, machine.devices)
    if key:
        name = drawn_name(dice, machine.names())
        names = tuple(sorted({name, *(machine.devices[key].candidates or ())}))
        machine.devices[key] = machine.devices[key]._replace(candidates=names)


def limit_too_low(dice, machine):
    """V13: a limit below the count of devices."""
    counts = {(css, at): machine.reached(css, at) for css in machine.csss() for at in range(4)}
    places = [place for place, count in counts.items() if count]
    if places:
        place = dice.choice(places)
        machine.limits[place] = max(0, counts[place] - dice.choice((1, 1, 2, 9)))


def units_that_collide(dice, machine):
    """V14: a unit with the paths, the links, the CUADD and a range of another."""
    number = some_key(dice, machine.units)
    if number is not None:
        unit = machine.units[number]
        if unit.cuadd in (None, 0) and dice.random() < 0.5:
            unit = unit._replace(cuadd=None if unit.cuadd == 0 else 0)
        machine.units[dice.randrange(0xFFFF)] = unit


BREACHES = (
    name_twice, list_of_strangers, too_many_names, paths_that_are_not, links_too_few, ranges_that_overlap,
    units_that_are_not, address_outside, address_twice, paths_twice, candidates_that_are_not, limit_too_low,
    units_that_collide,
)


def break_rule(dice, machine):
    """Breaks a rule of a machine, or two."""
    for breach in dice.sample(BREACHES, dice.choice((1, 1, 1, 2))):
        breach(dice, machine)
    machine.open()
