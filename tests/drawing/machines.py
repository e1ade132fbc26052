"""Machines that keep the fourteen rules: images, limits, paths, control units and devices."""
import copy
from typing import NamedTuple, Optional

MOST_PATHS = 8
WHOLE = ((0, 256),)
CARRIED_KEYWORDS = ("TYPE", "UNIT", "MODEL", "DESC", "CHPARM", "PCHID", "SWITCH", "WWNN", "A1", "9X")
# keywords that other statements know, and this one carries
KNOWN_ELSEWHERE = {
    "ID": ("PATH", "PARTITION", "NOTPART", "ADDRESS"),
    "RESOURCE": ("PATH", "NOTPART", "CUNUMBR", "SHARED"),
    "CHPID": ("LINK", "CUADD", "SCHSET", "MAXDEV", "ADDRESS", "CUNUMBR", "UNITADD"),
    "CNTLUNIT": ("SCHSET", "PARTITION", "NOTPART", "MAXDEV", "ADDRESS", "SHARED", "REC"),
    "IODEVICE": ("PATH", "LINK", "CUADD", "MAXDEV", "SHARED"),
}
CARRIED_TEXTS = (
    "3990", "OSA", "(A,B)", "'A TEXT'", "'IT''S, (IT) = IT'", "((1,2),(3,'X Y'))", "CSS(9)", "A=B", "X(Y)Z", "''", "()",
    "'" + "A LONG TEXT, WHICH IS CUT " * 4 + "'", "(" + ",".join(f"N{place}" for place in range(30)) + ")", "",
)
BARE_WORDS = ("PAUSE", "SPAN", "'QUOTED WORD'", "(A,B)", "X-Y", "lower", "PAUSE")


class Path(NamedTuple):
    """A channel path: shared, rec or dedicated; the names of both lists, ascending; carried operands."""

    kind: str
    access: tuple
    candidates: tuple
    carried: tuple = ()


class Unit(NamedTuple):
    """A control unit: (css, numbers) ascending by css; (start, count); (css, links); CUADD or None."""

    paths: tuple
    ranges: tuple = WHOLE
    links: tuple = ()
    cuadd: Optional[int] = None
    carried: tuple = ()


class Device(NamedTuple):
    """A device: its units in order, its unit address, and its candidates, if they are listed."""

    units: tuple
    address: int
    candidates: Optional[tuple] = None
    carried: tuple = ()


class Machine:
    """The records of a deck by their keys. `identity` is what ID carries, or None; `online` has (css, path, name)."""

    def __init__(self):
        self.identity, self.resource = None, ()
        self.images, self.limits = {}, {}
        self.paths, self.units, self.devices = {}, {}, {}
        self.online = set()

    def twin(self):
        other = copy.copy(self)
        for name in ("images", "limits", "paths", "units", "devices", "online"):
            setattr(other, name, getattr(self, name).copy())
        return other

    def names(self, css=None):
        """The names of images, ascending: of a channel subsystem, or of all."""
        return tuple(sorted({name for (at, _), name in self.images.items() if css in (None, at)}))

    def csss(self):
        return sorted({css for css, _ in self.images} | {css for css, _ in self.paths})

    def open(self):
        """Brings online what the access lists say."""
        self.online = {(css, number, name) for (css, number), path in self.paths.items() for name in path.access}

    def count(self):
        """How many records it has."""
        tables = (self.images, self.limits, self.paths, self.units, self.devices, self.online)
        return (self.identity is not None) + bool(self.resource) + sum(len(table) for table in tables)

    def reached(self, css, number_set):
        """How many devices of a subchannel set have a path in a channel subsystem."""
        found = (device for (at, _), device in self.devices.items() if at == number_set)
        return sum(any(self.paths_of(unit, css) for unit in device.units) for device in found)

    def paths_of(self, unit, css):
        return dict(self.units[unit].paths).get(css, ()) if unit in self.units else ()


def weighted(dice, weights):
    """One of the keys, by its weight."""
    return dice.choices(list(weights), list(weights.values()))[0]


def few(dice, least, usual, most):
    """A small number, now and then a greater one."""
    return dice.randint(least, usual if dice.random() < 0.9 else most)


def some(dice, items, least=0):
    """Some of the items, in their order."""
    taken = set(dice.sample(range(len(items)), dice.randint(min(least, len(items)), len(items))))
    return tuple(item for place, item in enumerate(items) if place in taken)


def drawn_name(dice, taken):
    """A name of an image that isn't taken."""
    while True:
        if dice.random() < 0.7:
            name = f"LP{dice.randrange(6)}{dice.randrange(16):X}"
        else:
            rest = "".join(dice.choices("ABCXYZ0189", k=dice.randint(0, 7)))
            name = dice.choice("ABRZ") + rest
        if name not in taken and name != "REC":
            return name


def drawn_carried(dice, operation, chance=0.08):
    """Operands that the statement's table doesn't name: each keyword once, bare words."""
    if dice.random() >= chance:
        return ()
    keywords = dice.sample(CARRIED_KEYWORDS + KNOWN_ELSEWHERE[operation], dice.randint(0, 3))
    carried = [(keyword, dice.choice(CARRIED_TEXTS)) for keyword in keywords]
    words = BARE_WORDS if operation == "CHPID" else BARE_WORDS + ("SHARED", "REC")
    carried += [(None, dice.choice(words)) for _ in range(dice.choice((0, 0, 1, 2)))]
    dice.shuffle(carried)
    return tuple(carried)


def draw_images(dice, machine):
    for css in dice.sample(range(6), weighted(dice, {1: 50, 2: 30, 3: 12, 4: 4, 6: 2})):
        for mif in dice.sample(range(1, 16), few(dice, 1, 3, 15)):
            machine.images[css, mif] = drawn_name(dice, set(machine.images.values()))


def drawn_path(dice, names):
    """A path of a channel subsystem that has images of these names."""
    kind = weighted(dice, {"shared": 70, "rec": 15, "dedicated": 15})
    if kind == "dedicated":
        name = some(dice, names)[:1]
        return Path(kind, *dice.choice(((name, name), (name, ()), ((), name))), drawn_carried(dice, "CHPID"))
    candidates = names if dice.random() < 0.4 else some(dice, names)
    access = some(dice, names if dice.random() < 0.3 else candidates)
    if dice.random() < 0.15:
        access, candidates = names, names
    return Path(kind, access[:1] if kind == "rec" else access, candidates, drawn_carried(dice, "CHPID"))


def draw_paths(dice, machine):
    for css in machine.csss():
        for number in dice.sample(range(256), few(dice, 1, 4, 12)):
            machine.paths[css, number] = drawn_path(dice, machine.names(css))


def drawn_ranges(dice):
    """Ranges of unit addresses that don't overlap, in some order."""
    if dice.random() < 0.3:
        return WHOLE
    cuts = sorted(dice.sample(range(257), 2 * few(dice, 1, 2, 5)))
    if dice.random() < 0.3:
        cuts[0] = 0
    ranges = [(start, end - start) for start, end in zip(cuts[::2], cuts[1::2])]
    dice.shuffle(ranges)
    return tuple(ranges)


def drawn_link(dice):
    return dice.choice(("**", "1A", "001A", f"{dice.randrange(256):02X}", f"{dice.randrange(65536):04X}"))


def drawn_unit(dice, machine):
    """A control unit on some paths of the machine."""
    numbers = {css: [number for at, number in machine.paths if at == css] for css in machine.csss()}
    csss = [css for css in numbers if numbers[css]]
    chosen = sorted(dice.sample(csss, dice.randint(1, len(csss))))
    most = {css: min(len(numbers[css]), MOST_PATHS) for css in chosen}
    paths = tuple((css, tuple(dice.sample(numbers[css], min(most[css], few(dice, 1, 3, 8))))) for css in chosen)
    links = ()
    if dice.random() < 0.25:
        links = tuple((css, tuple(drawn_link(dice) for _ in at)) for css, at in paths if dice.random() < 0.8)
    cuadd = dice.choice((None, None, 0, dice.randrange(16), dice.randrange(256)))
    return Unit(paths, drawn_ranges(dice), links, cuadd, drawn_carried(dice, "CNTLUNIT"))


def addresses_of(unit):
    return {address for start, count in unit.ranges for address in range(start, start + count)}


def linked(unit):
    """Each path of a unit with its link, or none."""
    pairs = set()
    for css, numbers in unit.paths:
        links = dict(unit.links).get(css) or ("**",) * len(numbers)
        pairs |= {(css, number, link) for number, link in zip(numbers, links)}
    return pairs


def collide(one, other):
    """Whether two control units answer to one unit address on one path."""
    if (one.cuadd or 0) != (other.cuadd or 0) or not linked(one) & linked(other):
        return False
    return bool(addresses_of(one) & addresses_of(other))


def fitted(dice, machine, number, unit):
    """The unit with a CUADD by which it collides with no other."""
    others = [other for at, other in machine.units.items() if at != number]
    while any(collide(unit, other) for other in others):
        unit = unit._replace(cuadd=dice.randrange(256))
    return unit


def free_number(dice, taken, most, step):
    """A number that isn't taken, now and then a round one."""
    while True:
        number = dice.randrange(most + 1)
        if dice.random() < 0.6:
            number -= number % step
        if number not in taken:
            return number


def draw_units(dice, machine, count=None):
    for _ in range(few(dice, 1, 3, 9) if count is None else count):
        number = free_number(dice, machine.units, 0xFFFE, 0x100)
        machine.units[number] = fitted(dice, machine, number, drawn_unit(dice, machine))


def goes_with(machine, units, other):
    """Whether a device may be on these units and on one more: no path twice, at most eight in each subsystem."""
    for css in range(6):
        paths = [path for unit in (*units, other) for path in machine.paths_of(unit, css)]
        if len(paths) != len(set(paths)) or len(paths) > MOST_PATHS:
            return False
    return True


def drawn_places(dice, machine):
    """Units for some devices, and the unit addresses that are free on all of them, ascending."""
    units, most = (), few(dice, 1, 2, 8)
    for unit in dice.sample(sorted(machine.units), len(machine.units)):
        if len(units) < most and goes_with(machine, units, unit):
            units += (unit,)
    free = set(range(256)).intersection(*(addresses_of(machine.units[unit]) for unit in units))
    return units, sorted(free - {it.address for it in machine.devices.values() if set(it.units) & set(units)})


def drawn_run(dice, machine, usual=6, most=40):
    """Devices whose numbers and unit addresses follow each other, by their keys."""
    units, free = drawn_places(dice, machine)
    if not free:
        return {}
    number_set = weighted(dice, {0: 70, 1: 16, 2: 8, 3: 6})
    start, count = dice.choice(free), few(dice, 1, usual, most)
    first = dice.randrange(0x10000)
    if dice.random() < 0.6:
        first = first - first % 256 + start
    names = machine.names()
    candidates = some(dice, names) if dice.random() < 0.25 else None
    carried, run, left = drawn_carried(dice, "IODEVICE"), {}, set(free)
    for place in range(count):
        key = (number_set, first + place)
        if start + place not in left or key in machine.devices or key[1] > 0xFFFF:
            break
        run[key] = Device(units, start + place, candidates, carried)
    return run


def draw_devices(dice, machine):
    for _ in range(few(dice, 0, 4, 9)):
        machine.devices.update(drawn_run(dice, machine))


def draw_limits(dice, machine, chance=0.12):
    """Limits of subchannel sets, many of them as low as they may be."""
    for css in machine.csss():
        for number_set in range(4):
            if dice.random() < chance:
                least = machine.reached(css, number_set)
                limit = least + dice.choice((0, 0, 1, dice.randrange(100)))
                machine.limits[css, number_set] = dice.choice((limit, limit, 65535 if number_set else 65280))


def large_machine(dice):
    """A machine with many images, paths, units and devices."""
    machine = Machine()
    for css in range(dice.randint(2, 6)):
        for mif in dice.sample(range(1, 16), dice.randint(2, 15)):
            machine.images[css, mif] = drawn_name(dice, set(machine.images.values()))
        for number in dice.sample(range(256), dice.randint(8, 60)):
            machine.paths[css, number] = drawn_path(dice, machine.names(css))
    draw_units(dice, machine, dice.randint(20, 80))
    for _ in range(dice.randint(20, 60)):
        machine.devices.update(drawn_run(dice, machine, 200, 256))
    draw_limits(dice, machine)
    machine.open()
    return machine


def drawn_machine(dice):
    """A machine that keeps the rules."""
    machine = Machine()
    if dice.random() < 0.15:
        machine.identity = drawn_carried(dice, "ID", 0.9)
    machine.resource = drawn_carried(dice, "RESOURCE", 0.05)
    draw_images(dice, machine)
    draw_paths(dice, machine)
    draw_units(dice, machine)
    draw_devices(dice, machine)
    draw_limits(dice, machine)
    machine.open()
    return machine
