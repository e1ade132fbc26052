"""The statements of a machine, in drawn forms and in a drawn order; also those of a change deck."""
from .cards import Words
from .forms import by_css, candidates, decimal, hexadecimal, listed, one_or_list, path_partition, path_place, ranges
from .machines import WHOLE

LETTERS = "ABCDEFGHIJKLMNOPQRSTUVWXYZ0123456789@#$&+"


def label(dice):
    """The name field of a deck, which says nothing: mostly empty."""
    if dice.random() < 0.9:
        return ""
    return dice.choice("ABXY0(") + "".join(dice.choices(LETTERS, k=dice.randint(0, 9)))


def mixed(dice, known, carried):
    """The known operands in any order, and between them what is carried, in its own."""
    known = list(known)
    if dice.random() < 0.3:
        dice.shuffle(known)
    texts = [text if keyword is None else f"{keyword}={text}" for keyword, text in carried]
    if not texts or dice.random() < 0.5:
        return tuple(known + texts)
    both = known + texts
    places = sorted(dice.sample(range(len(both)), len(texts)))
    rest, left = iter(known), iter(texts)
    return tuple(next(left) if place in places else next(rest) for place in range(len(both)))


def id_words(dice, machine, verb=""):
    return Words(verb or label(dice), "ID", mixed(dice, (), machine.identity))


def images_text(dice, images):
    """PARTITION of RESOURCE for images by (css, mif); a name `*` gives none."""
    groups = {}
    for (css, mif), name in images.items():
        groups.setdefault(css, []).append(f"({name},{mif:X})")
        if dice.random() < 0.05:
            groups[css].append(f"(*,{dice.randrange(1, 16):X})")
    return "PARTITION=" + by_css(dice, sorted(groups.items()))


def limits_text(dice, limits):
    """MAXDEV of RESOURCE for limits by (css, set)."""
    groups = {}
    for css, number_set in sorted(limits):
        items = groups.setdefault(css, [])
        items += [""] * (number_set - len(items)) + [decimal(dice, limits[css, number_set])]
    for items in groups.values():
        items += [""] * dice.choice((0, 0, 0, 4 - len(items)))
    return "MAXDEV=" + whole_groups(dice, sorted(groups.items()))


def whole_groups(dice, groups):
    """Groups of which none is cut in two, since the places count."""
    while True:
        text = by_css(dice, groups)
        if text.count("CSS(") in (0, len(groups)):
            return text


def resource_words(dice, images, limits, carried, verb=""):
    known = [images_text(dice, images)] if images else []
    known += [limits_text(dice, limits)] if limits else []
    return Words(verb or label(dice), "RESOURCE", mixed(dice, known, carried))


def path_words(dice, machine, key, path, verb=""):
    place = f"PATH={path_place(dice, *key)}"
    known = [place, *path_partition(dice, key[0], path, machine.names(key[0]), bool(verb))]
    return Words(verb or label(dice), "CHPID", mixed(dice, known, path.carried))


def unit_words(dice, number, unit, verb=""):
    known = [f"CUNUMBR={hexadecimal(dice, number, 4)}"]
    if unit.paths:
        groups = [(css, [hexadecimal(dice, path, 2) for path in paths]) for css, paths in unit.paths]
        known.append("PATH=" + by_css(dice, groups))
    if unit.ranges != WHOLE or dice.random() < 0.5:
        known.append("UNITADD=" + ranges(dice, unit.ranges))
    if unit.links:
        known.append("LINK=" + by_css(dice, [(css, list(links)) for css, links in unit.links]))
    if unit.cuadd is not None:
        known.append(f"CUADD={hexadecimal(dice, unit.cuadd, 2)}")
    return Words(verb or label(dice), "CNTLUNIT", mixed(dice, known, unit.carried))


def device_words(dice, machine, keys, verb=""):
    """A statement of devices that follow each other."""
    (number_set, first), devices = keys[0], [machine.devices[key] for key in keys]
    start = hexadecimal(dice, first, 4)
    place = f"({start},{decimal(dice, len(keys))})"
    if len(keys) == 1:
        place = dice.choice((place, start, f"({start})"))
    known = [f"ADDRESS={place}"]
    if devices[0].units:
        known.append("CUNUMBR=" + one_or_list(dice, [hexadecimal(dice, unit, 4) for unit in devices[0].units]))
    if not has_own_addresses(machine, keys) or dice.random() < 0.5:
        known.append(f"UNITADD={hexadecimal(dice, devices[0].address, 2)}")
    if number_set or dice.random() < 0.1:
        known.append(f"SCHSET={decimal(dice, number_set)}")
    if devices[0].candidates is not None:
        places = {name: css for (css, _), name in machine.images.items()}
        known.append("PARTITION=" + candidates(dice, devices[0].candidates, lambda name: places.get(name, 0)))
    return Words(verb or label(dice), "IODEVICE", mixed(dice, known, devices[0].carried))


def has_own_addresses(machine, keys):
    """Whether the unit addresses are the last two digits of the devices' numbers."""
    return all(machine.devices[key].address == key[1] % 256 for key in keys)


def follows(machine, key, other):
    """Whether a device can be in one statement behind another."""
    one, two = machine.devices[key], machine.devices[other]
    if other != (key[0], key[1] + 1) or one._replace(address=0) != two._replace(address=0):
        return False
    return two.address == one.address + 1


def device_runs(dice, machine, devices):
    """Keys of devices in runs, as long as can be or cut."""
    runs = []
    for key in sorted(devices):
        if runs and follows(machine, runs[-1][-1], key) and dice.random() < 0.9:
            runs[-1].append(key)
        else:
            runs.append([key])
    return runs


def statements_of(dice, machine):
    """The statements of a deck, mostly in the usual order."""
    statements = [id_words(dice, machine)] if machine.identity is not None else []
    if machine.images or machine.limits or machine.resource or dice.random() < 0.5:
        statements.append(resource_words(dice, machine.images, machine.limits, machine.resource))
    statements += [path_words(dice, machine, key, path) for key, path in sorted(machine.paths.items())]
    statements += [unit_words(dice, number, unit) for number, unit in sorted(machine.units.items())]
    statements += [device_words(dice, machine, run) for run in device_runs(dice, machine, machine.devices)]
    if dice.random() < 0.25:
        dice.shuffle(statements)
    return statements


def online_words(dice, css, number, names, verb):
    """An ONLINE statement."""
    return Words(verb, "ONLINE", (f"PATH={path_place(dice, css, number)}", f"PARTITION={listed(names)}"))
