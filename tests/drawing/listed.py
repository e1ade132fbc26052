"""What is right of `list paths` and `list units`: a row of words for each path, or control unit, of a deck."""
from typing import NamedTuple

from legality.machine import path_list
from legality.records import DEVICE, IMAGE, ONLINE, PATH, UNIT

PATH_COLUMNS = ("CHPID", "TYPE", "PCHID", "SWITCH", "USE", "DEVICES", "ONLINE", "OFFLINE", "CU")
UNIT_COLUMNS = ("CU", "UNIT", "CUADD", "UNITADD", "PATHS", "DEVICES", "RANGES")
COUNTS = ("DEVICES",)
KINDS = {"image": IMAGE, "device": DEVICE, "unit": UNIT, "path": PATH}
LAST_WORDS = {"image": "5.F", "device": "3.FFFF", "unit": "FFFE", "path": "5.FF"}
USES = {"shared": "SHARED", "rec": "REC", "dedicated": "DEDICATED"}


class Asked(NamedTuple):
    """The words of each kind of filter."""

    image: tuple = ()
    device: tuple = ()
    unit: tuple = ()
    path: tuple = ()

    def options(self):
        """The options that ask for it."""
        return [it for name, words in zip(self._fields, self) for word in words for it in (f"--{name}", word)]


def try_list(case, records):
    """Tries filters on the paths and the control units of a deck that was accepted and put."""
    asked = drawn_filters(case.dice, records)
    for kind, columns, rows in (("paths", PATH_COLUMNS, path_rows), ("units", UNIT_COLUMNS, unit_rows)):
        printed = case.run("list", kind, "deck", *asked.options()).out.decode("latin-1")
        case.agree(f"list {kind}", printed, table_text(columns, rows(records, asked)))


# ---- filters


def drawn_filters(dice, records):
    """Words of none, one or two kinds, most of what is there."""
    words = {}
    for kind in dice.sample(Asked._fields, dice.choice((0, 1, 1, 2))):
        words[kind] = tuple(drawn_word(dice, kind, records) for _ in range(dice.choice((1, 1, 2))))
    return Asked(**words)


def drawn_word(dice, kind, records):
    """A word that asks for an image by name or place, a device or some, a control unit, or a path of one or of every
    channel subsystem."""
    keys = of_kind(records, KINDS[kind])
    if not keys or dice.random() < 0.1:
        return LAST_WORDS[kind]
    key = dice.choice(keys)
    if kind == "image":
        return records[key].name if dice.random() < 0.5 else f"{key[1]}.{key[2]:X}"
    if kind == "device":
        last = min(key[2] + dice.choice((0, 1, 40)), 0xFFFF)
        return f"{key[1]}.{key[2]:04X}-{last:04X}" if last > key[2] else f"{key[1]}.{key[2]:04X}"
    return f"{key[1]:04X}" if kind == "unit" else f"{key[1]}.{key[2]:02X}" if dice.random() < 0.6 else f"{key[2]:02X}"


def means_image(word, key, name):
    return name == word or f"{key[1]}.{key[2]:X}" == word


def means_path(word, css, number):
    own, point, rest = word.partition(".")
    return int(rest if point else own, 16) == number and (not point or int(own) == css)


def means_device(word, number_set, number):
    own, point, rest = word.partition(".")
    first, _, last = (rest if point else own).partition("-")
    return number_set == (int(own) if point else 0) and int(first, 16) <= number <= int(last or first, 16)


def has_any(asked, is_so):
    """Nothing of a kind is asked for, or something is connected with one of what is."""
    return not asked or any(is_so(word) for word in asked)


# ---- who is connected with whom


def of_kind(records, kind):
    return sorted(key for key in records if key[0] == kind)


def has_path(unit, css, number):
    return number in unit.paths_in(css)


def units_of_path(records, css, number):
    return [key[1] for key in of_kind(records, UNIT) if has_path(records[key], css, number)]


def devices_of_path(records, css, number):
    return [key[1:] for key in of_kind(records, DEVICE) if number in path_list(records, css, records[key])]


def devices_of_unit(records, number):
    return [key[1:] for key in of_kind(records, DEVICE) if number in records[key].units]


def reaches(records, word, css, number):
    """An image that a word asks for reaches a path: it is of the path's channel subsystem and in one of its lists."""
    path = records.get((PATH, css, number))
    images = [key for key in of_kind(records, IMAGE) if key[1] == css and means_image(word, key, records[key].name)]
    return path is not None and any(records[key].name in path.names for key in images)


# ---- rows


def path_rows(records, asked):
    """The rows of the paths that filters leave."""
    for key in of_kind(records, PATH):
        at, devices, units = key[1:], devices_of_path(records, *key[1:]), units_of_path(records, *key[1:])
        if (
            has_any(asked.image, lambda word: reaches(records, word, *at))
            and has_any(asked.path, lambda word: means_path(word, *at))
            and has_any(asked.unit, lambda word: int(word, 16) in units)
            and has_any(asked.device, lambda word: any(means_device(word, *device) for device in devices))
        ):
            yield path_cells(records, key, len(devices), units)


def path_cells(records, key, devices, units):
    path, (_, css, number) = records[key], key
    names = sorted(set(path.names))
    online = [name for name in names if (ONLINE, css, number, name) in records]
    return (
        f"{css}.{number:02X}",
        carried_word(path, "TYPE"),
        channel_word(path),
        carried_word(path, "SWITCH"),
        USES[path.kind],
        str(devices),
        commas(online),
        commas([name for name in names if name not in online]),
        commas([f"{unit:04X}" for unit in units]),
    )


def unit_rows(records, asked):
    """The rows of the control units that filters leave."""
    for key in of_kind(records, UNIT):
        devices, paths = devices_of_unit(records, key[1]), linked_paths(records[key])
        if (
            has_any(asked.image, lambda word: any(reaches(records, word, css, path) for css, path, _ in paths))
            and has_any(asked.path, lambda word: any(means_path(word, css, path) for css, path, _ in paths))
            and has_any(asked.unit, lambda word: int(word, 16) == key[1])
            and has_any(asked.device, lambda word: any(means_device(word, *device) for device in devices))
        ):
            yield unit_cells(records[key], key[1], paths, devices)


def unit_cells(unit, number, paths, devices):
    return (
        f"{number:04X}",
        carried_word(unit, "UNIT"),
        "-" if unit.cuadd is None else f"{unit.cuadd:02X}",
        commas([span(first, first + count - 1, "02X") for first, count in unit.ranges]),
        paths_word(paths),
        str(len(devices)),
        commas([("" if own == 0 else f"{own}.") + span(first, last, "04X") for own, first, last in joined(devices)]),
    )


# ---- words


def commas(words):
    return ",".join(words) or "-"


def span(first, last, form):
    return f"{first:{form}}" if first == last else f"{first:{form}}-{last:{form}}"


def carried(record, keyword):
    """The text of a carried operand; None if it isn't there."""
    return next((text for own, text in record.carried if own == keyword), None)


def carried_word(record, keyword):
    return (carried(record, keyword) or "-").replace(" ", "_")


def channel_word(path):
    """The physical channel, else the virtual one, else the adapter with its port."""
    if carried(path, "PCHID") is not None:
        return carried_word(path, "PCHID")
    if carried(path, "VCHID") is not None:
        return f"VCHID={carried_word(path, 'VCHID')}"
    if carried(path, "AID") is not None:
        port = f"/{carried_word(path, 'PORT')}" if carried(path, "PORT") is not None else ""
        return f"AID={carried_word(path, 'AID')}{port}"
    return "-"


def linked_paths(unit):
    """The paths of a control unit with their links, by channel subsystem; `**` is none, as is one that is missing."""
    return [
        (css, path, links[place] if place < len(links) and links[place] != "**" else None)
        for css, numbers in unit.paths
        for links in (unit.links_in(css),)
        for place, path in enumerate(numbers)
    ]


def paths_word(paths):
    """Channel subsystems with the same paths and links stand together."""
    texts = {}
    for css, path, link in paths:
        texts.setdefault(css, []).append(f"{path:02X}" + (f"/{link}" if link else ""))
    alike = {}
    for css in sorted(texts):
        alike.setdefault(",".join(texts[css]), []).append(str(css))
    return ";".join(f"{','.join(subsystems)}:{text}" for text, subsystems in alike.items()) or "-"


def joined(devices):
    """Devices in order, of a subchannel set and of numbers that follow each other, as set, first and last."""
    ranges = []
    for number_set, number in devices:
        if ranges and ranges[-1][0] == number_set and ranges[-1][2] + 1 == number:
            ranges[-1][2] = number
        else:
            ranges.append([number_set, number, number])
    return ranges


def table_text(columns, rows, counts=COUNTS):
    """A table: counts to the right, two blanks between columns, none at the end of a line."""
    lines = [columns, *rows]
    widths = [max(len(line[place]) for line in lines) for place in range(len(columns))]
    sides = [">" if column in counts else "<" for column in columns]
    return "".join(
        "  ".join(f"{cell:{side}{width}}" for cell, side, width in zip(line, sides, widths)).rstrip(" ") + "\n"
        for line in lines
    )
