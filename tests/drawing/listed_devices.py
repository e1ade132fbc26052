"""What is right of `list devices` and `list images`: a row of words for each run of devices, or image, of a deck, by
what its images see at their subchannels."""
from legality.machine import path_list
from legality.records import DEVICE, IMAGE, LIMIT, ONLINE, PATH, UNIT

from .listed import carried_word, commas, drawn_filters, has_any, means_device, means_image, means_path, of_kind
from .listed import paths_word, span, table_text

SUBSYSTEMS, SETS = range(6), range(4)
LIMITS = (65280, 65535, 65535, 65535)  # where MAXDEV gives none
DEVICE_COLUMNS = ("DEVICE", "COUNT", "UNIT", "CU", "UNITADD", "PATHS", "IMAGES")
IMAGE_COLUMNS = ("IMAGE", "NAME", "PATHS", "ONLINE", "DEVICES", "NO-PATH", "ONE-PATH", "NUMBERS")
DEVICE_COUNTS, IMAGE_COUNTS = DEVICE_COLUMNS[1:2], IMAGE_COLUMNS[2:7]


def try_list_of_devices(case, state):
    """Tries filters on the devices and the images of a deck that was accepted and put."""
    asked = drawn_filters(case.dice, state.records)
    online = (str(case.dice.randint(0, 8)),) if case.dice.random() < 0.3 else ()
    options = [*asked.options(), *(it for most in online for it in ("--paths-online", most))]
    for kind, right in (("devices", device_table(state, asked, online)), ("images", image_table(state, asked))):
        printed = case.run("list", kind, "deck", *options).out.decode("latin-1")
        case.agree(f"list {kind}", printed, right)


def views_of_device(state, key):
    """What each image sees of a device, by image, in order."""
    return [
        ((css, mif), view)
        for (css, mif, own, number), view in sorted(state.views.items())
        if own == key[1] and state.numbers[css, own, number] == key[2]
    ]


# ---- devices


def device_table(state, asked, online):
    """The table of the devices that filters leave, with so many paths online at most."""
    rows = [device_cells(state, run, asked, online) for run in runs(state.records, asked)]
    return table_text(DEVICE_COLUMNS, [row for row in rows if row], DEVICE_COUNTS)


def runs(records, asked):
    """The devices in the ranges that are asked for, joined as `write` joins them: numbers and unit addresses follow
    each other, and all else is alike."""
    found = []
    for key in of_kind(records, DEVICE):
        if has_any(asked.device, lambda word, at=key[1:]: means_device(word, *at)):
            if found and follows(records, found[-1][-1], key):
                found[-1].append(key)
            else:
                found.append([key])
    return found


def follows(records, before, key):
    last, device = records[before], records[key]
    is_next = before[1:] == (key[1], key[2] - 1) and last.address + 1 == device.address
    return is_next and last._replace(address=device.address) == device


def device_cells(state, run, asked, online):
    """The words of a run, if filters leave it."""
    records, first, last = state.records, run[0], run[-1]
    device, seen = records[first], seen_by(state, first, asked, online)
    paths = [(css, path, None) for css in SUBSYSTEMS for path in path_list(records, css, device)]
    if not has_any(asked.unit, lambda word: int(word, 16) in device.units):
        return None
    if not has_any(asked.path, lambda word: any(means_path(word, css, path) for css, path, _ in paths)):
        return None
    if (asked.image or online) and not seen:
        return None
    return (
        ("" if first[1] == 0 else f"{first[1]}.") + span(first[2], last[2], "04X"),
        str(len(run)),
        carried_word(device, "UNIT"),
        commas([f"{unit:04X}" for unit in device.units]),
        span(device.address, records[last].address, "02X"),
        paths_word(paths),
        images_word(seen, len(of_kind(records, IMAGE))),
    )


def seen_by(state, key, asked, online):
    """Of the images that are asked for those that see a device, with so many paths online at most: the name, and how
    many paths are online and installed."""
    found = []
    for (css, mif), view in views_of_device(state, key):
        image, counts = (IMAGE, css, mif), (view.pam.bit_count(), view.pim.bit_count())
        name = state.records[image].name
        is_asked = has_any(asked.image, lambda word, at=image, own=name: means_image(word, at, own))
        if is_asked and has_any(online, lambda most, on=counts[0]: on <= int(most)):
            found.append((name, counts))
    return found


def images_word(seen, all_images):
    """Images by how many paths are online and installed; all, if they are several and alike."""
    groups = {}
    for name, counts in seen:
        groups.setdefault(counts, []).append(name)
    if len(groups) == 1 and len(seen) == all_images > 1:
        return "%d/%d:all" % seen[0][1]
    return ";".join("%d/%d:" % counts + ",".join(names) for counts, names in groups.items()) or "-"


# ---- images


def image_table(state, asked):
    """The table of the images that filters leave."""
    keys = [key for key in of_kind(state.records, IMAGE) if is_left(state, key, asked)]
    return table_text(IMAGE_COLUMNS, [image_cells(state, key) for key in keys], IMAGE_COUNTS)


def is_left(state, key, asked):
    """An image is asked for itself, reaches a path that is and one of a control unit, and sees a device."""
    records, css = state.records, key[1]
    paths = paths_of(records, css, records[key].name)
    devices = [it[1:] for it in of_kind(records, DEVICE) if any(at == key[1:] for at, _ in views_of_device(state, it))]
    units = {it[1] for it in of_kind(records, UNIT) if any(path in records[it].paths_in(css) for path in paths)}
    return (
        has_any(asked.image, lambda word: means_image(word, key, records[key].name))
        and has_any(asked.path, lambda word: any(means_path(word, css, path) for path in paths))
        and has_any(asked.unit, lambda word: int(word, 16) in units)
        and has_any(asked.device, lambda word: any(means_device(word, *device) for device in devices))
    )


def paths_of(records, css, name):
    """The paths that an image may use."""
    return [key[2] for key in of_kind(records, PATH) if key[1] == css and name in records[key].names]


def image_cells(state, key):
    records, (_, css, mif) = state.records, key
    name = records[key].name
    paths = paths_of(records, css, name)
    online = [path for path in paths if (ONLINE, css, path, name) in records]
    counts = [view.pam.bit_count() for at, view in state.views.items() if at[:2] == (css, mif)]
    used = [(own, sum(cell[:2] == (css, own) for cell in state.numbers)) for own in SETS]
    limits = [records.get((LIMIT, css, own), LIMITS[own]) for own in SETS]
    return (
        f"{css}.{mif:X}",
        name,
        str(len(paths)),
        str(len(online)),
        str(len(counts)),
        str(counts.count(0)),
        str(counts.count(1)),
        commas([f"{own}:{taken}/{limits[own]}" for own, taken in used if taken]),
    )
