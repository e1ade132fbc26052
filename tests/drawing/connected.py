"""What filters leave of a plan: effects that are asked for, and objects connected with what is asked for."""
from legality.machine import path_list
from legality.records import DEVICE, IMAGE, PATH, UNIT

from .effects import has_path, names_at, seen_of
from .listed import means_device, means_image, means_path, of_kind


def leaves_effect(old, new, asked, effect):
    """Whether it is wanted before or after, as a row of `show` is."""
    sides = ((old, effect.before), (new, effect.after))
    return any(seen is not None and is_wanted(records, asked, effect, seen) for records, seen in sides)


def is_wanted(records, asked, effect, seen):
    image, device = (IMAGE, *effect.image), effect.device
    units = records[(DEVICE, *device)].units
    return (
        any_asked(asked.image, lambda word: means_image(word, image, records[image].name))
        and any_asked(asked.device, lambda word: means_device(word, *device))
        and any_asked(asked.unit, lambda word: int(word, 16) in units)
        and any_asked(asked.path, lambda word: any(means_path(word, image[1], path) for path in seen.paths))
    )


def any_asked(words, is_meant):
    return not words or any(is_meant(word) for word in words)


def leaves_object(old, new, asked, key):
    """Whether an object is connected, for each kind of filter, with something that is asked for in either one."""
    return all(
        not words or any(is_with_any(records, key, kind, words) for records in (old, new))
        for kind, words in zip((IMAGE, DEVICE, UNIT, PATH), asked)
    )


def is_with_any(records, key, kind, words):
    others = meant_keys(records, kind, words) if key in records else ()
    return any(is_connected(records, key, other) for other in others)


def meant_keys(records, kind, words):
    """The keys of a kind that words mean."""
    return [key for key in of_kind(records, kind) if any(means_key(records, word, key) for word in words)]


def means_key(records, word, key):
    if key[0] == IMAGE:
        return means_image(word, key, records[key].name)
    if key[0] == DEVICE:
        return means_device(word, *key[1:])
    return int(word, 16) == key[1] if key[0] == UNIT else means_path(word, *key[1:])


def is_connected(records, key, other):
    """It is it, or one leads to the other: image, path, control unit, device."""
    if key == other:
        return True
    order = (IMAGE, PATH, UNIT, DEVICE)
    if key[0] not in order or key[0] == other[0]:
        return False
    one, two = sorted((key, other), key=lambda it: order.index(it[0]))
    return leads_to(records, one, two)


def leads_to(records, one, two):
    if two[0] == DEVICE:
        device = records[two]
        if one[0] == IMAGE:
            return seen_of(records, one[1:], two[1:]) is not None
        return one[1] in device.units if one[0] == UNIT else one[2] in path_list(records, one[1], device)
    if one[0] == IMAGE:
        css, name = one[1], records[one].name
        if two[0] == PATH:
            return css == two[1] and name in names_at(records, css, two[2])
        return any(name in names_at(records, css, path) for path in records[two].paths_in(css))
    return has_path(records, two[1], *one[1:])


def on_the_way(old, effects):
    """The keys on the way of devices that are lost: images, devices, their control units, and the paths before."""
    keys = set()
    for it in effects:
        device = (DEVICE, *it.device)
        keys |= {(IMAGE, *it.image), device, *((UNIT, number) for number in old[device].units)}
        keys |= {(PATH, it.image[0], path) for path in it.before.paths}
    return keys
