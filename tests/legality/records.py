"""Keys and records, and the records that a deck's statements give."""
from typing import NamedTuple, Optional

from .cards import Fault, statements_of
from .operands import parsed
from .values import Malformed, by_css, css_of, cut, decimal, has_several_css, has_several_paths, hexadecimal
from .values import inside_css, is_group, is_list, items_of, items_or_one, name_of, names_of, need, opened

ID, RESOURCE, IMAGE, LIMIT, PATH, UNIT, DEVICE, ONLINE = range(8)
KNOWN = {
    "ID": (),
    "RESOURCE": ("PARTITION", "MAXDEV"),
    "CHPID": ("PATH", "SHARED", "REC", "PARTITION", "NOTPART"),
    "CNTLUNIT": ("CUNUMBR", "PATH", "UNITADD", "LINK", "CUADD"),
    "IODEVICE": ("ADDRESS", "CUNUMBR", "UNITADD", "SCHSET", "PARTITION", "NOTPART"),
    "ONLINE": ("PATH", "PARTITION"),
}
BARE = ("SHARED", "REC")
REQUIRED = {"CHPID": ("PATH",), "CNTLUNIT": ("CUNUMBR",), "IODEVICE": ("ADDRESS",), "ONLINE": ("PATH", "PARTITION")}
NOT_PART = ("CHPID", "IODEVICE")


class Image(NamedTuple):
    name: str


class Path(NamedTuple):
    kind: str  # dedicated, shared, rec
    access: tuple
    candidates: tuple
    carried: tuple

    @property
    def names(self):
        return self.access + self.candidates


class Unit(NamedTuple):
    paths: tuple  # (css, numbers) ascending
    ranges: tuple
    links: tuple
    cuadd: Optional[int]
    carried: tuple

    def paths_in(self, css):
        return next((numbers for at, numbers in self.paths if at == css), ())

    def links_in(self, css):
        return next((links for at, links in self.links if at == css), ())


ONLINE_RECORD = "online"  # an Online record has nothing but its key


class Device(NamedTuple):
    units: tuple
    address: int
    candidates: Optional[tuple]
    carried: tuple


KEY_FORMS = {
    IMAGE: "image %d.%X",
    LIMIT: "limit %d.%d",
    PATH: "path %d.%02X",
    UNIT: "unit %04X",
    DEVICE: "device %d.%04X",
    ONLINE: "online %d.%02X.%s",
}


def key_text(key):
    """A key as it is printed."""
    kind, numbers = key[0], key[1:]
    if kind in (ID, RESOURCE):
        return ("id", "resource")[kind]
    return KEY_FORMS[kind] % numbers


def carried_of(statement):
    """The operands that the statement's table doesn't name, in order."""
    known = KNOWN[statement.operation]
    return tuple(operand for operand in statement.operands if (operand[0] or operand[1]) not in known)


def need_known_shapes(statement):
    """A known operand that stands bare, or a bare word that stands with a value, is another form of it."""
    for keyword, text in statement.operands:
        if keyword is None:
            need(text not in KNOWN[statement.operation] or text in BARE and statement.operation == "CHPID")
        elif keyword in KNOWN[statement.operation]:
            need(text and not (keyword in BARE and statement.operation == "CHPID") and "'" not in text)


def refuse_missing(statement):
    for keyword in REQUIRED.get(statement.operation, ()):
        if statement.text(keyword) is None:
            raise Fault("S3", statement.line)


def has_left_out_form(statement, looked_at):
    """S5, in the operands that are looked at."""
    for keyword, text in statement.operands:
        word = text if keyword is None else keyword
        if word == "NOTPART" and word in looked_at and statement.operation in NOT_PART:
            return True
        if keyword is None or keyword not in looked_at or keyword in BARE:
            continue
        is_one_path = keyword == "PATH" and statement.operation in ("CHPID", "ONLINE")
        if has_several_css(text) or (is_one_path and has_several_paths(text)):
            return True
        if keyword == "SCHSET" and opened(text) is not None:
            return True
    return False


def image_of(text):
    """An image's name, or None for `*`, and its digit."""
    pair = items_of(text)
    need(len(pair) == 2)
    digit = hexadecimal(pair[1], 1)
    need(digit > 0)
    return (None if pair[0] == "*" else name_of(pair[0])), digit


def resource_records(statement):
    records = []
    carried = carried_of(statement)
    if carried:
        records.append(((RESOURCE,), carried))
    for css, items in by_css(statement.text("PARTITION")) if statement.text("PARTITION") is not None else ():
        images = [image_of(item) for item in items]
        records += [((IMAGE, css, digit), Image(name)) for name, digit in images if name is not None]
    for css, items in by_css(statement.text("MAXDEV"), True) if statement.text("MAXDEV") is not None else ():
        need(len(items) <= 4)
        limits = [(place, decimal(item, 0, 65535)) for place, item in enumerate(items) if item]
        records += [((LIMIT, css, place), limit) for place, limit in limits]
    return records


def path_key(text):
    """The channel subsystem and the number of a CHPID's PATH."""
    items = items_or_one(text)
    if len(items) == 1 and is_list(items[0]):
        items = items_of(items[0])
    css = 0
    if len(items) == 2:
        css, items = css_of(items[0]), items[1:]
    need(len(items) == 1)
    return css, hexadecimal(items[0], 2)


def listed_items(text, css):
    """The items of a CHPID's PARTITION without the group round them and a last REC, and whether it was there."""
    items = items_of(text)
    if is_group(text):
        need(css_of(items[0]) == css and len(items) > 1)
        items = items[1:]
    elif is_group(items[0]):
        need(len(items) == 1)
        return listed_items(items[0], css)
    return (items[:-1], True) if items[-1] == "REC" else (items, False)


def is_several_lists(items):
    return any(is_list(item) or item in ("0", "=") for item in items)


def name_list(text):
    """A list of names, a name, or 0 or (0) for none."""
    if text in ("0", "(0)"):
        return ()
    return names_of(items_or_one(text))


def access_and_candidates(items):
    """Both lists of a path; None where there is no candidate list."""
    if not items:
        return (), None
    if not is_several_lists(items):
        return names_of(items), None
    need(len(items) <= 2)
    access = name_list(items[0])
    if len(items) == 1:
        return access, None
    return access, access if items[1] in ("=", "(=)") else name_list(items[1])


def path_record(statement, images):
    """The path of a CHPID statement. `images` gives all names of a channel subsystem, in order."""
    css, number = path_key(statement.text("PATH"))
    is_shared, is_rec = statement.has_bare("SHARED"), statement.has_bare("REC")
    access, candidates, text = None, None, statement.text("PARTITION")
    if text is not None:
        items, has_rec = listed_items(text, css)
        is_rec = is_rec or has_rec
        access, candidates = access_and_candidates(items)
    need(not (is_shared and is_rec))
    if access is None:
        access = candidates = images(css) if is_shared else ()
    elif candidates is None:
        candidates = images(css) if is_shared or is_rec else access
    kind = "shared" if is_shared else "rec" if is_rec else "dedicated"
    return (PATH, css, number), Path(kind, access, candidates, carried_of(statement))


def range_of(text):
    items = items_or_one(text)
    need(len(items) <= 2)
    return hexadecimal(items[0], 2), decimal(items[1], 1, 256) if len(items) == 2 else 1


def ranges_of(text):
    if is_list(text) and is_list(items_of(text)[0]):
        need(all(is_list(item) for item in items_of(text)) or all(item for item in items_of(text)))
        return tuple(range_of(item) for item in items_of(text))
    return (range_of(text),)


def link_of(text):
    if text != "**":
        need(len(text) in (2, 4))
        hexadecimal(text, 4)
    return text


def unit_record(statement):
    text = statement.text
    number = hexadecimal(text("CUNUMBR"), 4, 0xFFFE)
    paths = by_css(text("PATH")) if text("PATH") is not None else []
    links = by_css(text("LINK")) if text("LINK") is not None else []
    ranges = ranges_of(text("UNITADD")) if text("UNITADD") is not None else ((0, 256),)
    cuadd = hexadecimal(text("CUADD"), 2) if text("CUADD") is not None else None
    paths = tuple((css, tuple(hexadecimal(item, 2) for item in items)) for css, items in paths)
    links = tuple((css, tuple(link_of(item) for item in items)) for css, items in links)
    return (UNIT, number), Unit(paths, ranges, links, cuadd, carried_of(statement))


def device_places(statement):
    """The subchannel set, and the first number and the count of a device statement."""
    items = items_or_one(statement.text("ADDRESS"))
    need(len(items) <= 2)
    first = hexadecimal(items[0], 4)
    count = decimal(items[1], 1, 4096) if len(items) == 2 else 1
    need(first + count - 1 <= 0xFFFF)
    text = statement.text("SCHSET")
    return (decimal(text, 0, 3) if text is not None else 0), first, count


def candidates_in(text):
    """The names in an item of a device's PARTITION, nested at will."""
    names, left = set(), [text]
    while left:
        text = left.pop()
        need(text)
        if is_list(text):
            left += cut(text[1:-1])
        elif inside_css(text) is not None:
            css_of(text)
        elif text != "0":
            names.add(name_of(text))
    return tuple(sorted(names))


def device_records(statement):
    number_set, first, count = device_places(statement)
    text = statement.text
    listed = items_or_one(text("CUNUMBR")) if text("CUNUMBR") is not None else []
    units = tuple(hexadecimal(item, 4, 0xFFFE) for item in listed)
    start = hexadecimal(text("UNITADD"), 2) if text("UNITADD") is not None else None
    need(start is None or start + count - 1 <= 0xFF)
    need(text("PARTITION") is None or inside_css(text("PARTITION")) is None)
    candidates = candidates_in(text("PARTITION")) if text("PARTITION") is not None else None
    carried = carried_of(statement)
    addresses = [(first + place) % 256 if start is None else start + place for place in range(count)]
    devices = (Device(units, address, candidates, carried) for address in addresses)
    return [((DEVICE, number_set, first + place), device) for place, device in enumerate(devices)]


def records_of(statement, images):
    """The records of a statement, but for the Online records of a deck's CHPID (S4 as `Malformed`)."""
    need_known_shapes(statement)
    if statement.operation == "ID":
        return [((ID,), carried_of(statement))]
    if statement.operation == "RESOURCE":
        return resource_records(statement)
    if statement.operation == "CHPID":
        return [path_record(statement, images)]
    return [unit_record(statement)] if statement.operation == "CNTLUNIT" else device_records(statement)


def deck_records(statement, images):
    """The records of a statement of a deck (S3, S5, S4)."""
    refuse_missing(statement)
    if has_left_out_form(statement, KNOWN[statement.operation]):
        raise Fault("S5", statement.line)
    try:
        records = records_of(statement, images)
    except Malformed:
        raise Fault("S4", statement.line) from None
    if statement.operation == "CHPID":
        (_, css, number), path = records[0]
        records += [((ONLINE, css, number, name), ONLINE_RECORD) for name in path.access]
    return records


def images_of(statements):
    """All images of a deck by channel subsystem, wherever RESOURCE stands."""
    names = {}
    for statement in statements:
        if statement.operation == "RESOURCE":
            try:
                records = resource_records(statement)
            except Malformed:
                continue
            for key, record in records:
                if key[0] == IMAGE:
                    names.setdefault(key[1], set()).add(record.name)
    return lambda css: tuple(sorted(names.get(css, ())))


def configuration_of(data):
    """The records of a deck's bytes by key, or its first fault."""
    statements = [parsed(joined) for joined in statements_of(data)]
    images, records, singles = images_of(statements), {}, set()
    for statement in statements:
        if statement.operation not in KNOWN or statement.operation == "ONLINE":
            raise Fault("S1", statement.line)
        if statement.operation in singles:
            raise Fault("S7", statement.line)
        if statement.operation in ("ID", "RESOURCE"):
            singles.add(statement.operation)
        for key, record in deck_records(statement, images):
            if key in records:
                raise Fault("S8", statement.line)
            records[key] = record
    return records
