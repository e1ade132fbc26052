"""Lines of JSON of `list`, turned back into the table."""
from .listed import PATH_COLUMNS, UNIT_COLUMNS, carried_word, channel_word, commas, paths_word, span, table_text
from .listed_devices import DEVICE_COLUMNS, DEVICE_COUNTS, IMAGE_COLUMNS, IMAGE_COUNTS, images_word

USES = {"shared": "SHARED", "reconfigurable": "REC", "dedicated": "DEDICATED"}


class Carried:
    """The operands that a line tells by their keywords, in capitals, those that aren't null."""

    def __init__(self, value):
        self.carried = [(name, text) for name, text in value.items() if name.isupper() and text is not None]


def table_of(kind, values, has_all):
    """The table of lines of a kind. If it tells of all images by one word, the longest list of images has all."""
    if kind == "devices":
        images = max((len(value["images"]) for value in values), default=0) if has_all else 0
        return table_text(DEVICE_COLUMNS, [device_cells(value, images) for value in values], DEVICE_COUNTS)
    if kind == "images":
        return table_text(IMAGE_COLUMNS, [image_cells(value) for value in values], IMAGE_COUNTS)
    columns, cells = (PATH_COLUMNS, path_cells) if kind == "paths" else (UNIT_COLUMNS, unit_cells)
    return table_text(columns, [cells(value) for value in values])


def path_cells(value):
    texts = Carried(value)
    return (
        f"{value['css']}.{value['path']}",
        carried_word(texts, "TYPE"),
        channel_word(texts),
        carried_word(texts, "SWITCH"),
        USES[value["use"]],
        str(value["devices"]),
        commas(value["online"]),
        commas(value["offline"]),
        commas(value["units"]),
    )


def unit_cells(value):
    addresses = [(int(it["first"], 16), it["count"]) for it in value["unitadd"]]
    return (
        value["unit"],
        carried_word(Carried(value), "UNIT"),
        value["cuadd"] or "-",
        commas([span(first, first + count - 1, "02X") for first, count in addresses]),
        paths_word([(it["css"], int(it["path"], 16), it.get("link")) for it in value["paths"]]),
        str(value["devices"]),
        commas(value["ranges"]),
    )


def device_cells(value, all_images):
    first, last, address = int(value["first"], 16), int(value["last"], 16), int(value["address"], 16)
    seen = [(it["name"], (it["online"], it["installed"])) for it in value["images"]]
    return (
        ("" if value["set"] == 0 else f"{value['set']}.") + span(first, last, "04X"),
        str(value["count"]),
        carried_word(Carried(value), "UNIT"),
        commas(value["units"]),
        span(address, address + value["count"] - 1, "02X"),
        paths_word([(it["css"], int(it["path"], 16), None) for it in value["paths"]]),
        images_word(seen, all_images),
    )


def image_cells(value):
    return (
        value["image"],
        value["name"],
        *(str(value[name]) for name in ("paths", "online", "devices", "nopath", "onepath")),
        commas([f"{it['set']}:{it['used']}/{it['limit']}" for it in value["numbers"]]),
    )
