"""From a change deck to a change tree."""
from typing import NamedTuple

from .cards import Fault, statements_of
from .operands import parsed
from .records import DEVICE, ID, IMAGE, KNOWN, LIMIT, ONLINE, ONLINE_RECORD, PATH, RESOURCE, UNIT
from .records import device_places, has_left_out_form, is_several_lists, path_key, records_of, refuse_missing
from .values import Malformed, by_css, cut, hexadecimal, is_group, is_list, items_of, names_of, need

VERBS = ("ADD", "DELETE", "MODIFY")
NODES = ("ROW", "GROUP", "CHOOSE")
# what DELETE looks at
KEYS = {
    "ID": (),
    "RESOURCE": ("PARTITION", "MAXDEV"),
    "CHPID": ("PATH",),
    "CNTLUNIT": ("CUNUMBR",),
    "IODEVICE": ("ADDRESS", "SCHSET"),
    "ONLINE": ("PATH", "PARTITION"),
}
DEEPEST, MOST_LEAVES = 32, 4096


class Edit(NamedTuple):
    """Adds, deletes or modifies the record of a key; with numbers and live records that come along."""

    action: str
    key: tuple
    record: object
    places: tuple = ()  # ((css, set, device), number)
    kept: tuple = ()  # (subchannel, live record)


class Node(NamedTuple):
    """A Row, a Group or a Choose."""

    kind: str
    parts: tuple


def lacks_lists(statement):
    """S3: a shared or reconfigurable path without both lists, by the shape of its PARTITION."""
    text, is_shared = statement.text("PARTITION"), statement.has_bare("SHARED")
    is_rec = statement.has_bare("REC")
    items = cut(text[1:-1]) if text is not None and is_list(text) else []
    if items and is_group(text):
        items = items[1:]
    elif len(items) == 1 and is_group(items[0]):
        items = cut(items[0][1:-1])[1:]
    if items and items[-1] == "REC":
        items, is_rec = items[:-1], True
    return (is_shared or is_rec) and not (len(items) >= 2 and is_several_lists(items))


def resource_keys(statement):
    """The keys of DELETE RESOURCE: images by digit, limits by place, or what RESOURCE carries."""
    partition, limits = statement.text("PARTITION"), statement.text("MAXDEV")
    keys = []
    for css, items in whole_by_css(partition, False) if partition is not None else ():
        for item in items:
            need(is_list(item))
            pair = cut(item[1:-1])
            need(len(pair) == 2 and pair[0])
            digit = hexadecimal(pair[1], 1)
            need(digit > 0)
            keys.append((IMAGE, css, digit))
    for css, items in whole_by_css(limits, True) if limits is not None else ():
        need(len(items) <= 4)
        keys += [(LIMIT, css, place) for place, item in enumerate(items) if item]
    return keys if partition is not None or limits is not None else [(RESOURCE,)]


def whole_by_css(text, may_be_empty):
    """A list by channel subsystem whose items may be quoted: they are hidden while its form is looked at."""
    hidden, in_quotes = "", False
    for letter in text:
        in_quotes ^= letter == "'"
        hidden += "Q" if in_quotes or letter == "'" else letter
    return by_css(hidden, may_be_empty)


def keys_of(statement):
    """The keys that a DELETE names (S4 as `Malformed`)."""
    looked_at = KEYS[statement.operation]
    need(not any(statement.has_bare(word) for word in looked_at))
    if statement.operation == "ID":
        return [(ID,)]
    if statement.operation == "RESOURCE":
        return resource_keys(statement)
    need(not any("'" in (statement.text(word) or "") or statement.text(word) == "" for word in looked_at))
    if statement.operation == "CHPID":
        return [(PATH, *path_key(statement.text("PATH")))]
    if statement.operation == "CNTLUNIT":
        return [(UNIT, hexadecimal(statement.text("CUNUMBR"), 4, 0xFFFE))]
    if statement.operation == "IODEVICE":
        number_set, first, count = device_places(statement)
        return [(DEVICE, number_set, first + place) for place in range(count)]
    return online_keys(statement)


def online_keys(statement):
    css, number = path_key(statement.text("PATH"))
    names = items_of(statement.text("PARTITION"))
    names_of(names)
    return [(ONLINE, css, number, name) for name in names]


def edits_of(statement):
    """The edits of a statement with a verb, in the order of their keys (S3, S5, S4)."""
    verb = statement.name
    refuse_missing(statement)
    if verb != "DELETE" and statement.operation == "CHPID" and lacks_lists(statement):
        raise Fault("S3", statement.line)
    looked_at = KEYS[statement.operation] if verb == "DELETE" else KNOWN[statement.operation]
    if (verb == "MODIFY" and statement.operation == "ONLINE") or has_left_out_form(statement, looked_at):
        raise Fault("S5", statement.line)
    try:
        if verb == "DELETE":
            edits = [Edit("delete", key, None) for key in keys_of(statement)]
        elif statement.operation == "ONLINE":
            need(all(keyword in KNOWN["ONLINE"] for keyword, _ in statement.operands))
            edits = [Edit("add", key, ONLINE_RECORD) for key in online_keys(statement)]
        else:
            edits = [Edit(verb.lower(), key, record) for key, record in records_of(statement, lambda css: ())]
    except Malformed:
        raise Fault("S4", statement.line) from None
    return sorted(edits, key=lambda edit: edit.key)


class Reading:
    """A change deck that is read statement by statement: the nodes that are open, each with its kind, its line and
    its parts."""

    def __init__(self):
        self.open, self.leaves, self.deepest = [("ROW", 0, [])], 0, 0

    def add(self, part, depth, leaves, line):
        self.open[-1][2].append(part)
        self.count(depth, leaves, line)

    def count(self, depth, leaves, line):
        """C1 and C2; a second node at the top puts a Row round all."""
        if len(self.open[-1][2]) > 1 or len(self.open) == 1:
            self.leaves += leaves
        else:
            self.leaves += leaves - 1  # the node that is open counted as one leaf while it had no part
        self.deepest = max(self.deepest, len(self.open) - 1 + depth)
        if self.deepest + (len(self.open[0][2]) > 1) > DEEPEST:
            raise Fault("C1", line)
        if self.leaves > MOST_LEAVES:
            raise Fault("C2", line)

    def begin(self, kind, line):
        parts = []
        self.add((kind, parts), 1, 1, line)
        self.open.append((kind, line, parts))

    def end(self, line):
        if len(self.open) == 1:
            raise Fault("S9", line)
        self.open.pop()

    def take(self, statement):
        if statement.operation in NODES:
            self.begin(statement.operation, statement.line)
        elif statement.operation == "END":
            self.end(statement.line)
        else:
            if statement.name not in VERBS:
                raise Fault("S10", statement.line)
            edits = edits_of(statement)
            is_leaf = len(edits) == 1
            part = edits[0] if is_leaf else ("ROW", edits)
            self.add(part, 1 if len(edits) < 2 else 2, max(1, len(edits)), statement.line)

    def tree(self):
        if len(self.open) > 1:
            raise Fault("S9", self.open[-1][1])
        parts = self.open[0][2]
        return frozen(parts[0] if len(parts) == 1 else ("ROW", parts))


def frozen(part):
    return part if isinstance(part, Edit) else Node(part[0], tuple(frozen(it) for it in part[1]))


def tree_of(data):
    """The change tree of a change deck's bytes, or its first fault."""
    reading = Reading()
    for statement in [parsed(joined) for joined in statements_of(data)]:
        reading.take(statement)
    return reading.tree()
