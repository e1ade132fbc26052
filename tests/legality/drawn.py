"""Draws small machines, change decks for them, and scripts whose actors meet on the subchannels that the changes
alter."""
from typing import NamedTuple

from .changes import tree_of
from .histories import change_of, forget
from .machine import Refused, opening
from .printed import subchannel_text
from .records import configuration_of
from .scripts import IMAGES, MOST_OPERATOR_LINES, OPERATORS
from .trees import meaning

FIRST, LATER = 71, 56  # the text of a first card and of a continuation, in columns
ORDER_WEIGHTS = {
    "store": 5, "start": 4, "modify": 4, "test": 2, "end": 2, "cancel": 2, "active": 1, "halt": 1, "clear": 1
}
CALL_WEIGHTS = {
    "activate": 7, "undo": 5, "redo": 3, "commit": 2, "begin": 1, "advance": 1, "abort": 1, "show": 1
}
# what an image does with a subchannel, from a start on; three times in six a single order
RUNS = (("start", "end", "test"), ("start", "active", "end", "test", "store"), ("start", "cancel"), None, None, None)
FULL_ACTORS = ("AP", "ABP", "APQ", "ABPQ", "ABPQ")
ACTORS = ("A", "P", "AB", "AP", "BQ", "ABP", "APQ", "ABPQ")


class Drawn(NamedTuple):
    """A deck, change decks and a script, as texts; and whether the script has stages, undo and redo between orders
    on altered subchannels."""

    deck: str
    changes: list
    script: str
    is_full: bool


def cards(text):
    """The cards of a statement: cut after column 71, and continued in column 16."""
    lines, rest = [text[:FIRST]], text[FIRST:]
    while rest:
        lines[-1] = lines[-1].ljust(FIRST) + "X"
        lines.append(" " * 15 + rest[:LATER])
        rest = rest[LATER:]
    return "\n".join(lines) + "\n"


def weighted(dice, weights):
    return dice.choices(list(weights), list(weights.values()))[0]


def statement(operation, operands, verb=""):
    return cards(f"{verb:9}{operation} {operands}")


def some(dice, items, least=0):
    """Some of the items, in their order."""
    taken = dice.sample(items, dice.randint(least, len(items)))
    return [item for item in items if item in taken]


def listed(items):
    return "(" + ",".join(items) + ")" if items else "0"


def by_css(groups):
    return "(" + ",".join(f"(CSS({css}),{','.join(items)})" for css, items in groups) + ")"


def path_text(css, number, access, candidates):
    return f"PATH=(CSS({css}),{number}),SHARED,PARTITION=({listed(access)},{listed(candidates)})"


def unit_text(number, paths, cuadd):
    return f"CUNUMBR={number},PATH={by_css(paths)},UNITADD=((00,32)),CUADD={cuadd:02X}"


def device_text(dice, number, units, address, names):
    """A device, now and then with candidates."""
    listed_names = f",PARTITION={listed(some(dice, names, 1))}" if dice.random() < 0.2 else ""
    return f"ADDRESS={number},CUNUMBR={listed(units)},UNITADD={address:02X}{listed_names}"


def drawn_numbers(dice, numbers, counts, form):
    """Some numbers in hexadecimal, ascending."""
    return [format(number, form) for number in sorted(dice.sample(numbers, dice.randint(*counts)))]


class Machine:
    """What a drawn deck is made of."""

    def __init__(self, dice):
        self.csss = sorted(dice.sample(range(6), dice.choice((1, 1, 2))))
        self.images = {css: [f"LP{css}{place}" for place in range(dice.randint(1, 3))] for css in self.csss}
        self.names = [name for names in self.images.values() for name in names]
        self.paths = {css: drawn_numbers(dice, range(0x40, 0x60), (2, 3), "02X") for css in self.csss}
        self.lists = {(css, path): self.drawn_lists(dice, css) for css in self.csss for path in self.paths[css]}
        self.units = {f"{0x1000 * (place + 1):04X}": place for place in range(dice.randint(1, 2))}
        self.unit_paths = {unit: self.drawn_paths(dice) for unit in self.units}
        devices = drawn_numbers(dice, range(0x2000, 0x2010), (2, 4), "04X")
        self.devices, self.texts = {device: place for place, device in enumerate(devices)}, {}

    def drawn_lists(self, dice, css):
        candidates = some(dice, self.images[css], 1)
        return some(dice, candidates), candidates

    def drawn_paths(self, dice):
        return [(css, dice.sample(self.paths[css], dice.randint(1, 2))) for css in self.csss]

    def deck(self, dice):
        images = {css: [f"({name},{mif:X})" for mif, name in enumerate(names, 1)] for css, names in self.images.items()}
        text = statement("RESOURCE", f"PARTITION={by_css(images.items())}")
        for (css, path), (access, candidates) in self.lists.items():
            text += statement("CHPID", path_text(css, path, access, candidates))
        for unit, place in self.units.items():
            text += statement("CNTLUNIT", unit_text(unit, self.unit_paths[unit], place))
        for device, address in self.devices.items():
            self.texts[device] = device_text(dice, device, [dice.choice(sorted(self.units))], address, self.names)
            text += statement("IODEVICE", self.texts[device])
        return text


def drawn_machine(dice):
    """A machine whose deck keeps the rules, its deck, and the state at its opening."""
    while True:
        forget()
        machine = Machine(dice)
        deck = machine.deck(dice)
        state = opening(configuration_of(deck.encode()))
        if state.breach is None and state.views:
            return machine, deck, state


def online_edits(dice, machine, css, path):
    """Brings a path online to an image, or takes it from one; now and then at once there and back."""
    access, candidates = machine.lists[css, path]
    name = dice.choice(candidates if dice.random() < 0.9 else machine.images[css])
    verbs = ("DELETE", "ADD") if name in access else ("ADD", "DELETE")
    count = dice.choice((1, 1, 1, 2))
    return "".join(statement("ONLINE", f"PATH=(CSS({css}),{path}),PARTITION=({name})", verb) for verb in verbs[:count])


def deletion(dice, machine, device):
    """Deletes a device; now and then it comes back at once, as it was."""
    back = statement("IODEVICE", machine.texts[device], "ADD") if dice.random() < 0.25 else ""
    return statement("IODEVICE", f"ADDRESS={device}", "DELETE") + back


def drawn_edit(dice, machine):
    """A statement of a change deck, or two."""
    device, unit = dice.choice(sorted(machine.devices)), dice.choice(sorted(machine.units))
    new, address = f"{dice.randrange(0x2000, 0x2010):04X}", dice.randrange(32)
    moved = dice.choice((address, machine.devices[device]))
    css = dice.choice(machine.csss)
    path = dice.choice(machine.paths[css])
    unit_paths = unit_text(unit, machine.drawn_paths(dice), machine.units[unit])
    lists = path_text(css, path, *machine.drawn_lists(dice, css))
    kinds = (
        (6, lambda: deletion(dice, machine, device)),
        (4, lambda: statement("IODEVICE", device_text(dice, new, [unit], address, machine.names), "ADD")),
        (2, lambda: statement("IODEVICE", device_text(dice, device, [unit], moved, machine.names), "MODIFY")),
        (5, lambda: online_edits(dice, machine, css, path)),
        (2, lambda: statement("CNTLUNIT", unit_paths, "MODIFY")),
        (2, lambda: statement("CHPID", lists, "MODIFY")),
    )
    return dice.choices([kind for _, kind in kinds], [weight for weight, _ in kinds])[0]()


def drawn_change(dice, machine):
    """A change deck: one statement or some, now and then grouped."""
    text = "".join(drawn_edit(dice, machine) for _ in range(dice.choice((1, 1, 1, 2, 2, 3))))
    kind = dice.choice((None, None, None, "ROW", "GROUP", "CHOOSE"))
    return f"         {kind}\n{text}         END\n" if kind else text


def altered_at(state, change):
    """The subchannels that a change deck alters where the machine is opened, or nothing where it is refused."""
    try:
        after, performed = meaning(state, tree_of(change.encode()))
    except Refused:
        return None
    return change_of(after, performed).altered()


def drawn_changes(dice, machine, state):
    """Some change decks, the first of which is accepted and alters a subchannel; and all that they alter."""
    while True:
        changes = [drawn_change(dice, machine) for _ in range(dice.choice((1, 2, 2, 3, 3, 4)))]
        altered = [altered_at(state, change) for change in changes]
        if altered[0]:
            return changes, altered


def drawn_order(dice, subchannel, command=None):
    """What a line of an image says behind its actor."""
    command = command or weighted(dice, ORDER_WEIGHTS)
    operands = ""
    if command == "modify":
        operands = f" {int(dice.random() < 0.9)} {dice.choice((0x80, 0xC0, 0x40, 0xFF)):02X} {dice.randrange(16):08X}"
    return f"{command} {subchannel_text(subchannel)}{operands}"


def drawn_orders(dice, subchannels, count):
    """Lines of an image: single orders, and now and then an I/O from its start to its status."""
    lines = []
    while len(lines) < count:
        subchannel = dice.choice(subchannels)
        lines += [drawn_order(dice, subchannel, command) for command in dice.choice(RUNS) or (None,)]
    return lines[:count]


def drawn_calls(dice, changes, count):
    """Lines of an operator."""
    calls = []
    for _ in range(count):
        command = weighted(dice, CALL_WEIGHTS)
        number = dice.randint(1, changes) if command in ("activate", "begin") else dice.choice((1, 1, 1, 2, 2, 3))
        calls.append(f"{command} {number}" if command in ("activate", "begin", "undo", "redo") else command)
    return calls


def layered_calls(dice, changes):
    """Lines of an operator by which changes are made one after the other, undone in some order, and redone."""
    layers = list(range(1, changes + 1))
    undos, redos = dice.sample(layers, changes), dice.sample(layers, dice.randint(0, changes))
    calls = [f"activate {place}" for place in layers] + [f"undo {number}" for number in undos]
    return (calls + [f"redo {number}" for number in redos] + ["show"])[:MOST_OPERATOR_LINES]


def staged_calls(dice, changes):
    """Lines of an operator with stages, an undo and a redo."""
    calls = ["begin 1"] + ["advance"] * dice.randint(0, 2) + [dice.choice(("commit", "commit", "abort"))]
    calls += ["activate 1"] if calls[-1] == "abort" else drawn_calls(dice, changes, dice.randint(0, 1))
    calls += ["undo 1"] + drawn_calls(dice, changes, dice.randint(0, 1)) + ["redo 1"]
    return calls + dice.choice(([], ["undo 1"], ["show"]))


def split(dice, lines, rounds):
    """Lines cut into so many parts, some of them empty."""
    cuts = sorted(dice.randint(0, len(lines)) for _ in range(rounds - 1))
    return [lines[start:end] for start, end in zip([0] + cuts, cuts + [len(lines)])]


def script_text(dice, rounds):
    """The rounds, each with the lines of its actors in some order between them."""
    text = []
    for number, lines_of in enumerate(rounds):
        text += ["sync"] if number else []
        queues = {actor: list(lines) for actor, lines in lines_of.items() if lines}
        while queues:
            actor = dice.choice(sorted(queues))
            text.append(f"{actor} {queues[actor].pop(0)}")
            queues = {it: lines for it, lines in queues.items() if lines}
    return "\n".join(text) + "\n"


def enabling(subchannels):
    return [f"modify {subchannel_text(subchannel)} 1 FF 00000000" for subchannel in subchannels]


def short_rounds(dice, changes, subchannels, altered, is_full):
    """The rounds of a script of up to four actors with few lines each; a full one ends with orders on altered
    subchannels."""
    actors, count = dice.choice(FULL_ACTORS if is_full else ACTORS), dice.randint(1, 4)
    lines = {}
    for actor in actors:
        if actor in IMAGES:
            drawn_lines = drawn_orders(dice, subchannels, dice.randint(2, 10))
        elif is_full and actor == "P":
            drawn_lines = staged_calls(dice, changes)
        elif actor == "P" and dice.random() < 0.6:
            drawn_lines = layered_calls(dice, changes)
        else:
            drawn_lines = drawn_calls(dice, changes, dice.randint(1, 5))
        lines[actor] = split(dice, drawn_lines, count)
    rounds = [{actor: parts[place] for actor, parts in lines.items()} for place in range(count)]
    if is_full:
        rounds.append({dice.choice("AB"): drawn_orders(dice, altered, 2)})
    return rounds


def touches(dice, subchannel):
    """Lines of an image by which a subchannel shows another record than before, and is quiet again."""
    run = dice.choice(((), (), ("start", "end", "test"), ("halt", "end", "test")))
    return [drawn_order(dice, subchannel, command) for command in ("store", "modify", *run, "store")]


def stair_rounds(dice, changes, subchannels, altered):
    """A change is made, undone, redone and undone, and after each an image touches what it alters. Now and then two
    steps are one round, and others have lines beside them."""
    image, operator = dice.choice("AB"), dice.choice("PQ")
    calls = (["begin 1", "advance", "commit"], ["undo 1"], ["redo 1"], ["undo 1"])
    rounds = []
    for part in calls:
        for actor, lines in ((operator, part), (image, touches(dice, dice.choice(altered)))):
            if rounds and actor not in rounds[-1] and dice.random() < 0.25:
                rounds[-1][actor] = lines
            else:
                rounds.append({actor: lines})
    for round_ in rounds:
        other = dice.choice("ABPQ")
        if other not in round_ and dice.random() < 0.3:
            count = dice.randint(1, 3)
            is_image = other in IMAGES
            round_[other] = drawn_orders(dice, subchannels, count) if is_image else drawn_calls(dice, changes, count)
    return rounds


def long_rounds(dice, subchannels):
    """A round in which an image looks at one subchannel many times while an operator has the change made and undone."""
    subchannel = dice.choice(subchannels)
    looks = [drawn_order(dice, subchannel, "store") for _ in range(dice.randint(300, 700))]
    calls = [f"{command} {number}" for number in (1, 2, 3) for command in ("activate", "undo")]
    calls = [call.replace("activate 2", "activate 1").replace("activate 3", "activate 1") for call in calls]
    if dice.random() < 0.5:
        calls = ["begin 1", "advance", "commit", "undo 1", "redo 1", "undo 1"]
    return [{"A": looks, "P": calls}]


def has_few_calls(rounds):
    calls = ([len(lines) for actor, lines in round_.items() if actor in OPERATORS] for round_ in rounds)
    return all(sum(counts) <= MOST_OPERATOR_LINES for counts in calls)


def drawn(dice, is_long=False):
    """A machine, its change decks and a script. Most scripts are full: with stages, undo and redo between orders on
    altered subchannels."""
    machine, deck, state = drawn_machine(dice)
    changes, altered = drawn_changes(dice, machine, state)
    hot = sorted({subchannel for subchannels in altered for subchannel in subchannels or ()})
    others = [subchannel for subchannel in state.views if subchannel not in hot]
    first = dice.sample(altered[0], min(len(altered[0]), 2))
    subchannels = first + dice.sample(hot, min(len(hot), 2)) + dice.sample(others, min(len(others), 1))
    is_stair = not is_long and dice.random() < 0.3
    is_full = is_stair or (not is_long and dice.random() < 0.6)
    if is_stair:
        rounds = stair_rounds(dice, len(changes), subchannels, first)
    else:
        rounds = long_rounds(dice, first) if is_long else short_rounds(dice, len(changes), subchannels, first, is_full)
    if not has_few_calls(rounds):
        return drawn(dice, is_long)
    opened = [{"A": enabling(sorted(set(subchannels)))}] if is_full or dice.random() < 0.8 else []
    return Drawn(deck, changes, script_text(dice, opened + rounds), is_full)
