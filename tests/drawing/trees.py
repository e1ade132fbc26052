"""Change decks: the statements of edits, in rows, groups and chooses; wrong ones, deep ones and large ones."""
from .cards import Words, deck_of, drawn_manner
from .edits import drawn_edits, exchanged
from .faults import OF_WORDS
from .statements import device_words, online_words

END = Words("", "END", ())
VERBS = ("ADD", "DELETE", "MODIFY")
WRONG_NAMES = ("", "add", "ADDS", "CHANGE", "DEL", "A", "MODIFYX")


def node(dice, kind, parts):
    """A ROW, GROUP or CHOOSE round some statements."""
    name = dice.choice(("", "", "", "LABEL", "ADD"))
    return [Words(name, kind, ()), *parts, END._replace(name=dice.choice(("", "", "X")))]


def wrong_part(dice, machine):
    """Statements that are refused where they are reached: something is there already, or isn't there."""
    if machine.devices and dice.random() < 0.5:
        return [device_words(dice, machine, [dice.choice(sorted(machine.devices))], "ADD")]
    return [Words("DELETE", "CNTLUNIT", ("CUNUMBR=FFFD",))]


def in_tree(dice, machine, statements, depth=0):
    """Statements with nodes round some that follow each other."""
    if depth > 3 or dice.random() < 0.4:
        return statements
    start = dice.randint(0, len(statements))
    end = dice.randint(start, len(statements))
    part = in_tree(dice, machine, statements[start:end], depth + 1)
    kind = dice.choice(("ROW", "GROUP", "CHOOSE"))
    if kind == "CHOOSE" and (part or dice.random() < 0.8):
        part = node(dice, dice.choice(("ROW", "GROUP")), part)
        before = wrong_part(dice, machine) if dice.random() < 0.6 else []
        after = wrong_part(dice, machine) if dice.random() < 0.2 else []
        part = before + part + after
    return statements[:start] + node(dice, kind, part) + statements[end:]


def right_change(dice, machine):
    """The statements of a change that keeps the rules, mostly. The machine is then as it is after them."""
    statements = exchanged(dice, machine) if dice.random() < 0.1 else drawn_edits(dice, machine)
    return in_tree(dice, machine.twin(), statements)


def wrong_change(dice, machine):
    """A statement is left out, doubled, exchanged with another, or has another verb or a fault."""
    statements = drawn_edits(dice, machine) or wrong_part(dice, machine)
    if dice.random() < 0.1:
        return in_tree(dice, machine, statements + wrong_online(dice, machine))
    for _ in range(dice.choice((1, 1, 2))):
        if statements:
            spoil(dice, statements)
    return in_tree(dice, machine, statements)


def wrong_online(dice, machine):
    """A path comes online to any image, or goes while it is online."""
    key, name = dice.choice(sorted(machine.paths) or [(0, 0x50)]), dice.choice(machine.names() or ("LPA",))
    if dice.random() < 0.3:
        return [Words("DELETE", "CHPID", (f"PATH=(CSS({key[0]}),{key[1]:02X})",))]
    return [online_words(dice, *key, [name], "ADD")]


def spoil(dice, statements):
    """One of the statements is left out, comes twice, changes places, or is another."""
    place, other = dice.randrange(len(statements)), dice.randrange(len(statements))
    kind = dice.choice(("drop", "double", "swap", "verb", "name", "fault", "fault", "end", "open", "node"))
    words = statements[place]
    if kind == "drop":
        del statements[place]
    elif kind == "double":
        statements.insert(other, words)
    elif kind == "swap":
        statements[place], statements[other] = statements[other], words
    elif kind in ("verb", "name"):
        statements[place] = words._replace(name=dice.choice(VERBS if kind == "verb" else WRONG_NAMES))
    elif kind == "fault":
        statements[place] = dice.choice(OF_WORDS)(dice, words)
    elif kind == "end":
        statements.insert(place, END)
    elif kind == "open":
        statements.insert(place, Words("", dice.choice(("ROW", "GROUP", "CHOOSE")), ()))
    else:
        statements[place:place] = node(dice, dice.choice(("ROW", "GROUP", "CHOOSE")), [])


def deep_change(dice, machine):
    """Nodes round each other, some thirty deep."""
    statements = drawn_edits(dice, machine, 1) or [Words("DELETE", "ID", ())]
    depth = dice.randint(29, 34)
    for _ in range(depth):
        statements = node(dice, dice.choice(("ROW", "GROUP", "GROUP", "CHOOSE")), statements)
    if dice.random() < 0.3:
        statements += wrong_part(dice, machine)
    return statements


def large_change(dice, machine):
    """Many edits: some 4,096 of one statement or of two, of devices that aren't there; or some hundred that come."""
    verb = dice.choice(("ADD", "DELETE", "DELETE", "MODIFY"))
    count = dice.randint(60, 160) if verb == "ADD" else dice.choice((4095, 4096, 4096, 4096))
    first = dice.randrange(0x10000 - count)
    statements = [Words(verb, "IODEVICE", (f"ADDRESS=({first:04X},{count})", "CUNUMBR=(1000)"))]
    return statements + dice.choice(([], wrong_part(dice, machine), node(dice, "ROW", []), node(dice, "ROW", [])))


def change_deck(dice, statements):
    return deck_of(dice, statements, drawn_manner(dice))
