"""Scripts: rounds of lines, right ones and faulty ones."""
from .machines import weighted

IMAGES, OPERATORS, MOST_CALLS = "AB", "PQ", 14
ORDERS = {"store": 5, "start": 5, "modify": 4, "test": 4, "end": 4, "active": 2, "halt": 2, "clear": 2, "cancel": 2}
CALLS = {"activate": 8, "undo": 7, "redo": 5, "begin": 3, "advance": 2, "commit": 3, "abort": 1, "show": 2}
# lines that belong together: of an image on one subchannel, and of an operator; None is any line
WORKS = (
    ("modify", "start"), ("start", "end", "test"), ("modify", "start", "active", "end"), ("start", "cancel"),
    ("modify", "start", "end", "test", "store"), ("modify", "halt", "end"), ("clear", "end", "test"),
)
RUNS = (
    ("activate",), ("activate", "undo"), ("activate", "undo", "redo"), ("begin", "advance", "commit"),
    ("begin", "show"), ("begin", "abort"), ("activate", "activate", "undo", "undo", "redo", "redo"), ("undo",),
    ("redo",), ("show",), (None,),
)
FAULTS = (
    "A start 0.1.0.0001 x", "A show", "P start 0.1.0.0000", "A start", "A", "P", "B modify 0.1.0.0000 2 80 00000000",
    "B modify 0.1.0.0000 1 8 00000000", "A store 0.1.0.000a", "A store 0.0.0.0001", "A store 0.1.4.0001", "SYNC",
    "A store 6.1.0.0001", "A store 0.1.0.001", "sync x", "Q undo 0", "Q redo 4294967296", "Q undo -1", "P activate +1",
    "P activate 99", "Q begin 4", "Q begin 0009", "P activate 4294967295", "P activate 4", "P activate 0", "C show",
    "a store 0.1.0.0000", "P show 1", "P advance 1", "P undo", "+", "A start 0.1.0.0001 * comment",
    "A nothing 0.1.0.0001", "A modify 0.1.0.0001 1 80", "P activate 1A", "A start 0.1.0.00001",
)


def subchannel_text(subchannel):
    return "%d.%X.%d.%04X" % subchannel


def drawn_subchannel(dice, known):
    """A subchannel that is there, mostly."""
    if known and dice.random() < 0.95:
        return dice.choice(known)
    return dice.randrange(6), dice.randrange(1, 16), dice.randrange(4), dice.choice((0, 1, 0xFFFF))


def order_line(dice, actor, known, command=None):
    """A line of an image."""
    command = command or weighted(dice, ORDERS)
    words = [actor, command, subchannel_text(drawn_subchannel(dice, known))]
    if command == "modify":
        words += [dice.choice("1111110"), f"{dice.choice((0xFF, 0x80, 0xC0, dice.randrange(256))):02X}"]
        words.append(f"{dice.randrange(1 << 32):08X}")
    return words


def work(dice, actor, known):
    """Lines of an image that belong together, on one subchannel."""
    if dice.random() < 0.4 or not known:
        return [order_line(dice, actor, known)]
    at = [dice.choice(known)]
    return [order_line(dice, actor, at, command) for command in dice.choice(WORKS)]


def call_line(dice, actor, changes, command=None):
    """A line of an operator."""
    command = command or weighted(dice, CALLS)
    if command in ("activate", "begin"):
        if not changes:
            return [actor, "show"]
        return [actor, command, number_text(dice, dice.randint(1, changes))]
    if command in ("undo", "redo"):
        return [actor, command, number_text(dice, dice.choice((1, 1, 1, 2, 2, 3, 4, 4294967295)))]
    return [actor, command]


def number_text(dice, number):
    return "0" * dice.choice((0, 0, 0, 0, 0, 1, 4)) + str(number)


def calls(dice, actor, changes):
    """Lines of an operator that belong together."""
    return [call_line(dice, actor, changes, command) for command in dice.choice(RUNS)]


def lines_of_actor(dice, actor, known, changes, most):
    lines = []
    count = dice.randint(1, most)
    while len(lines) < count:
        lines += work(dice, actor, known) if actor in IMAGES else calls(dice, actor, changes)
    return lines[:count]


def merged(dice, queues):
    """The lines of some actors, each in its order."""
    queues, lines = [list(queue) for queue in queues if queue], []
    while queues:
        queue = dice.choice(queues)
        lines.append(queue.pop(0))
        queues = [queue for queue in queues if queue]
    return lines


def drawn_rounds(dice, known, changes):
    """Rounds of one actor, mostly, each of some lines; now and then several actors with few lines each."""
    rounds = []
    if known and dice.random() < 0.8:
        some = dice.sample(known, min(len(known), 3))
        rounds.append([order_line(dice, "A", [subchannel], "modify") for subchannel in some])
    for _ in range(dice.randint(1, 8)):
        if dice.random() < 0.8:
            actor = dice.choice("AABPPPQ")
            rounds.append(lines_of_actor(dice, actor, known, changes, MOST_CALLS if actor in OPERATORS else 12))
        else:
            actors = dice.choice(("AB", "AP", "BQ", "ABP", "APQ", "PQ", "ABPQ"))
            queues = [lines_of_actor(dice, actor, known, changes, 3) for actor in actors]
            rounds.append(merged(dice, queues))
    return rounds


def line_text(dice, words, is_plain):
    """A line, with more blanks than it needs at times."""
    if is_plain:
        return " ".join(words)
    text = (" " * dice.randint(1, 3)).join(words)
    return " " * dice.choice((0, 0, 1, 3)) + text + " " * dice.choice((0, 0, 1, 2))


def script_text(dice, rounds):
    """The bytes of a script."""
    is_plain, lines = dice.random() < 0.5, []
    for number, part in enumerate(rounds):
        lines += ["sync"] * bool(number)
        for words in part:
            if not is_plain and dice.random() < 0.1:
                lines.append(dice.choice(("", "* a comment", " ", "*")))
            lines.append(line_text(dice, words, is_plain))
    end = "\n" if is_plain else dice.choice(("\n", "\r\n"))
    text = "".join(line + end for line in lines)
    return (text if is_plain or dice.random() < 0.8 else text.rstrip("\r\n")).encode()


def with_fault(dice, rounds):
    """A line that is no command, or too many lines of operators."""
    rounds = [list(part) for part in rounds]
    part = dice.choice(rounds)
    place = dice.randint(0, len(part))
    if dice.random() < 0.3:
        part[place:place] = [[dice.choice("PQ"), "show"] for _ in range(15)]
    else:
        part[place:place] = [dice.choice(FAULTS).split(" ")]
    return rounds
