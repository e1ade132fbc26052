"""Odd values of known operands: right ones with a piece more, less or exchanged, and any that parentheses allow."""
import re

from legality.operands import cut

from .cards import Words

RIGHT = {
    "RESOURCE": {
        "PARTITION": ("((CSS(0),(LPA,1),(LPB,2)),(CSS(1),(LPC,1)))", "(CSS(0),(LPA,1))", "((LPA,1),(*,2))"),
        "MAXDEV": ("((CSS(0),65280,65535),(CSS(1),,100))", "(CSS(0),65280)", "(65280)", "(,,1)", "()", "(CSS(1))"),
    },
    "CHPID": {
        "PATH": ("(CSS(0),60)", "((CSS(1),60))", "60", "(60)"),
        "PARTITION": (
            "(LPA,LPB)", "((LPA),(LPA,LPB))", "((LPA,LPB),=)", "(0,(LPA,LPB))", "((LPA),(LPA,LPB),REC)",
            "(CSS(0),LPA,LPB)", "((CSS(0),(LPA),(LPA,LPB)))", "(LPA,REC)", "((LPA),(=))", "(0)", "((0),0)", "(LPA,(0))",
            "((CSS(0),LPA,REC))",
        ),
    },
    "CNTLUNIT": {
        "CUNUMBR": ("2000", "FFFE", "0"),
        "PATH": ("((CSS(0),50,51),(CSS(1),50))", "(CSS(0),50,51)", "(50,51)", "((CSS(1),50),(CSS(0),50))"),
        "UNITADD": ("((00,16),(40,8))", "(00,16)", "00", "(F0)", "((00),10)", "((00,256))"),
        "LINK": ("((CSS(0),1A,**))", "(1A,0B00)", "(CSS(1),1A)", "((CSS(0),1A,1B),(CSS(1),**))"),
        "CUADD": ("1", "0F", "00"),
    },
    "IODEVICE": {
        "ADDRESS": ("(2000,4)", "2000", "(2000)", "(FFF0,16)", "(0,256)"),
        "CUNUMBR": ("1000", "(1000)", "(1000,1100)", "1100"),
        "UNITADD": ("04", "00", "FC"),
        "SCHSET": ("1", "0", "03"),
        "PARTITION": ("LPA", "(LPA,LPC)", "((CSS(0),LPA),(CSS(1),LPC))", "0", "(0)", "(((LPA)),CSS(1),LPB)"),
    },
    "ONLINE": {"PATH": ("(CSS(0),51)", "51", "((51))"), "PARTITION": ("(LPB)", "(LPA,LPB)", "(LPA)")},
}
REQUIRED = {
    "RESOURCE": (), "CHPID": ("PATH=60",), "CNTLUNIT": ("CUNUMBR=2000", "PATH=(51)", "CUADD=2"),
    "IODEVICE": ("ADDRESS=2000", "CUNUMBR=1000", "UNITADD=20"), "ONLINE": ("PATH=51", "PARTITION=(LPB)"),
}
PIECES = (
    "0", "00", "1", "5", "50", "51", "60", "FF", "100", "256", "257", "1000", "1100", "4096", "4097", "65535", "65536",
    "FFFE", "FFFF", "10000", "5G", "5a", "LPA", "LPB", "LPC", "LPD", "REC", "A1234567", "LONGNAME9", "=", "**", "*",
    "(=)", "(0)", "()", "CSS(0)", "CSS(1)", "CSS(5)", "CSS(6)", "CSS(00)", "CSS(0,1)", "CSS()", "CSS(A)", "CSS((0))",
    "CSS(CSS(0,1))", "CSS(0)X", "XCSS(0)", "CSS(0,A)", "CSS(1,)", "CSS", "(", ")", ",", "(LPA)", "(LPA,LPB)", "'A'",
    "A=B", "SHARED", "",
)
TOKEN = re.compile(r"CSS\([^()]*\)|[A-Z0-9*=]+|[(),]")
PATHS = ("PATH=(CSS(0),50)", "PATH=(CSS(0),51)", "PATH=(CSS(1),50)")


def base():
    """Two channel subsystems, three paths, and two control units with a device each."""
    images = Words("", "RESOURCE", ("PARTITION=((CSS(0),(LPA,1),(LPB,2)),(CSS(1),(LPC,1)))",))
    paths = [Words("", "CHPID", (path, "SHARED", "PARTITION=((LPA),(LPA,LPB))")) for path in PATHS[:2]]
    paths.append(Words("", "CHPID", (PATHS[2], "SHARED")))
    units = [Words("", "CNTLUNIT", ("CUNUMBR=1000", "PATH=((CSS(0),50))"))]
    units.append(Words("", "CNTLUNIT", ("CUNUMBR=1100", "PATH=((CSS(0),51),(CSS(1),50))", "CUADD=1")))
    devices = [Words("", "IODEVICE", (f"ADDRESS={unit}", f"CUNUMBR={unit}")) for unit in ("1000", "1100")]
    return [images, *paths, *units, *devices]


def changed(dice, text):
    """A value with a piece more, less or exchanged, or in one pair of parentheses more."""
    tokens = TOKEN.findall(text)
    for _ in range(dice.choice((0, 0, 0, 1, 1, 1, 2, 3))):
        place, other = dice.randrange(len(tokens) + 1), dice.choice(PIECES)
        kind = dice.choice(("put", "put after comma", "drop", "other", "other", "double", "wrap", "swap"))
        if kind == "put" or not tokens:
            tokens.insert(place, other)
        elif kind == "put after comma":
            tokens[place:place] = [",", other]
        elif kind == "wrap":
            start = dice.randint(0, place)
            tokens[start:place] = ["(", *tokens[start:place], ")"]
        else:
            place = min(place, len(tokens) - 1)
            again = dice.choice(tokens)
            instead = {"drop": [], "other": [other], "double": [tokens[place]] * 2, "swap": [again]}
            tokens[place : place + 1] = instead[kind]
    return "".join(tokens)


def matching(dice, text):
    """A changed value, whose parentheses mostly match."""
    while True:
        value = changed(dice, text)
        if cut(value) is not None or dice.random() < 0.15:
            return value


def any_value(dice, depth=0):
    """Any value that parentheses allow."""
    if depth > 3 or dice.random() < 0.6:
        return dice.choice(PIECES)
    items = [any_value(dice, depth + 1) for _ in range(dice.choice((0, 1, 1, 2, 2, 3)))]
    return f"({','.join(items)})"


def long_value(dice, text):
    """A value that goes on for many cards: as many items, or as many parentheses round it."""
    count = dice.choice((8, 9, 16, 100, 1000))
    if dice.random() < 0.3:
        return "(" * count + text + ")" * count
    items = [f"{place:02X}" for place in range(count)] if dice.random() < 0.5 else [text] * count
    return f"({','.join(items)})"


def odd_statement(dice, operation, name=""):
    """A statement with an odd value of one known operand, or of some."""
    values = dict(text.split("=", 1) for text in REQUIRED[operation])
    for keyword in dice.sample(sorted(RIGHT[operation]), dice.choice((1, 1, 1, 2))):
        right = dice.choice(RIGHT[operation][keyword])
        values[keyword] = matching(dice, right) if dice.random() < 0.85 else any_value(dice)
        if dice.random() < 0.03:
            values[keyword] = long_value(dice, right)
    operands = [f"{keyword}={text}" for keyword, text in values.items()]
    if operation == "CHPID":
        operands += dice.choice(((), ("SHARED",), ("SHARED",), ("REC",), ("REC", "SHARED"), ("SHARED", "SHARED")))
    if dice.random() < 0.1:
        operands.append(dice.choice(("TYPE=" + any_value(dice), dice.choice(PIECES), "NOTPART=(LPA)", "X'A B'=1")))
    dice.shuffle(operands)
    return Words(name, operation, tuple(operands))


def odd_deck(dice):
    """The base machine with one statement more, or with another RESOURCE."""
    operation = dice.choice(("RESOURCE", "CHPID", "CHPID", "CNTLUNIT", "IODEVICE"))
    statements, words = base(), odd_statement(dice, operation)
    if operation == "RESOURCE":
        return [words] if dice.random() < 0.5 else [words, *statements[1:]]
    return [*statements, words]


def odd_change(dice):
    """A change of the base machine with odd values."""
    operation = dice.choice(("RESOURCE", "CHPID", "CNTLUNIT", "IODEVICE", "ONLINE"))
    return [odd_statement(dice, operation, dice.choice(("ADD", "DELETE", "MODIFY")))]
