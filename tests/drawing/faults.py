"""Faults of the text, S1 to S8: each function spoils one statement of a deck, or adds one. Mutations do the others."""
from .cards import Words

OPERATIONS = ("ID", "RESOURCE", "CHPID", "CNTLUNIT", "IODEVICE")
WRONG_OPERATIONS = ("CHPI", "CHPIDS", "chpid", "FUNCTION", "IOCONFIG", "ONLINE", "ROW", "END", "GROUP", "ID,", "A", "'")
REQUIRED = {"CHPID": "PATH", "CNTLUNIT": "CUNUMBR", "IODEVICE": "ADDRESS", "ONLINE": "PATH"}
# operands that are malformed in each statement where they are known; of some statements they are carried
MALFORMED = {
    "ID": ("", "=X", "a=1", "A-B=1", ",", "A B=(", "A'=1"),
    "RESOURCE": (
        "PARTITION=()", "PARTITION=", "PARTITION=LPA", "PARTITION=(LPA,1)", "PARTITION=((LPA,0))",
        "PARTITION=((LPA,G))", "PARTITION=((LPA,10))", "PARTITION=((CSS(6),(LPA,1)))", "PARTITION=((REC,1))",
        "PARTITION=((LONGNAME9,1))", "PARTITION=((CSS(0)))", "PARTITION=((LPA,1),,)", "MAXDEV=((CSS(0),65536))",
        "MAXDEV=(1,2,3,4,5)", "MAXDEV=1A", "MAXDEV=((CSS(0),1),(2))", "MAXDEV=((CSS(6),1))", "PARTITION='A'",
        "PARTITION", "MAXDEV=(1,(2))", "MAXDEV=('1')",
    ),
    "CHPID": (
        "PATH=", "PATH=5G", "PATH=100", "PATH=(CSS(6),50)", "PATH=(CSS(0),)", "PATH=()", "PATH=(CSS(),50)", "PATH='50'",
        "PATH=(((50)))", "PATH=(CSS(A),50)", "SHARED=YES", "SHARED,REC", "REC=", "PARTITION=LPA", "PARTITION=()",
        "PARTITION=(LPA,)", "PARTITION=((LPA),(LPB),(LPC))", "PARTITION=(=)", "PARTITION=(=,(LPA))",
        "PARTITION=(0,0,0)", "PARTITION=((LPA),REC,REC)", "PARTITION=(REC,LPA)", "PARTITION=(CSS(5),LPA)",
        "PARTITION=((CSS(0)))", "PATH=5a", "PARTITION=((LPA),LPB,REC),SHARED", "PARTITION=(((LPA)),0)", "PARTITION",
        "PATH=(CSS(0),50,)", "PATH=((CSS(0),50),)",
    ),
    "CNTLUNIT": (
        "CUNUMBR=FFFF", "CUNUMBR=", "CUNUMBR=10000", "CUNUMBR=(1000)", "CUNUMBR=1G", "PATH=50", "PATH=()", "PATH=(,50)",
        "PATH=((CSS(0)))", "PATH=((CSS(0),50),51)", "PATH=((CSS(6),50))", "UNITADD=((00,0))", "UNITADD=((00,257))",
        "UNITADD=()", "UNITADD=(40,(00,16))", "UNITADD=((00,16,1))", "UNITADD=100", "UNITADD=(00,1A)", "LINK=1A",
        "LINK=((CSS(0),1))", "LINK=(123)", "LINK=(*)", "LINK=(12345)", "CUADD=100", "CUADD=", "CUADD=(1)", "CUADD=0G",
        "PATH", "UNITADD=((00,16),)", "PATH=((CSS(0),50,(51)))", "PATH=((50))", "LINK=((CSS(0),1A),(**))",
    ),
    "IODEVICE": (
        "ADDRESS=", "ADDRESS=(FFFF,2)", "ADDRESS=(1000,0)", "ADDRESS=(1000,4097)", "ADDRESS=10000", "ADDRESS=1G00",
        "ADDRESS=(1000,4,1)", "ADDRESS=()", "ADDRESS=((1000))", "CUNUMBR=", "CUNUMBR=()", "CUNUMBR=FFFF",
        "CUNUMBR=(1,)", "UNITADD=100", "UNITADD=(00)", "UNITADD=", "SCHSET=4", "SCHSET=", "SCHSET=A", "PARTITION=()",
        "PARTITION=(LPA,)", "PARTITION=CSS(0)", "PARTITION=(LPA,1)", "PARTITION=(REC)", "PARTITION=(CSS(6),LPA)",
        "PARTITION='LPA'", "UNITADD=FF,ADDRESS=(1000,2)", "CUNUMBR", "ADDRESS=(1000,1A)", "PARTITION=(=)",
        "PARTITION=**", "PARTITION=(()",
    ),
}
MALFORMED["ONLINE"] = MALFORMED["CHPID"][:10] + ("PARTITION=LPB", "PARTITION=()", "PARTITION=(0)", "CUADD=1", "SHARED")
LEFT_OUT = {
    "RESOURCE": ("PARTITION=((CSS(0,1),(LPA,1)))", "MAXDEV=((CSS(0,1),1))", "MAXDEV=(CSS(00,1,2),1)"),
    "CHPID": ("PATH=(CSS(0),50,51)", "PATH=(50,51)", "PATH=(CSS(0,1),50)", "NOTPART=(LPA)", "NOTPART",
              "PATH=((CSS(0),5,6))"),
    "CNTLUNIT": ("PATH=((CSS(0,1),50))", "LINK=((CSS(1,2),1A))", "CUADD=CSS(0,1)", "UNITADD=(CSS(CSS(0,1)),1)"),
    "IODEVICE": ("NOTPART=(LPA)", "SCHSET=(1)", "SCHSET=((CSS(0),1))", "PARTITION=(CSS(0,1),LPA)",
                 "CUNUMBR=(CSS(0,1))"),
}
LEFT_OUT["ONLINE"] = ("PATH=(CSS(0),50,51)", "PARTITION=(CSS(0,1))", "PATH=(CSS(0,1),50)")
UNMATCHED = ("(", ")", "'", "((", "')", "'(')(")


def with_operand(words, text):
    """A statement with this operand in place of the one of its keyword, or behind the others."""
    keyword = text.split("=", 1)[0]
    kept = [operand for operand in words.operands if operand.split("=", 1)[0] != keyword]
    return words._replace(operands=(*kept, text))


def unknown_operation(dice, words):
    """S1."""
    return words._replace(operation=dice.choice(WRONG_OPERATIONS))


def keyword_twice(dice, words):
    """S2, or S4 of a bare word that isn't refused."""
    operands = [operand for operand in words.operands if "=" in operand]
    if not operands:
        return words
    again = dice.choice(operands)
    other = again.split("=", 1)[0] + "=00"
    return words._replace(operands=(*words.operands, dice.choice((again, other))))


def required_missing(dice, words):
    """S3."""
    keyword = REQUIRED.get(words.operation)
    kept = tuple(operand for operand in words.operands if operand.split("=", 1)[0] != keyword)
    if dice.random() < 0.2 and keyword:
        kept = (keyword, *kept)
    return words._replace(operands=kept)


def malformed_value(dice, words):
    """S4."""
    texts = MALFORMED.get(words.operation) or MALFORMED["ID"]
    if dice.random() < 0.15:
        texts = MALFORMED["ID"]
    return with_operand(words, dice.choice(texts))


def left_out_form(dice, words):
    """S5."""
    texts = LEFT_OUT.get(words.operation)
    return with_operand(words, dice.choice(texts)) if texts else words


def unmatched(dice, words):
    """S6."""
    text, wrong = words.text(), dice.choice(UNMATCHED)
    place = dice.randint(0, len(text))
    if dice.random() < 0.5 and any(letter in "()'" for letter in text):
        place = dice.choice([place for place, letter in enumerate(text) if letter in "()'"])
        return words._replace(operands=(text[:place] + text[place + 1 :],))
    return words._replace(operands=(text[:place] + wrong + text[place:],))


OF_WORDS = (unknown_operation, keyword_twice, required_missing, malformed_value, malformed_value, left_out_form,
            unmatched)


def with_fault(dice, statements):
    """The statements of a deck with a fault in one of them, or one more (S7, S8), or one more fault."""
    statements = list(statements) or [Words("", "ID", ())]
    for _ in range(dice.choice((1, 1, 1, 2))):
        place = dice.randrange(len(statements))
        if dice.random() < 0.2:
            statements.insert(dice.randint(0, len(statements)), statements[place])
        else:
            statements[place] = dice.choice(OF_WORDS)(dice, statements[place])
    return statements
