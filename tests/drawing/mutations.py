"""Texts that are spoiled: bytes, lines, words, columns, continuations and quotes; and bytes at random."""
import re

BYTES = bytes(range(256))
LIKELY = b" ,()='*X0123456789ABCDEF\n\r\t\x00\x7f\xe4CSSLPA\x80\xff"
WORDS = (
    b"PATH", b"CSS(0)", b"CSS(1)", b"(CSS(0,1),", b"SHARED", b"REC", b"PARTITION=", b"0", b"=", b"(=)", b",,", b"()",
    b"**", b"FFFF", b"UNITADD=", b"CUNUMBR=", b"NOTPART=", b"SCHSET=1", b"'A B'", b"CHPID ", b"ONLINE ", b"END",
    b"GROUP", b"ADD ", b"LPA", b"MODIFY ", b"DELETE ", b"65536", b"256", b"257", b"4096", b"4097", b" ",
)
OPERAND = re.compile(rb"[A-Z]+(?==)")
NUMBER = re.compile(rb"[0-9A-F]+")
NUMBERS = (b"0", b"00", b"1", b"5", b"6", b"7F", b"FF", b"100", b"256", b"257", b"FFFE", b"FFFF", b"10000", b"65535",
           b"65536",
           b"4096", b"4097", b"000000000000000000000001", b"99999999999999999999", b"G", b"a")
KEYWORDS = (b"PATH", b"PARTITION", b"MAXDEV", b"CUNUMBR", b"UNITADD", b"LINK", b"CUADD", b"ADDRESS", b"SCHSET",
            b"NOTPART", b"TYPE")


def byte_changed(dice, data):
    """A byte becomes another, or goes, or one comes."""
    place = dice.randrange(len(data))
    byte = bytes([dice.choice(LIKELY if dice.random() < 0.8 else BYTES)])
    return data[:place] + dice.choice((byte, byte, b"", byte + data[place : place + 1])) + data[place + 1 :]


def word_put(dice, data):
    place = dice.randint(0, len(data))
    return data[:place] + dice.choice(WORDS) + data[place:]


def lines_moved(dice, data):
    """A line is dropped, doubled, exchanged with another, or cut."""
    lines = data.split(b"\n")
    one, other = dice.randrange(len(lines)), dice.randrange(len(lines))
    kind = dice.choice(("drop", "double", "swap", "cut", "split"))
    if kind == "drop":
        del lines[one]
    elif kind == "double":
        lines.insert(other, lines[one])
    elif kind == "swap":
        lines[one], lines[other] = lines[other], lines[one]
    else:
        place = dice.randint(0, len(lines[one]))
        rest = [] if kind == "cut" else [lines[one][place:]]
        lines[one : one + 1] = [lines[one][:place]] + rest
    return b"\n".join(lines)


def end_cut(dice, data):
    return data[: dice.randrange(len(data))]


def replaced(dice, data, pattern, others):
    """One place that a pattern finds has another text."""
    places = [found.span() for found in pattern.finditer(data)]
    if not places:
        return data
    start, end = dice.choice(places)
    return data[:start] + dice.choice(others) + data[end:]


def operand_renamed(dice, data):
    return replaced(dice, data, OPERAND, KEYWORDS)


def number_changed(dice, data):
    """A number out of its range, or that of another place of the text."""
    others = NUMBER.findall(data)
    return replaced(dice, data, NUMBER, NUMBERS if dice.random() < 0.5 or not others else others)


def columns_shifted(dice, data):
    """A line goes some columns to the right or to the left."""
    lines = data.split(b"\n")
    place = dice.randrange(len(lines))
    count = dice.randint(1, 16)
    if dice.random() < 0.5:
        lines[place] = b" " * count + lines[place]
    else:
        lines[place] = lines[place][min(count, len(lines[place]) - len(lines[place].lstrip(b" "))) :]
    return b"\n".join(lines)


def continuation_broken(dice, data):
    """Column 72 is cleared or marked, or a card of one ends elsewhere."""
    lines = data.split(b"\n")
    marked = [place for place, line in enumerate(lines) if line[71:72].strip(b" ")]
    place = dice.choice(marked) if marked and dice.random() < 0.8 else dice.randrange(len(lines))
    line = lines[place].ljust(72)
    kind = dice.choice(("clear", "mark", "earlier", "later"))
    if kind == "clear":
        line = line[:71] + b" " + line[72:]
    elif kind == "mark":
        line = line[:71] + b"X" + line[72:]
    elif kind == "earlier":
        line = line[:70] + line[71:]
    else:
        line = line[:71] + b" " + line[71:]
    lines[place] = line
    return b"\n".join(lines)


def quotes_put(dice, data):
    place = dice.randint(0, len(data))
    other = dice.randint(0, len(data))
    data = data[:place] + b"'" + data[place:]
    return data[:other] + b"'" + data[other:] if dice.random() < 0.5 else data


def lines_many(dice, data):
    """Many lines that say nothing, before one."""
    lines = data.split(b"\n")
    place = dice.randrange(len(lines))
    lines[place:place] = [dice.choice((b"", b"* COMMENT", b" " * 80))] * dice.choice((10, 1000))
    return b"\n".join(lines)


MUTATIONS = (
    byte_changed, byte_changed, word_put, lines_moved, lines_moved, end_cut, operand_renamed, number_changed,
    number_changed,
    columns_shifted, lines_many, continuation_broken, quotes_put,
)


def spoiled(dice, data):
    """A text with one mutation, or some."""
    for _ in range(dice.choice((1, 1, 1, 2, 4))):
        if data:
            data = dice.choice(MUTATIONS)(dice, data)
    return data


def at_random(dice):
    """Bytes at random: any, printable ones, or pieces of decks."""
    count = dice.choice((0, 1, 10, 100, 2000))
    kind = dice.choice(("any", "printable", "pieces"))
    if kind == "any":
        return dice.randbytes(count)
    if kind == "printable":
        return bytes(dice.choices(b" ABCDEFXYZ0129,()='*\n", k=count))
    pieces = WORDS + NUMBERS + KEYWORDS + (b"\n", b"\n         ", b" " * 15, b"X\n")
    return b"         " + b"".join(dice.choices(pieces, k=count // 10))
