"""Statements laid on cards in every way that they may be: names, blanks, continuations, remarks, comments."""
from typing import NamedTuple

LAST, FIRST = 71, 16  # the last column of text, and the first of a continuation
REMARK = "REMARKS (MAY HAVE, ALL ='S "
LETTERS = "ABCDEFGHIJKLMNOPQRSTUVWXYZ0123456789 ,.()='*"


class Words(NamedTuple):
    """A statement before it is laid on cards: its name, its operation and its operands."""

    name: str
    operation: str
    operands: tuple

    def text(self):
        return ",".join(self.operands)


class Manner(NamedTuple):
    """How often a deck has what may be anywhere in it."""

    remark: float = 0.0
    comment: float = 0.0
    numbers: float = 0.0
    cut: float = 0.0
    gap: float = 0.0
    end: str = "\n"


PLAIN = Manner()


def drawn_manner(dice):
    """Half of all decks are plain."""
    if dice.random() < 0.5:
        return PLAIN
    chances = [dice.choice((0, 0.1, 0.5)) for _ in range(5)]
    return Manner(*chances, dice.choice(("\n", "\n", "\n", "\r\n")))


def gap(dice, manner):
    return " " * (dice.randint(1, 9) if dice.random() < manner.gap else 1)


def commas(text, in_quotes):
    """The places of the commas outside quotes, whatever parentheses they are in."""
    places = []
    for place, letter in enumerate(text):
        if letter == "'":
            in_quotes = not in_quotes
        elif letter == "," and not in_quotes:
            places.append(place)
    return places


def remark(dice, room):
    """Any printable text of one to some columns, the first of which isn't blank."""
    length = dice.randint(1, max(1, min(room, 30)))
    return "R" + "".join(dice.choices(LETTERS, k=length - 1)) if dice.random() < 0.3 else (REMARK * 2)[:length]


def marked(dice, line, manner):
    """A card that is continued: column 72, and now and then columns 73 to 80."""
    card = line.ljust(LAST) + (dice.choice("X*-,9(") if dice.random() < 0.3 else "X")
    return card + numbered(dice, manner)


def numbered(dice, manner):
    if dice.random() >= manner.numbers:
        return ""
    return "".join(dice.choices(LETTERS + "X", k=dice.randint(1, 8)))


def between(dice, manner):
    """Comments and blank lines, which may be anywhere, also between continuations."""
    lines = []
    while dice.random() < manner.comment and len(lines) < 3:
        comment = ("*" + remark(dice, 60)).ljust(dice.choice((0, 71))) + dice.choice(("", "X"))
        lines.append(dice.choice((comment, "* COMMENT", "*", "", " " * dice.randint(1, 72), " " * 72 + "12345678")))
    return lines


class Sheet:
    """Lays one statement on cards."""

    def __init__(self, dice, manner):
        self.dice, self.manner, self.lines, self.line = dice, manner, [], ""

    def turn(self, indent):
        """Goes to a continuation."""
        self.lines.append(marked(self.dice, self.line, self.manner))
        self.lines += between(self.dice, self.manner)
        self.line = " " * (FIRST - 1 + indent)

    def put(self, text):
        """Puts the operands down, cut behind commas or after column 71."""
        in_quotes = False
        while text:
            room, indent = LAST - len(self.line), 0
            places = [place + 1 for place in commas(text, in_quotes) if place < room and place + 1 < len(text)]
            if len(text) <= room and not (places and self.dice.random() < self.manner.cut):
                self.line += text
                return
            length = room
            if places and (len(text) <= room or self.dice.random() < 0.7):
                length, indent = self.dice.choice(places), self.dice.choice((0, 0, self.dice.randrange(20)))
            piece, text = text[:length], text[length:]
            in_quotes ^= piece.count("'") % 2 == 1
            self.line += piece
            if length < room - 2 and self.dice.random() < self.manner.remark:
                self.line += " " + remark(self.dice, room - length - 1)
            self.turn(indent)

    def finish(self):
        """The last card, with a remark at times, which may be continued."""
        if len(self.line) < LAST - 2 and self.dice.random() < self.manner.remark:
            self.line += " " + remark(self.dice, LAST - len(self.line) - 1)
            if self.dice.random() < 0.3:
                self.turn(0)
                self.line += remark(self.dice, 50)
        card = self.line
        number = numbered(self.dice, self.manner)
        if number and self.dice.random() < 0.5:
            card = card.ljust(LAST + 1) + number
        self.lines.append(card)


def laid(dice, words, manner=PLAIN):
    """The cards of a statement."""
    sheet = Sheet(dice, manner)
    operands = words.text()
    wide = manner.gap and dice.random() < manner.gap
    head = words.name + gap(dice, manner) if wide or len(words.name) >= 9 else words.name.ljust(9)
    sheet.line = head + words.operation
    if operands and len(sheet.line) < 60:
        if dice.random() < manner.cut * 0.3:
            sheet.turn(dice.choice((0, dice.randrange(20))))
        else:
            sheet.line += gap(dice, manner)
        sheet.put(operands)
        sheet.finish()
    else:
        sheet.lines.append(sheet.line)
    return sheet.lines


def deck_of(dice, statements, manner=PLAIN):
    """The bytes of a deck."""
    lines = []
    for words in statements:
        lines += between(dice, manner) + laid(dice, words, manner)
    lines += between(dice, manner)
    text = "".join(line + manner.end for line in lines)
    if manner is not PLAIN and dice.random() < 0.1:
        text = text.removesuffix("\n").removesuffix("\r")
    return text.encode("ascii")
