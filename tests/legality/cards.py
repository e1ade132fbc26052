"""From bytes to the statements of a deck: lines, cards, continuations."""
from typing import NamedTuple

FIRST_TEXT, LAST_TEXT = 15, 71  # a continuation's text, as a slice of its columns


class Fault(Exception):
    """A refusal of a text: its number, and the line where it stands."""

    def __init__(self, rule, line):
        super().__init__(rule, line)
        self.rule, self.line = rule, line

    def text(self):
        return f"refused {self.rule} line {self.line}"


class Joined(NamedTuple):
    """A statement on all of its cards: name field, operation, operand part, and the line of its first card."""

    name: str
    operation: str
    operands: str
    line: int


def lines_of(data):
    """The lines of a file, without their ends, each at most 80 printable bytes (L1, L2)."""
    pieces = data.split(b"\n")
    unended = pieces.pop()
    lines = [piece[:-1] if piece.endswith(b"\r") else piece for piece in pieces]
    if unended:
        lines.append(unended)
    for number, line in enumerate(lines, 1):
        if any(not 0x20 <= byte <= 0x7E for byte in line):
            raise Fault("L1", number)
        if len(line) > 80:
            raise Fault("L2", number)
    return [line.decode("ascii") for line in lines]


def cards_of(lines):
    """Columns 1 to 72 of each line that is neither blank nor a comment, with its number."""
    cards = [(line[:72].ljust(72), number) for number, line in enumerate(lines, 1)]
    return [(card, number) for card, number in cards if card.strip(" ") and not card.startswith("*")]


def groups_of(cards):
    """The cards of each statement (L3, L4)."""
    groups, is_continued = [], False
    for card, number in cards:
        if is_continued:
            if card[:FIRST_TEXT].strip(" "):
                raise Fault("L3", number)
            groups[-1].append((card, number))
        else:
            groups.append([(card, number)])
        is_continued = card[71] != " "
    if is_continued:
        raise Fault("L4", cards[-1][1])
    return groups


class Part:
    """An operand part that grows card by card."""

    def __init__(self):
        self.text, self.in_quotes, self.ran_through = "", False, False

    def take(self, text):
        """Takes a card's text up to the first blank outside quotes."""
        for place, letter in enumerate(text):
            if letter == " " and not self.in_quotes:
                self.text, self.ran_through = self.text + text[:place], False
                return
            if letter == "'":
                self.in_quotes = not self.in_quotes
        self.text, self.ran_through = self.text + text, bool(text)

    def goes_on(self, card):
        """What of a continuation belongs to the part, or nothing where the rest is remark."""
        text = card[FIRST_TEXT:LAST_TEXT]
        if self.ran_through and (self.in_quotes or not self.text.endswith(",")):
            return text
        if not self.text or (self.text.endswith(",") and not self.in_quotes):
            return text.lstrip(" ")
        return None


def joined(group):
    """The statement of some cards."""
    text, line = group[0][0][:LAST_TEXT], group[0][1]
    name = text.split(" ", 1)[0]
    rest = text[len(name) :].lstrip(" ")
    operation = rest.split(" ", 1)[0]
    part = Part()
    part.take(rest[len(operation) :].lstrip(" "))
    for card, _ in group[1:]:
        more = part.goes_on(card)
        if more is None:
            break
        if more:
            part.take(more)
    return Joined(name, operation, part.text, line)


def statements_of(data):
    """The statements of a deck's bytes, or its first fault of L1 to L4."""
    return [joined(group) for group in groups_of(cards_of(lines_of(data)))]
