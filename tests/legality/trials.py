"""Trials of the reading itself: of outputs that are right it must say so, and of outputs that were changed it must
not."""
import os
import random
import re

from .drawn import drawn
from .letter import Letter
from .playing import case_of, read_case
from .search import Illegal, TooMany, is_found, outputs_of, played

SCRIPT_MESSAGE = re.compile(r"```script((?: \S+)*)\n(.*?)```\n`((\d+ )?refused .*?)`\n", re.S)
MOST_EXCHANGES = 20  # tried of one output
MOST_WAYS = 500  # to go through a round


def read(*names):
    with open(os.path.join(*names), "rb") as file:
        return file.read()


def is_accepted(case, text):
    try:
        case.judge(text)
        return True
    except Illegal:
        return False


def all_outputs(case):
    return outputs_of(case.opening, case.trees, case.rounds, MOST_WAYS)


def exchanged(case, text):
    """The output with the answers to two lines of one round exchanged, for each two that differ."""
    printed = text.split("\n")
    places = {line.number: place for place, line in enumerate(it for lines in case.rounds for it in lines)}
    for lines in case.rounds:
        for at, one in enumerate(lines):
            for other in lines[at + 1 :]:
                first, second = (printed[places[it.number]].split(" ", 1)[1] for it in (one, other))
                if first != second:
                    swapped = list(printed)
                    swapped[places[one.number]] = f"{one.number} {second}"
                    swapped[places[other.number]] = f"{other.number} {first}"
                    yield "\n".join(swapped)


def changed_tables(case, text):
    """The output with a table, a count, or lines that aren't its own."""
    count = sum(len(lines) for lines in case.rounds)
    lines = text.splitlines()
    answers, trace, table = lines[:count], lines[count], lines[count + 1 :]
    digit = {"0": "8"}
    yield answers, f"trace {count + 1}", table
    yield answers[1:], trace, table
    yield [answers[0].replace(" ", " x", 1)] + answers[1:], trace, table
    yield answers, trace, table[:-1]
    yield answers, trace, table + [table[-1]]
    if len(table) > 1:
        for place in (4, 11, 16, 21, 25):
            row = table[-1]
            yield answers, trace, table[:-1] + [row[:place] + digit.get(row[place], "0") + row[place + 1 :]]


class Trials:
    """What passed and what failed, and of the exchanges how many were refused."""

    def __init__(self):
        self.passed = self.failed = self.refused = self.legal = self.open = 0

    def take(self, is_right, what):
        self.passed, self.failed = self.passed + bool(is_right), self.failed + (not is_right)
        if not is_right:
            print(what)

    def try_output(self, name, case, text, dice):
        """An output that is right, and what becomes of it."""
        known = {}
        self.take(is_accepted(case, text), f"{name}: an output isn't accepted:\n{text}")
        self.try_other(f"{name}: as it is", case, text, known)
        for answers, trace, table in changed_tables(case, text):
            other = "\n".join(answers + [trace] + table) + "\n"
            right = not is_accepted(case, other) or self.is_right(case, other, known)
            self.take(right, f"{name}: accepted, though changed:\n{other}")
        pairs = list(exchanged(case, text))
        for other in dice.sample(pairs, min(len(pairs), MOST_EXCHANGES)):
            accepted = self.try_other(f"{name}: with two answers exchanged", case, other, known)
            self.legal, self.refused = self.legal + accepted, self.refused + (not accepted)

    def is_right(self, case, text, known):
        return is_found(case.opening, case.trees, case.rounds, text, MOST_WAYS, known)

    def try_other(self, name, case, text, known):
        """An output is accepted just where some order of the lines gives it, among all orders."""
        accepted = is_accepted(case, text)
        try:
            right = accepted == self.is_right(case, text, known)
            self.take(right, f"{name}: {'accepted' if accepted else 'refused'}:\n{text}")
        except TooMany:
            self.open += 1
        return accepted


def examples(top):
    """The scripts of examples/, with the outputs that stand beside them."""
    folder = os.path.join(top, "examples")
    for name in sorted(os.listdir(folder)):
        if name.endswith(".script"):
            script = read(folder, name)
            words = script.decode().splitlines()[-1].split()[2:]
            case = read_case(read(folder, "base.deck"), script, tuple(read(folder, word) for word in words))
            base = name.removesuffix(".script") + ".ran"
            ran = [it for it in sorted(os.listdir(folder)) if it == base or it.startswith(base + "-")]
            yield name, case, [read(folder, it).decode() for it in ran]


def try_examples(top, trials, dice):
    for name, case, outputs in examples(top):
        trials.take(outputs == all_outputs(case), f"{name}: these aren't all outputs")
        for text in outputs:
            trials.try_output(name, case, text, dice)


def try_messages(top, trials):
    """The scripts of docs/MESSAGES.md: the line below each is all that is printed, or one of the answers."""
    folder = os.path.join(top, "examples")
    found = SCRIPT_MESSAGE.findall(read(top, "docs", "MESSAGES.md").decode())
    trials.take(found, "docs/MESSAGES.md has no scripts")
    for words, script, line, number in found:
        changes = tuple(read(folder, word) for word in words.split())
        case = read_case(read(folder, "base.deck"), script.encode(), changes)
        if number:
            right = case.refusal is None and all(line in text.splitlines() for text in all_outputs(case))
        else:
            right = case.refusal == line + "\n"
        trials.take(right, f"docs/MESSAGES.md: {line}")


def try_drawn(number, seed, trials):
    """A drawn script, played in a drawn order, and by the letter in the same."""
    dice = random.Random(f"self-{seed}-{number}")
    case = case_of(drawn(dice))
    turns = []

    def choose(actors):
        turns.append(dice.choice(actors))
        return turns[-1]

    text = played(case.opening, case.trees, case.rounds, choose)
    trials.try_output(f"drawn {number}", case, text, dice)
    answers = text.split("trace ")[0]
    trials.take(by_the_letter(case, iter(turns)) == answers, f"drawn {number}: by the letter the answers differ")


def by_the_letter(case, turns):
    """The answers of a history by the letter, in the order of the lines, where the actors take these turns."""
    letter, answers = Letter(case.opening, case.trees), {}
    for lines in case.rounds:
        left = list(lines)
        while left:
            actor = next(turns)
            line = next(it for it in left if it.actor == actor)
            left.remove(line)
            answers[line.number] = letter.call(line)
    return "".join(f"{number} {answers[number]}\n" for number in sorted(answers))


def tried(top, scripts, seed):
    """How many trials passed, and how many failed."""
    trials, dice = Trials(), random.Random(seed)
    try_examples(top, trials, dice)
    try_messages(top, trials)
    for number in range(scripts):
        try_drawn(number, seed, trials)
    trials.take(trials.refused, "no exchange of two answers was refused")
    print(f"two answers exchanged: {trials.refused:,} were refused, {trials.legal:,} are legal too")
    print(f"every order was tried but of {trials.open:,} outputs, which have too many")
    return trials.passed, trials.failed
