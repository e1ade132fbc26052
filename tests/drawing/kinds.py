"""The kinds of cases, and how often each is drawn."""
import random
import traceback

from legality.histories import forget

from . import applied, decks, differences, odd, played, scripts, trees
from .breaches import break_rule, limit_too_low
from .cards import deck_of, drawn_manner
from .edits import drawn_edits
from .faults import with_fault
from .machines import drawn_machine, large_machine, weighted
from .mutations import at_random, spoiled
from .readings import read_deck
from .statements import statements_of
from .words import try_words


def text_of(dice, machine):
    """The deck of a machine in drawn forms."""
    return deck_of(dice, statements_of(dice, machine), drawn_manner(dice))


def legal_deck(case):
    """A machine that keeps the rules, in drawn forms: it is accepted, and `write` prints it as it was drawn."""
    machine = drawn_machine(case.dice)
    decks.try_deck(case, text_of(case.dice, machine), machine)


def large_deck(case):
    """A machine of thousands of devices, of which only `check` and `write` are judged."""
    machine = large_machine(case.dice)
    decks.try_large(case, text_of(case.dice, machine), machine)


def breaching_deck(case):
    """A machine that breaks a rule."""
    machine = drawn_machine(case.dice)
    break_rule(case.dice, machine)
    decks.try_deck(case, text_of(case.dice, machine))


def faulty_deck(case):
    """A deck with a fault in a statement."""
    statements = with_fault(case.dice, statements_of(case.dice, drawn_machine(case.dice)))
    decks.try_deck(case, deck_of(case.dice, statements, drawn_manner(case.dice)))


def odd_deck(case):
    """A small deck with odd values in one statement."""
    decks.try_deck(case, deck_of(case.dice, odd.odd_deck(case.dice)))


def odd_change(case):
    """A small deck, and a change deck with odd values in one statement."""
    deck, change = odd.base(), odd.odd_change(case.dice)
    applied.try_change(case, deck_of(case.dice, deck), deck_of(case.dice, change))


def spoiled_deck(case):
    """A deck whose bytes or lines are spoiled."""
    decks.try_deck(case, spoiled(case.dice, text_of(case.dice, drawn_machine(case.dice))))


def random_deck(case):
    """Bytes at random."""
    decks.try_deck(case, at_random(case.dice))


def drawn_change(case, kind):
    """A machine, and a change deck of some kind for it."""
    machine = drawn_machine(case.dice)
    data = text_of(case.dice, machine)
    return data, trees.change_deck(case.dice, kind(case.dice, machine))


def right_change(case):
    """A change that keeps the rules, mostly. Where it has no choice, it leads to the machine that was drawn."""
    machine = drawn_machine(case.dice)
    data = text_of(case.dice, machine)
    statements = trees.right_change(case.dice, machine)
    has_choice = any(words.operation == "CHOOSE" for words in statements)
    applied.try_change(case, data, trees.change_deck(case.dice, statements), None if has_choice else machine)


def wrong_change(case):
    """A change with a statement that is wrong."""
    applied.try_change(case, *drawn_change(case, trees.wrong_change))


def spoiled_change(case):
    """A change deck whose bytes or lines are spoiled."""
    deck, change = drawn_change(case, trees.right_change)
    applied.try_change(case, deck, spoiled(case.dice, change))


def deep_change(case):
    applied.try_change(case, *drawn_change(case, trees.deep_change))


def large_change(case):
    applied.try_change(case, *drawn_change(case, trees.large_change))


def pair(case):
    """Two decks: an edited one, one with other limits, or another machine; now and then one is refused."""
    machine = drawn_machine(case.dice)
    data, other = text_of(case.dice, machine), machine.twin()
    if case.dice.random() < 0.25:
        other = drawn_machine(case.dice)
    else:
        drawn_edits(case.dice, other)
    if case.dice.random() < 0.1:
        case.dice.choice((break_rule, limit_too_low))(case.dice, other)
    texts = [data, text_of(case.dice, other)]
    differences.try_pair(case, *texts[:: case.dice.choice((1, 1, -1))])


def drawn_run(case):
    """A deck, change decks, and the rounds of a script."""
    machine = drawn_machine(case.dice)
    data = text_of(case.dice, machine)
    known = sorted(read_deck(data).state.views)
    changes = []
    for _ in range(weighted(case.dice, {0: 5, 1: 45, 2: 30, 3: 20})):
        kind = trees.right_change if case.dice.random() < 0.9 else trees.wrong_change
        changes.append(trees.change_deck(case.dice, kind(case.dice, machine.twin())))
    return data, changes, scripts.drawn_rounds(case.dice, hot(case.dice, known), len(changes))


def hot(dice, known):
    """A few subchannels, so that lines meet there."""
    return dice.sample(known, min(len(known), dice.choice((1, 3, 6))))


def right_script(case):
    data, changes, rounds = drawn_run(case)
    played.try_script(case, data, changes, scripts.script_text(case.dice, rounds))


def faulty_script(case):
    data, changes, rounds = drawn_run(case)
    played.try_script(case, data, changes, scripts.script_text(case.dice, scripts.with_fault(case.dice, rounds)))


def spoiled_script(case):
    data, changes, rounds = drawn_run(case)
    played.try_script(case, data, changes, spoiled(case.dice, scripts.script_text(case.dice, rounds)))


def words(case):
    try_words(case)


KINDS = {
    legal_deck: 20, breaching_deck: 8, faulty_deck: 8, spoiled_deck: 14, odd_deck: 12, random_deck: 1, large_deck: 0.2,
    right_change: 14, wrong_change: 8, spoiled_change: 4, odd_change: 6, deep_change: 1, large_change: 0.3,
    pair: 8, right_script: 12, faulty_script: 3, spoiled_script: 2, words: 1.5,
}


DECKS = {kind: KINDS[kind] for kind in (legal_deck, breaching_deck, faulty_deck, spoiled_deck, odd_deck, random_deck)}


def play(case):
    """Draws a case of some kind, and tries it."""
    kind = weighted(case.dice, DECKS if case.is_check_alone else KINDS)
    case.tally.kinds[kind.__name__.replace("_", " ")] += 1
    play_kind(case, kind)


def play_kind(case, kind):
    """Draws a case of a kind, and tries it. What the harness can't read is a fault, too."""
    forget()
    try:
        kind(case)
    except Exception:
        case.faults.append(("harness", traceback.format_exc()))


def dice_of(seed, number):
    return random.Random(f"drawn {seed} {number}")
