"""What is right of one deck: what `check`, `show`, `write` and the other commands answer to it."""
from .canonical import written
from .filters import try_filter
from .listed import try_list
from .listed_devices import try_list_of_devices
from .places import all_places, place_in_deck, said_places, with_first
from .readings import read_deck, records_of
from .varied import try_vary

OTHERS = ("show", "list", "write", "vary", "apply", "run", "diff", "diff new", "check --all")
EMPTY = b""


def try_deck(case, data, machine=None):
    """Tries a deck of these bytes, which is the text of a machine, if one is given."""
    case.put("deck", data)
    deck = read_deck(data)
    check = case.run("check", "deck")
    case.tally.decks["refused" if deck.refusal else "accepted"] += 1
    case.agree("check as read", check.line(), deck.line())
    if machine is not None:
        case.agree("check as drawn", check.line(), f"accepted {machine.count()}")
    if deck.refusal:
        case.place(check, "deck", place_in_deck(data, deck.refusal))
    if not case.is_check_alone:
        try_others(case, check, deck, machine)
    return deck


def try_others(case, check, deck, machine):
    """What the other commands answer to a deck that `check` answered."""
    if deck.refusal:
        try_refused(case, check, deck)
    else:
        try_accepted(case, check, deck, machine)


def try_refused(case, check, deck):
    """Every command prints the first refusal of a deck, and nothing else; `check --all` begins with it."""
    for command in case.dice.sample(OTHERS, case.dice.choice((1, 1, 2))):
        if command == "check --all":
            try_all(case, check, deck)
            continue
        answer = run_on_deck(case, command)
        case.agree("first refusal", answer.out, check.out)


def try_all(case, check, deck):
    """`check --all` begins with the line of `check`, and tells every breach."""
    answer = case.run("check", "deck", "--all")
    lines = answer.out.decode("latin-1").splitlines()
    case.agree("all begins", lines[:1], [check.line()])
    case.agree("all breaches", lines, deck.breaches())
    if deck.state is None and "--quiet" not in answer.words:
        data = case.files["deck"]
        places = with_first(place_in_deck(data, deck.refusal), all_places(data))
        name = "standard input" if answer.source else "deck"
        case.agree("all faults", said_places(answer.said), [(name, place) for place in places])


def run_on_deck(case, command):
    """A command that has to read the deck first."""
    if command in ("show", "write"):
        return case.run(command, "deck")
    if command == "list":
        return case.run("list", case.dice.choice(("images", "paths", "units", "devices")), "deck")
    if command == "vary":
        return case.run("vary", "deck", "offline", "50")
    case.put("other", EMPTY)
    words = {"apply": ("apply", "deck", "other"), "run": ("run", "deck", "other"), "diff": ("diff", "deck", "other")}
    return case.run(*words.get(command, ("diff", "other", "deck")))


def try_accepted(case, check, deck, machine):
    """A deck that is accepted: its table, its canonical text, and what is read of that."""
    show = case.run("show", "deck")
    table = show.out.decode("latin-1").splitlines()
    case.agree("show as read", table, deck.table())
    text = case.run("write", "deck").out
    if machine is not None:
        case.agree("write as drawn", text.decode("latin-1"), written(machine))
    case.need("write as read", records_of(text) == deck.state.records, "its records aren't those of the deck")
    case.put("written", text)
    case.agree("write of write", case.run("write", "written").out, text)
    command = case.dice.choice(("check", "show"))
    again = case.run(command, "written").out
    case.agree("written means the same", again, check.out if command == "check" else show.out)
    if case.dice.random() < 0.2:
        try_all(case, check, deck)
    if case.dice.random() < 0.4:
        try_vary(case, deck.state.records)
    if case.dice.random() < 0.3:
        try_list(case, deck.state.records)
    if case.dice.random() < 0.3:
        try_list_of_devices(case, deck.state)
    if case.dice.random() < 0.4:
        try_filter(case, ("show", "deck"), table[:1], table[1:], deck.state.records)


def try_large(case, data, machine):
    """A deck that is too large to be read twice: its count of records, and its canonical text."""
    case.put("deck", data)
    case.agree("check as drawn", case.run("check", "deck").line(), f"accepted {machine.count()}")
    text = case.run("write", "deck").out
    case.agree("write as drawn", text.decode("latin-1"), written(machine))
    case.put("written", text)
    case.agree("written means the same", case.run("show", "written").out, case.run("show", "deck").out)
