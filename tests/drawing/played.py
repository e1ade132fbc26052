"""What is right of a script: some order of each round's lines gives the answers, and the table follows."""
from legality.cards import Fault
from legality.changes import tree_of
from legality.histories import History
from legality.printed import table_of
from legality.scripts import rounds_of
from legality.search import Illegal, reached, round_of, split_output
from legality.trees import size_of

from .cases import LARGEST_HEAP
from .places import Place
from .readings import read_deck

MOST_NODES = 40  # the default heap has room for more


def try_script(case, deck_data, change_data, script_data):
    """Tries a script with a deck and its change decks."""
    names = [f"change{place}" for place in range(1, len(change_data) + 1)]
    for name, data in zip(("deck", "script", *names), (deck_data, script_data, *change_data)):
        case.put(name, data)
    deck = read_deck(deck_data)
    refusal, at, trees, rounds = deck.refusal, "deck", [], ()
    if refusal is None:
        try:
            for at, data in zip(names, change_data):
                trees.append(tree_of(data))
            at = "script"
            rounds = rounds_of(script_data, len(trees))
        except Fault as fault:
            refusal = fault.text()
    is_large = any(size_of(tree) > MOST_NODES for tree in trees) or (refusal or "").startswith("refused C2")
    heap = LARGEST_HEAP if is_large else ()
    is_short = refusal is None and case.dice.random() < 0.05
    if is_short:
        heap = ("--heap", str(case.dice.choice((16, case.dice.randrange(16, 500), case.dice.randrange(500, 9000)))))
    answer = case.run("run", "deck", "script", *names, *heap)
    text = answer.out.decode("latin-1")
    if refusal is not None:
        case.agree("script refused", text, refusal + "\n")
        if at != "deck":
            case.place(answer, at, Place(refusal.split(" ")[1], int(refusal.split(" ")[3])))
        return
    if is_short and text == "refused M1\n":
        return
    wrong = fault_of_output(deck.state, trees, rounds, text, is_short)
    case.need("answers in a small heap" if is_short else "answers", not wrong, f"{wrong}\n{text}")


def fault_of_output(opening, trees, rounds, text, is_short):
    """Why no order of the lines gives an output, or nothing. Where memory is short, a call may be answered M1."""
    try:
        answers, table = split_output(text, rounds)
    except Illegal as illegal:
        return str(illegal)
    start = History(opening)
    histories = {start.key(): start}
    for lines in rounds:
        result = reached(round_of(lines, answers), histories, trees, is_short=is_short)
        if not result.ends:
            return f"no order of the lines {lines[0].number} to {lines[-1].number} gives these answers"
        histories = result.ends
    if any(table == table_of(history.state.views) for history in histories.values()):
        return ""
    return "the table isn't that of a state to which these answers lead"
