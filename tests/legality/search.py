"""Is there an order of each round's lines, along each actor in order, in which the answers come just so, and does
the table follow?"""
from typing import NamedTuple

from .histories import History
from .printed import table_of
from .scripts import IMAGES, OPERATORS


# what a call that takes memory may answer where memory is short; it changes nothing then. These refusals need none
NO_MEMORY = "refused M1"
TAKES_MEMORY = ("activate", "begin", "undo", "redo")
WITHOUT_MEMORY = ("refused O1", "refused C1", "refused C2", "refused J1")


class Illegal(Exception):
    """An output that no order of the lines gives, and why."""


class Round(NamedTuple):
    """The lines of a round, of each actor that has one, each with the answer that was printed."""

    queues: tuple

    def actors(self):
        return [queue[0][0].actor for queue in self.queues]


class Reached(NamedTuple):
    """The histories that lead through a round with these answers, whether another answer could have come, and the
    most lines done."""

    ends: dict
    has_other: bool
    most: int


def answered(history, line, trees):
    """The answer to a line, and the history with it."""
    if line.actor in IMAGES:
        return history.stepped(line.command, line.at, line.operands)
    return history.called(line.command, line.at, trees)


def wants_memory(command, answer):
    """Whether a call may want memory that has this answer where memory is there. A redo that is refused wants none."""
    if command == "redo":
        return not answer.startswith("refused")
    return command in TAKES_MEMORY and not answer.startswith(WITHOUT_MEMORY)


def judged_answer(history, line, trees, printed, is_short):
    """The answer that a line may have had here, with the history behind it. Where memory is short and the call wants
    some, `refused M1` is right too."""
    answer, after = answered(history, line, trees)
    if is_short and printed == NO_MEMORY and wants_memory(line.command, answer):
        return NO_MEMORY, history
    return answer, after


def round_of(lines, answers):
    """A round with its answers by the lines' numbers."""
    queues = {}
    for line in lines:
        queues.setdefault(line.actor, []).append((line, answers[line.number]))
    return Round(tuple(tuple(queue) for queue in queues.values()))


def is_between(queues, places, actors):
    """Whether one of some actors has done a line and has one more to do."""
    return any(0 < place < len(queue) for queue, place in zip(queues, places) if queue[0][0].actor in actors)


def reached(round_, starts, trees, kept_apart=None, is_short=False):
    """Goes through a round in every order in which the answers come just so. Where two groups of actors are to be
    kept apart, no line of the first may come between two lines of an actor of the second."""
    queues = round_.queues
    todo = [((0,) * len(queues), history) for history in starts.values()]
    seen = {(places, history.key()) for places, history in todo}
    ends, has_other, most = {}, False, 0
    while todo:
        places, history = todo.pop()
        most = max(most, sum(places))
        if all(place == len(queue) for place, queue in zip(places, queues)):
            ends[history.key()] = history
        for at, queue in enumerate(queues):
            if places[at] == len(queue):
                continue
            line, wanted = queue[places[at]]
            if kept_apart and line.actor in kept_apart[0] and is_between(queues, places, kept_apart[1]):
                continue
            answer, after = judged_answer(history, line, trees, wanted, is_short)
            if answer != wanted:
                has_other = True
                continue
            node = places[:at] + (places[at] + 1,) + places[at + 1 :]
            if (node, after.key()) not in seen:
                seen.add((node, after.key()))
                todo.append((node, after))
    return Reached(ends, has_other, most)


def split_output(text, rounds):
    """The answers by line numbers, and the table; the form of the whole is looked at."""
    if not text.endswith("\n"):
        raise Illegal("the last line has no end")
    printed = text[:-1].split("\n")
    lines = [line for lines in rounds for line in lines]
    answers = {}
    for place, line in enumerate(lines):
        head = f"{line.number} "
        if place >= len(printed) or not printed[place].startswith(head):
            raise Illegal(f"no answer to line {line.number} at its place")
        answers[line.number] = printed[place][len(head) :]
    if printed[len(lines) : len(lines) + 1] != [f"trace {len(lines)}"]:
        raise Illegal(f"trace {len(lines)} isn't there")
    return answers, printed[len(lines) + 1 :]


class Looked(NamedTuple):
    """What was found of a round: whether another output was possible, and whether every order that gives the
    answers has a line of an image between two lines of an operator, or the other way round."""

    actors: int
    answers: tuple
    has_other: bool
    image_between: bool
    operator_between: bool


def looked_at(round_, starts, trees, result):
    is_mixed = {actor in IMAGES for actor in round_.actors()} == {True, False}
    both = ((IMAGES, OPERATORS), (OPERATORS, IMAGES))
    image, operator = (is_mixed and not reached(round_, starts, trees, apart).ends for apart in both)
    answers = tuple(answer for queue in round_.queues for _, answer in queue)
    return Looked(len(round_.queues), answers, result.has_other, image, operator)


def judged(opening, trees, rounds, text, is_short=False):
    """What was found of each round of an output, or why it is illegal. Where memory is short, nothing is said of the
    rounds."""
    answers, table = split_output(text, rounds)
    start = History(opening)
    histories, found = {start.key(): start}, []
    for lines in rounds:
        round_ = round_of(lines, answers)
        result = reached(round_, histories, trees, is_short=is_short)
        if not result.ends:
            which = f"the lines {lines[0].number} to {lines[-1].number}"
            raise Illegal(f"no order of {which} gives these answers; {result.most} of {len(lines)} can be done")
        if not is_short:
            found.append(looked_at(round_, histories, trees, result))
        histories = result.ends
    if not any(table == table_of(history.state.views) for history in histories.values()):
        raise Illegal("the table isn't that of a state to which these answers lead")
    return found


def output_of(answers, rounds, history):
    """The output of these answers, by line numbers, and the history to which they led."""
    lines = [line for lines in rounds for line in lines]
    printed = [f"{line.number} {answers[line.number]}" for line in lines]
    return "\n".join(printed + [f"trace {len(lines)}"] + table_of(history.state.views)) + "\n"


def played(opening, trees, rounds, choose):
    """An output of a script. `choose` picks the actor whose line is next, among those that have one left."""
    history, answers = History(opening), {}
    for lines in rounds:
        queues = {}
        for line in lines:
            queues.setdefault(line.actor, []).append(line)
        while queues:
            actor = choose(sorted(queues))
            line = queues[actor].pop(0)
            answers[line.number], history = answered(history, line, trees)
            queues = {it: queue for it, queue in queues.items() if queue}
    return output_of(answers, rounds, history)


class TooMany(Exception):
    """A round can go in too many ways to try them all."""


def ways_through(lines, histories, trees, most):
    """The answers to a round's lines and the history with them, in every order of the lines and from each of some
    histories."""
    actors = sorted({line.actor for line in lines})
    queues = [[line for line in lines if line.actor == actor] for actor in actors]
    layer = {((0,) * len(actors), (), history.key()): ({}, history) for history in histories}
    for _ in lines:
        layer = next_layer(layer, queues, trees)
        if len(layer) > most:
            raise TooMany
    return list(layer.values())


def tried_ways(lines, histories, trees, most):
    """The ways through a round, or None where there are too many."""
    try:
        return ways_through(lines, histories, trees, most)
    except TooMany:
        return None


def next_layer(layer, queues, trees):
    """Each way to stand after one line more: the lines done, the answers, and the history."""
    after = {}
    for (places, *_), (answers, history) in layer.items():
        for at, queue in enumerate(queues):
            if places[at] < len(queue):
                line = queue[places[at]]
                answer, other = answered(history, line, trees)
                more = {**answers, line.number: answer}
                node = places[:at] + (places[at] + 1,) + places[at + 1 :]
                after[node, tuple(sorted(more.items())), other.key()] = (more, other)
    return after


def outputs_of(opening, trees, rounds, most):
    """All outputs of a script, in order."""
    ways = [({}, History(opening))]
    for lines in rounds:
        ways = [
            ({**answers, **more}, after)
            for answers, history in ways
            for more, after in ways_through(lines, [history], trees, most)
        ]
    return sorted({output_of(answers, rounds, history) for answers, history in ways})


def is_found(opening, trees, rounds, text, most, known):
    """Whether an output is one of a script, by trying every order of each round. `known` keeps the ways through
    rounds."""
    answers, table = split_output(text, rounds)
    histories = {History(opening).key(): History(opening)}
    for place, lines in enumerate(rounds):
        asked = (place, frozenset(histories))
        if asked not in known:
            known[asked] = tried_ways(lines, histories.values(), trees, most)
        if known[asked] is None:
            raise TooMany
        right = [after for more, after in known[asked] if more.items() <= answers.items()]
        histories = {after.key(): after for after in right}
    return any(table == table_of(history.state.views) for history in histories.values())
