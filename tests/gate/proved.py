"""The gate: proves all, tries planted mistakes, and runs all other parts on the program that the proof left.

It tells the processor minutes of each kind of work, and writes them to out/gate.tsv: minutes of the processors that
`pace.py` tells of, since machines differ by more than two. More of them than the budget is a failure.
"""
import os

from . import running
from .pace import pace
from .parts import ALONE, SIDE_BY_SIDE
from .program import PROVED, TOP, copied

BUDGET = 300
NOTE = os.path.join(TOP, "out", "gate.tsv")


def results(room, lanes):
    """The result of each part, as it ends."""
    for part in ALONE:
        print(f"gate: {part.what}", flush=True)
        yield running.alone(part)
    print("gate: all other tests, side by side, on the program that rt ci left", flush=True)
    parts = [part for part in SIDE_BY_SIDE if running.can_run(part)]
    for result in running.side_by_side(parts, room, copied(PROVED, room), lanes):
        running.tell(result)
        yield result


def minutes_of(found, pace_here):
    """The processor minutes of each kind of work, in the order in which they were taken, at the pace of this machine."""
    minutes = {}
    for result in found:
        minutes[result.part.kind] = minutes.get(result.part.kind, 0) + result.processor / 60 / pace_here
    return minutes


def keeps_the_budget(minutes):
    """Whether the sum is within the budget; all of it is told, and written down."""
    total = sum(minutes.values())
    os.makedirs(os.path.dirname(NOTE), exist_ok=True)
    with open(NOTE, "w", encoding="utf-8") as file:
        file.writelines(f"{kind}\t{spent:.1f}\n" for kind, spent in {**minutes, "sum": total}.items())
    kinds = ", ".join(f"{kind} {spent:.1f}" for kind, spent in minutes.items())
    print(f"gate: {total:.1f} processor minutes ({kinds}); the budget is {BUDGET}", flush=True)
    return total <= BUDGET


def run(room, lanes):
    """How much passed and failed."""
    found, more, paces = [], 0, [pace(lanes)]
    try:
        for result in results(room, lanes):
            found.append(result)
    except FileNotFoundError as error:
        more += 1
        print(f"gate: {error.filename}: {error.strerror}", flush=True)
    paces.append(pace(lanes))
    mean = sum(paces) / len(paces)
    print(f"gate: a processor here takes {mean:.2f} times as long as one of these minutes", flush=True)
    more += not keeps_the_budget(minutes_of(found, mean))
    return sum(result.passed for result in found), more + sum(result.failed for result in found)
