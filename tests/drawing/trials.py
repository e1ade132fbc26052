"""Tries the harness itself: the program has no fault in some cases of each kind, and each stand-in has its own."""
import os

from .cases import Case
from .kinds import KINDS, dice_of, play_kind
from .running import Program
from .standins import programs
from .tally import Tally

CASES_OF_KIND = 4
MOST_CASES = 150


def case_of(program, kind, seed, number):
    """A case of this kind, played."""
    case = Case(program, Tally(), dice_of(f"self {seed}", number))
    play_kind(case, kind)
    return case


def faults_of_program(binary, room, seed):
    """The faults of the program itself, and the properties that were tried."""
    program, tried = Program(binary, room), set()
    for kind in KINDS:
        for number in range(CASES_OF_KIND):
            case = case_of(program, kind, seed, number)
            tried |= set(case.tally.tried)
            yield [f"the program fails {name}: {text}" for name, text in case.faults], tried


def finding(program, kind, name, seed):
    """How many cases it takes till a property fails, or None."""
    for number in range(MOST_CASES):
        case = case_of(program, kind, seed, number)
        if any(fault == name for fault, _ in case.faults):
            return number + 1
    return None


def try_self(binary, room, seed):
    """How many trials passed, and how many failed."""
    os.makedirs(room, exist_ok=True)
    passed, failed, tried, broken = 0, 0, set(), set()
    for faults, tried in faults_of_program(binary, room, seed):
        passed, failed = passed + (not faults), failed + bool(faults)
        print("".join(fault + "\n" for fault in faults), end="")
    for place, (name, kind, program) in enumerate(programs(binary, room)):
        cases = finding(program, kind, name, seed)
        program.close()
        broken.add(name)
        passed, failed = passed + (cases is not None), failed + (cases is None)
        if cases is None:
            print(f"stand-in {place} ({kind.__name__}) doesn't fail {name!r} in {MOST_CASES} cases")
    untried = sorted(tried - broken)
    if untried:
        failed += 1
        print(f"no stand-in breaks these properties: {', '.join(untried)}")
    print(f"{len(broken)} properties fail on stand-ins of their own")
    return passed, failed
