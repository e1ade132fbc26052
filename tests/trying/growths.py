"""Refuses growths of memory under the trials: `stages()` between two marks, `trials()` one after the other.

Both build the trials as one program without a sanitizer, and run each trial by itself under the library of
tests/hostility. They print a line a trial, and give how many passed and failed.
"""
import os
import tempfile

from hostility.library import made
from hostility.refusing import refused_in_turn
from hostility.running import Command, Program

from . import crate
from .program import built

# the trials with marks, and whether the call between the marks has to ask for memory
STAGES = {
    "memory::stage_growths::a_commit_asks_for_no_growth": False,
    "memory::stage_growths::an_abort_asks_for_no_growth": False,
    "memory::stage_growths::an_advance_asks_for_no_growth": False,
    "memory::stage_growths::a_begin_asks_for_growths": True,
    "memory::edit_growths::a_way_back_asks_for_no_growth": False,
    "memory::edit_growths::an_edit_asks_for_growths": True,
}

# the trials in which lack of memory may be the answer
CHOSEN = (
    "memory::callers::",
    "memory::full::the_second_call_",
    "memory::short::",
    "memory::trees::a_copy_of_a_tree_is_equal",
    "memory::trees::a_very_deep_tree_is_not_",
    "memory::trees::a_very_deep_tree_that_is_handed_back_",
    "memory::trees::very_deep_trees_",
    "threads::full_queue::",
)
NO_MEMORY = (b"error: AllocFailed", b"error: AllocError", b"error: Fault { rule: M1, line: 0 }")

# each growth between the two marks of marks.rt.txt is refused; how many these were is written to the descriptor TELLS
BETWEEN = r"""
#include <stdio.h>
#include <stdlib.h>
#include <unistd.h>
enum { FIRST_MARK = 5021351, LAST_MARK = 5021359 };
extern void *__libc_malloc(size_t), *__libc_realloc(void *, size_t);
static long tells, asked;
static int is_between;
__attribute__((constructor)) static void begin(void) { tells = atol(getenv("TELLS")); }
static int is_refused(size_t size) {
    char line[24];
    if (size == FIRST_MARK) {
        asked = 0;
        is_between = 1;
        return 0;
    }
    if (size == LAST_MARK) {
        int length = snprintf(line, sizeof line, "%ld\n", asked);
        is_between = 0;
        return write(tells, line, length) != length;
    }
    asked += is_between;
    return is_between;
}
void *malloc(size_t size) { return is_refused(size) ? 0 : __libc_malloc(size); }
void *realloc(void *old, size_t size) { return is_refused(size) ? 0 : __libc_realloc(old, size); }
"""


def program_in(room, library):
    """The program of all trials, under a library, built in a room."""
    home = crate.make(os.path.join(room, "sources"))
    return Program(built(home, room, ["--test", "--steps", "1"]), library)


def command(name):
    return Command((name,), crate.TOP)


def stages():
    """Sees that each call between two marks is answered as it should be, and asks for memory only where it has to."""
    passed, failed = 0, 0
    with tempfile.TemporaryDirectory(prefix="growths-") as room:
        program = program_in(room, made(room, BETWEEN))
        for name, has_to_ask in STAGES.items():
            got = program.run(command(name), {})
            asked = [int(line) for line in got.told.split()]
            is_right = got.status == 0 and bool(asked) and any(asked) == has_to_ask
            print(f"{name}: status {got.status}, asked {asked}")
            passed, failed = passed + is_right, failed + (not is_right)
    return passed, failed


def spread():
    """The turns that are refused: each of the first, then those further and further apart."""
    turn = 1
    while True:
        yield turn
        turn += max(1, turn // 40)


def tried(program, name):
    """How often a trial passes where a growth is refused, how often its own work has no memory,
    and how often it is wrong."""
    right, own, wrong = 0, 0, 0
    for turn, got in refused_in_turn(program, command(name), "m", "ENOMEM", turns=spread()):
        if got.status == 0:
            right += 1
        elif got.err.startswith(NO_MEMORY):
            own += 1
        else:
            wrong += 1
            print(f"{name}: growth {turn}: {got.text()}")
    return right, own, wrong


def trials():
    """Sees that each trial passes where a growth is refused, or ends since its own work has no memory."""
    passed, failed = 0, 0
    with tempfile.TemporaryDirectory(prefix="growths-") as room:
        program = program_in(room, made(room))
        listed = program.run(command("--list")).out.decode("ascii").splitlines()
        names = [line.removesuffix(": test") for line in listed if line.endswith(": test")]
        for name in filter(lambda it: it.startswith(CHOSEN), names):
            right, own, wrong = tried(program, name)
            print(f"{name}: {right} growths, {own} of the trial's own")
            passed, failed = passed + right, failed + wrong + (right == 0)
    return passed, failed
