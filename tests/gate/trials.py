"""Tries how parts are run and counted, on parts that print, end and hang as a broken one might."""
import contextlib
import io
import os
import subprocess
import sys
import time
from unittest import mock

from launching.trees import is_running

from . import proved, running
from .parts import Part
from .program import copied
from .rooms import told

PRINTS = {
    "passes": ("echo some: 3 passed, 0 failed", 3, 0),
    "fails": ("echo some: 2 passed, 1 failed; exit 1", 2, 1),
    "fails with status 0": ("echo some: 2 passed, 1 failed", 2, 1),
    "says nothing": ("true", 0, 1),
    "counts something else": ("echo other: 3 passed, 0 failed", 0, 1),
    "counts in the middle of a line": ("echo not some: 3 passed, 0 failed", 0, 1),
    "counts twice": ("echo some: 9 passed, 9 failed; echo some: 1 passed, 0 failed", 1, 0),
    "ends badly after its counts": ("echo some: 3 passed, 0 failed; exit 1", 3, 1),
    "is killed after its counts": ("echo some: 3 passed, 0 failed; kill -9 $$", 3, 1),
    "speaks on standard error": ("echo some: 3 passed, 0 failed >&2", 3, 0),
    "leaves a child that has its output": ("sleep 60 & echo some: 3 passed, 0 failed", 3, 0),
}


def script(room, name, text):
    path = os.path.join(room, name.replace(" ", "-"))
    with open(path, "w", encoding="utf-8") as file:
        file.write(f"#!/bin/sh\n{text}\n")
    os.chmod(path, 0o755)
    return path


def parts_in(room):
    return [Part(name, script(room, name, text), "some: ", "cases") for name, (text, _, _) in PRINTS.items()]


def counts_side_by_side(room):
    results = running.side_by_side(parts_in(room), room, "", 3)
    got = {result.part.name: (result.passed, result.failed) for result in results}
    return got == {name: (passed, failed) for name, (_, passed, failed) in PRINTS.items()} or got


def counts_one_by_one(room):
    parts = [part for part in parts_in(room) if "child" not in part.name]
    with contextlib.redirect_stdout(io.StringIO()):
        got = {part.name: running.alone(part)[1:3] for part in parts}
    return got == {part.name: PRINTS[part.name][1:] for part in parts} or got


def ends_a_part_that_hangs(room):
    part = Part("hangs", script(room, "hangs", "echo some: 1 passed, 0 failed; sleep 60"), "some: ", "cases")
    begun, before, running.LIMIT = time.monotonic(), running.LIMIT, 0.5
    try:
        [got] = running.side_by_side([part], room, "", 1)
    finally:
        running.LIMIT = before
    return (got.passed, got.failed) == (1, 1) and time.monotonic() - begun < 30 or got


def ends_what_runs_when_it_is_told_to(room):
    """Side by side and alone: no child goes on."""
    found = []
    for how in ("list(running.side_by_side([part], {room!r}, '', 1))", "running.alone(part)"):
        note = os.path.join(room, "child")
        path = script(room, "waits", f"echo $$ >{note}; exec sleep 60")
        code = f"end_cleanly(); part = Part('waits', {path!r}, 'some: ', 'cases'); {how.format(room=room)}"
        named = f"import sys; sys.path[:0] = {sys.path[:2]}; from building.commands import end_cleanly"
        words = [sys.executable, "-c", f"{named}; from gate import running; from gate.parts import Part; {code}"]
        with subprocess.Popen(words) as call:
            while not (os.path.exists(note) and os.path.getsize(note)):
                time.sleep(0.02)
            call.terminate()
        with open(note, encoding="utf-8") as file:
            child, limit = int(file.read()), time.monotonic() + 10
        while is_running(child) and time.monotonic() < limit:
            time.sleep(0.02)
        found.append((call.returncode, is_running(child)))
        os.remove(note)
    return found == [(143, False)] * 2 or found


def runs_no_more_at_once_than_it_may(room):
    """Each part counts those that run beside it."""
    counted = "touch running-$$; ls | grep -c running- >>most; sleep 0.2; rm running-$$"
    text = f'cd "$(dirname "$0")"; {counted}; echo some: 1 passed, 0 failed'
    parts = [Part(f"p{number}", script(room, f"p{number}", text), "some: ", "cases") for number in range(6)]
    list(running.side_by_side(parts, room, "", 2))
    with open(os.path.join(room, "most"), encoding="utf-8") as file:
        most = max(map(int, file))
    return most == 2 or most


def counts_processor_time(room):
    """Also that of a part's children that it waited for."""
    text = "sh -c 'n=0; while [ $n -lt 100000 ]; do n=$((n + 1)); done'; echo some: 1 passed, 0 failed"
    [got] = running.side_by_side([Part("works", script(room, "works", text), "some: ", "cases")], room, "", 1)
    return 0.01 < got.processor <= got.seconds * os.cpu_count() or got


def gives_each_part_the_program(room):
    """By a path whose folders others may enter."""
    place = os.path.join(room, "place")
    os.makedirs(place, mode=0o700)
    program = copied(script(room, "a program", "echo some: 5 passed, 0 failed"), place)
    [got] = running.side_by_side([Part("program", "{program}", "some: ", "cases")], room, program, 1)
    return (os.path.basename(program), os.stat(place).st_mode & 0o777, got.passed) == ("iocm", 0o755, 5) or got


def proves_first(room):
    """Then come the other parts, on the program that was left;
    minutes are told by kind, and more than the budget is a failure."""
    counts = "echo some: 1 passed, 0 failed"
    note, program = os.path.join(room, "out", "gate.tsv"), os.path.join(room, "left")
    proves = script(room, "proves", f"echo '#!/bin/sh' >{program}; echo '{counts}' >>{program}; {counts}")
    alone, beside = Part("proofs", proves, "some: ", "proofs"), Part("cases", "sh {program}", "some: ", "cases")
    given = {"ALONE": (alone,), "SIDE_BY_SIDE": (beside,), "PROVED": program, "NOTE": note, "pace": lambda _lanes: 1}
    found, said = [], io.StringIO()
    for budget in (240, -1):
        with mock.patch.multiple(proved, BUDGET=budget, **given), contextlib.redirect_stdout(said):
            place = os.path.join(room, str(budget))
            os.mkdir(place)
            found.append(proved.run(place, 2))
    with open(note, encoding="utf-8") as file:
        kinds = [line.split("\t")[0] for line in file]
    return (found, kinds) == ([(2, 0), (2, 1)], ["proofs", "cases", "sum"]) or (found, kinds, said.getvalue())


def tells_minutes_at_a_pace(_room):
    """On a processor that takes twice as long they are half as many."""
    found = [running.Result(Part("p", "", "", kind), 1, 0, 0, 120, "") for kind in ("proofs", "cases", "proofs")]
    got = proved.minutes_of(found, 2)
    return got == {"proofs": 2, "cases": 1} or got


def fails_without_a_program(room):
    """The count of what was proved stays."""
    alone = Part("proofs", script(room, "proves", "echo some: 7 passed, 2 failed"), "some: ", "proofs")
    note = os.path.join(room, "out", "gate.tsv")
    given = {"ALONE": (alone,), "PROVED": os.path.join(room, "none"), "NOTE": note, "pace": lambda _lanes: 1}
    with mock.patch.multiple(proved, **given), contextlib.redirect_stdout(io.StringIO()):
        got = proved.run(room, 2)
    return got == (7, 3) or got


TRIALS = (
    counts_side_by_side,
    counts_one_by_one,
    ends_a_part_that_hangs,
    ends_what_runs_when_it_is_told_to,
    runs_no_more_at_once_than_it_may,
    counts_processor_time,
    gives_each_part_the_program,
    proves_first,
    tells_minutes_at_a_pace,
    fails_without_a_program,
)


def main():
    return told("all", TRIALS)
