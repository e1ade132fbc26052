"""valgrind looks on.

memcheck, at each command: no error, and no byte that is definitely lost. The answer must be right under it.

drd, at `run` with several actors: no race. drd sees no order that two threads have by atomic words and futex waits, and
the kit's lock and channel are made of these. So it tells of conflicts where there are none. Each has to be one of
EXPLAINED; any other counts as a race. The answer must be right under it.
"""
import os
import re
import subprocess
import tempfile

from . import commands
from .calls import way_of_answer
from .right import Right
from .running import NO_END, Answer
from .threads import drawn_scripts

LONGEST = 300  # seconds by the clock
FAULTY = 99  # the exit status where memcheck found an error
MEMCHECK = (
    "--leak-check=full",
    "--errors-for-leak-kinds=definite",
    "--show-leak-kinds=definite",
    f"--error-exitcode={FAULTY}",
)
DRD = ("--tool=drd",)
MOST_CASES, DRAWN = 500, 20
CONFLICT = re.compile(r"Conflicting (?:load|store) by .*?\n((?:==\d+==    (?:at|by) .*\n)+)")
MACHINE = "core stage journal activate plant seats grid live numbers config index derive affected rules".split()
EXPLAINED = (
    # a place of the operators' queue: who sends and who takes are in order by the place's stamp, an atomic word; and
    # such a word itself
    re.compile(r"\A.*(crossbeam_channel::|atomic_table::shared::|iocm_queue::|iocm_rounds::office::fn::run_office)"),
    # the machine under the system's lock: the holder before and the holder now are in order by the lock's word
    re.compile(r"iocm_system::(system|desk|turn)::|iocm_rounds::(worker|images)::"),
    # the crates of the machine, where the stack doesn't show who holds the lock: they are reached under it alone
    re.compile(f"iocm_({'|'.join(MACHINE)})::"),
)


def tried(program, tally, is_all):
    few = [command for command in commands.short() if command.words[0] in ("check", "apply", "run")]
    asked = commands.of_examples() + list(commands.of_cases())[:MOST_CASES] if is_all else [*few[1:3], few[-3], few[-2]]
    with tempfile.TemporaryDirectory() as room:
        for command in asked:
            try_memcheck(program, tally, room, command)
        scripts = [command for command in commands.scripts() if "two" in command.words[2]]
        for command in scripts + (commands.scripts() + drawn_scripts(room, DRAWN) if is_all else []):
            try_drd(program, tally, room, command)


def under_valgrind(program, command, room, options):
    """What a command answers under valgrind, and what valgrind says."""
    log = os.path.join(room, "log")
    words = ["valgrind", "-q", f"--log-file={log}", *options, program.binary, *command.words]
    try:
        got = subprocess.run(words, cwd=command.room, input=command.given, capture_output=True, timeout=LONGEST)
        answer = Answer(got.returncode, got.stdout, got.stderr)
    except subprocess.TimeoutExpired:
        answer = Answer(NO_END, b"", b"")
    with open(log, encoding="utf-8", errors="replace") as file:
        return answer, file.read()


def try_memcheck(program, tally, room, command):
    right = Right(command, program.run(command))
    got, said = under_valgrind(program, command, room, MEMCHECK)
    way = way_of_answer(right, got) if got.status != FAULTY else None
    tally.note(way, command, f"memcheck {said[:300]!r}", got)


def try_drd(program, tally, room, command):
    right = Right(command, program.run(command))
    got, said = under_valgrind(program, command, room, DRD)
    unexplained = [stack for stack in CONFLICT.findall(said) if not any(it.search(stack) for it in EXPLAINED)]
    tally.note(way_of_answer(right, got) if not unexplained else None, command, f"drd {unexplained[:1]!r}", got)
