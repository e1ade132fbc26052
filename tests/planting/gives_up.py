"""Plants "gives up with M1 at once" into ten functions that can give up,
and sees that a case or a trial fails for each.

`main(words)`: the words are names of FUNCTIONS, or none for all. A body that always gives up meets most contracts, so
only a run refuses it. Each is planted in a copy of the sources. The program is built without a proof there, and the
cases are run on it; where all pass, the trials are. First all cases have to pass on the program as it is. Each build
takes some four minutes of processor time. The last line is `gives up: N passed, M failed`.
"""
import os
import re
import subprocess
import sys
import tempfile

TOP = os.path.dirname(os.path.dirname(os.path.dirname(os.path.abspath(__file__))))
sys.path[:0] = [TOP, os.path.join(TOP, "tests")]
from reaching.functions import blanked, body_at
from trying import crate, program

FAILED = re.compile(r"^cases: \d+ passed, (\d+) failed$", re.M)
NO_ROOM = "std::alloc::AllocError"
NO_MEMORY = "iocm_types::Fault::from(std::alloc::AllocError)"
UNOPENED = "Unopened { why: iocm_types::Refused::NO_MEMORY, config }"
# two functions of each layer: the crate's file, the line that begins the function, and why it gives up
FUNCTIONS = {
    "Config::room": ("iocm_config/src/config.rt", "pub fn room(", NO_ROOM),
    "Numbers::from_rows": ("iocm_numbers/src/build.rt", "pub fn from_rows<", NO_ROOM),
    "from_statements": ("iocm_record_reader/src/deck.rt", "pub fn from_statements(", NO_MEMORY),
    "canonical_deck": ("iocm_deck_writer/src/deck.rt", "pub fn canonical_deck<", NO_ROOM),
    "all_breaches": ("iocm_breaches/src/all.rt", "pub fn all_breaches<", NO_ROOM),
    "keys_of": ("iocm_change_records/src/keys.rt", "pub fn keys_of(", NO_MEMORY),
    "Grid::add": ("iocm_grid/src/grid.rt", "pub fn add(", NO_ROOM),
    "Plant::open": ("iocm_plant/src/open.rt", "pub fn open(", UNOPENED),
    "queue": ("iocm_queue/src/opening.rt", "pub fn queue<", NO_ROOM),
    "Filters::of_words": ("iocm_filter/src/reading.rt", "pub fn of_words(", "iocm_statements::Unread::Memory"),
}


def plant(sources, name):
    """Has a function give up at once, in a copy of the sources."""
    file, beginning, why = FUNCTIONS[name]
    path = os.path.join(sources, "crates", file)
    with open(path, encoding="utf-8") as source:
        text = source.read()
    at = text.index(beginning)
    _, begin, _ = body_at(blanked(text), at + len("pub fn "))
    with open(path, "w", encoding="utf-8") as source:
        source.write(f"{text[: begin + 1]}\n        return Err({why});{text[begin + 1 :]}")


def failed_cases(room, name=None):
    """How many cases fail on the program with a function that gives up, or on the program as it is."""
    sources = os.path.join(room, "sources")
    crate.copy_sources(sources)
    if name:
        plant(sources, name)
    binary = program.built(os.path.join(sources, "crates", "iocm"), room, ["--steps", "1", "--", "--help"])
    ran = subprocess.run([os.path.join(TOP, "tests", "run"), binary], stdout=subprocess.PIPE, text=True)
    return int(FAILED.search(ran.stdout)[1])


def failed_trials(room, name):
    """How many trials fail with it."""
    sources = os.path.join(room, "with-trials")
    home = crate.make(sources)
    plant(sources, name)
    said, passed, failed = crate.run(home)
    if not passed and not failed:
        sys.exit(said)
    return failed


def is_refused(name):
    """Whether a case or a trial fails where a function gives up."""
    with tempfile.TemporaryDirectory(prefix="gives-up-") as room:
        failed, what = failed_cases(room, name), "cases"
        if not failed:
            failed, what = failed_trials(room, name), "trials"
    print(f"{name}: {f'{failed} {what} fail' if failed else 'NOTHING FAILS'}", flush=True)
    return bool(failed)


def main(words):
    if not set(words) <= set(FUNCTIONS):
        print(f"{__doc__}\nFUNCTIONS: {' '.join(FUNCTIONS)}")
        return 2
    with tempfile.TemporaryDirectory(prefix="gives-up-") as room:
        failed = failed_cases(room)
    if failed:
        print(f"{failed} cases fail on the program as it is\ngives up: 0 passed, 1 failed")
        return 1
    results = [is_refused(name) for name in words or FUNCTIONS]
    print(f"gives up: {sum(results)} passed, {len(results) - sum(results)} failed")
    return 0 if all(results) else 1


if __name__ == "__main__":
    sys.exit(main(sys.argv[1:]))
