"""The table of parts: what each runs, and how its counts are told.

A part prints a line of its word, as `cases: N passed, M failed`. Processor time is told by kind.
The longest come first, so that the last to end isn't one that has only begun.
"""
from collections import namedtuple

Part = namedtuple("Part", "name words counted kind needs what", defaults=(None, ""))

PROGRAM = "{program}"
PROOFS = "every proof, test and program, from nothing (rt ci)"
EDITS = "planted mistakes, which the prover has to refuse, over the libraries that rt ci left"
# each has all processors, and comes before the others where all is proved
ALONE = (
    Part("proofs", "rt ci", "", "proofs", what=PROOFS),
    Part("edits", "tests/mutants --gate", "mutants: ", "edits", what=EDITS),
)
SIDE_BY_SIDE = (
    Part("trials", "tests/run-trials", "trials: ", "trials"),
    Part("legal", f"tests/legal {PROGRAM}", "legal: ", "cases"),
    Part("growths", f"tests/growths {PROGRAM}", "growths: ", "cases", "cc"),
    Part("drawn", f"tests/drawn --count 2000 {PROGRAM}", "drawn: ", "cases"),
    Part("legal-self", "tests/legal --self", "legal: ", "cases"),
    Part("launcher", "tests/launcher", "launcher: ", "cases"),
    Part("drawn-self", f"tests/drawn --self {PROGRAM}", "drawn: ", "cases"),
    Part("hostile", f"tests/hostile --gate {PROGRAM} files outputs limits", "hostile: ", "cases"),
    Part("cases", f"tests/run {PROGRAM}", "cases: ", "cases"),
    Part("installation", f"tests/installation {PROGRAM}", "installation: ", "cases"),
    Part("all-self", "tests/all --self", "all: ", "cases"),
    Part("mutants-self", "tests/mutants --self", "mutants: ", "cases"),
    Part("messages", f"tests/messages {PROGRAM}", "messages: ", "cases"),
    Part("lines", f"tests/lines {PROGRAM}", "lines: ", "cases", "jq"),
    Part("pages", "tests/pages", "pages: ", "cases"),
    Part("layout", "tests/layout", "layout: ", "cases", "rattle"),
    Part("layout-self", "tests/layout --self", "layout: ", "cases", "rattle"),
    Part("pages-self", "tests/pages --self", "pages: ", "cases"),
)
