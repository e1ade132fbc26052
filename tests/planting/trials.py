"""Tries the runner itself, without the prover: on files of edits, on a source, and on what the prover says.

Call `failed()`: the number of trials, and what is wrong with each that failed.
"""
from . import edits, goals, places, verdicts

FILE = (
    "== a: gate\n# why\nfile: src/x.rt\nold: one\nnew: two\nold: two\nnew:\nrefused: f ensures\n\n"
    "== b: release\nfile: src/x.rt\nold: c\nnew: d\n"
)
FAULTS = {
    "old: x\n": "line 1: a line before the first",
    "== a: never\n": "line 1: a line before the first",
    "== a: gate\nfile: proofs/x.antt\n": "line 2: 'proofs/x.antt' is no file of",
    "== a: gate\nfile: src/../x.rt\n": "line 2: 'src/../x.rt' is no file of",
    "== a: gate\nnew: x\n": "line 2: 'new: x' has no place here",
    "== a: gate\nfile: src/x.rt\nold: x\n": "a ends without a 'new:' line",
    "== a: gate\nfile: src/x.rt\nrefused: f\n": "line 3: 'refused: f' has no place here",
    "== a: gate\n": "a has no pair",
    FILE.replace("b: release", "a: release"): "a is there 2 times",
    FILE.replace("== b", "== 0"): "0 comes after a",
}
GOALS = {
    "returns": "ensures",
    "returns-in-Some-then-x-clause-taken": "ensures taken",
    "at.change_back-requires-clause-key": "change_back requires key",
    "take_back-requires-2": "take_back requires",
    "loop-part-preserved-in-Some": "loop part",
    "loop-init": "loop",
    "invariant_of-self-in-Err": "invariant of self",
    "overflow_add-next-in-Some": "overflow_add-next",
}
SOURCE = "fn low() {\n    one();\n}\n\n/// Says more.\n#[cycle(round)]\nfn high() {\n    two();\n}\n"
PLACES = {
    (("one();", "two();"),): ["x::low"],
    (("one();", "three();"), ("three();", "four();")): ["x::low"],
    (("one();", "added();"), ("/// Says more.", "fn added() {}")): ["x::low"],
    (("fn low", "fn lower"),): None,
    (("two();", "one();"),): None,
    (("there", "here"),): None,
}
OPEN = (
    "note: src/x.rt:2:5: it is not proved that what the function ensures holds when it returns "
    "(`returns-clause-size`)\n"
)
SHOWN = "fn own::x::low: proved\n"
FORM = "./proofs/x/low/Answers.antt:3:1: error: `c.put` is not in scope\n"
ELSEWHERE = OPEN.replace(":2:5", ":8:5")
ENDED = "only=1 proved=0\n"
JUDGED = {
    OPEN + ENDED: {"x::low ensures size": True, "x::low ensures": False, None: False},
    FORM + ENDED: {"x::low ensures size": False, None: False},
    SHOWN + ENDED: {"x::low ensures size": False},
    ELSEWHERE + ENDED: {None: None},
}
LAWS = (
    "./specs/Order.antt:7:1: error: 1 declaration that depends on `falls`, which was rejected\n"
    "./proofs/Back.antt:9:5: error: `run_back`: the two types differ\n"
    "./proofs/laws/back/Answers.antt:4:5: error: 2 declarations that depend on `run_back`, "
    "which was not admitted, were not checked: returns-clause-run (via goes), returns-clause-cells\n"
    "fn own::laws::there: no proof: expected answers in ./proofs/laws/there/Answers.antt; "
    "`search` did not prove `returns`\n"
)
FALLEN = ["law falls", "laws::back ensures run", "laws::back ensures cells", "laws::there ensures", "lemma run_back"]


def edit_of(*pairs, goal=None, when="gate"):
    made = edits.Edit("own", "a", when)
    made.pairs, made.goal = [("src/x.rt", *pair) for pair in pairs], goal
    return made


def fault_of(text):
    """What is wrong with a file of edits."""
    try:
        edits.read("own", text)
    except edits.Fault as fault:
        return str(fault)
    return ""


def of_files():
    """Trials of the form of a file."""
    yield "a file is written as it is read", edits.text_of(edits.read("own", FILE)), FILE
    for text, fault in FAULTS.items():
        yield f"the fault of {text!r}", fault in fault_of(text), True
    texts, wrong = edits.applied(edits.read("own", FILE)[0].pairs, lambda _: "one\n")
    yield "pairs are applied one after the other", (texts, wrong), ({"src/x.rt": "\n"}, None)
    yield "a text that is there twice", bool(edits.applied([("src/x.rt", "a", "b")], lambda _: "aa")[1]), True


def of_places():
    """Trials of where an edit lies."""
    for pairs, names in PLACES.items():
        found = places.places_of(edit_of(*pairs), lambda _: SOURCE)
        yield f"the place of {pairs}", found and [it.named() for it in found], names


def of_verdicts():
    """Trials of what is told of an edit; None is told if nothing is known of it."""
    for name, said in GOALS.items():
        yield f"the goal {name}", goals.goal_of(name), said
    functions = places.functions_in("src/x.rt", SOURCE)[:1]
    for output, passes in JUDGED.items():
        for goal, is_well in passes.items():
            verdict = verdicts.on_functions(functions, "own", output)
            yield f"{goal} by {output!r}", verdict and verdict.of(edit_of(goal=goal))[0], is_well
    yield "what a proof names is no goal", verdicts.on_functions(functions, "own", FORM + ENDED).goals, []
    yield "a release needs no goal", verdicts.on_functions(functions, "own", OPEN).of(edit_of(when="release"))[0], True
    yield "what falls with a definition", verdicts.on_crate(edit_of(), LAWS + "logic=not-proved\n", 1).goals, FALLEN
    for output, status in (("logic=proved\n", 0), ("src/x.rt:1:1: error[E1]: no such name\n", 1), ("killed\n", -9)):
        yield f"a crate by {output!r}", verdicts.on_crate(edit_of(), output, status).is_refused, False


def failed():
    """How many trials there are, and what is wrong with those that failed."""
    trials = [*of_files(), *of_places(), *of_verdicts()]
    return len(trials), [f"{name}: {got!r}, and not {right!r}" for name, got, right in trials if got != right]
