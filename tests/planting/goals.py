"""What a check says that it couldn't prove, as an edit's `refused:` line has it: `Worker::next ensures taken`.

The prover's names of goals say by which way through the body a goal is reached, and give the line. Both
change with the file. What stays is the function, and what of it isn't proved: a clause that it ensures or
that a call requires, a loop, an invariant.
"""
import re

LINE = re.compile(r"^(?:note: )?(?:\./)?(\S+?):(\d+):\d+: (.*)")
FORM = re.compile(
    r"has no field|is not in scope|has no `|was not admitted|"
    r"ran out of|outgrew the memory limit|stopped at the step limit"
)
GOAL = re.compile(r"\(`([\w.+-]+)`\)|^error: `([\w.+-]+)`")
LAW_OF = re.compile(r"`(\w+)`, which was rejected")
BESIDE = re.compile(r"w(?:as|ere) not checked: (.*)")
NAMED = re.compile(r"^error: `([\w.+-]+)`")
UNPROVED = re.compile(r"^fn \S+: no proof: expected answers in (?:\./)?(\S+); (.*did not prove .*)")
PROOF = re.compile(r"^proofs/(.+)/(?:Answers|Invariants|Proof)\.antt$")


def goal_of(name):
    """What a goal's name says that isn't proved: `returns-then-x-clause-taken` is `ensures taken`."""
    way, _, clause = name.removeprefix("at.").partition("-clause-")
    call, requires, _ = way.partition("requires")
    loop = re.search(r"(?:^|-)loop(?:-(\w+))?-(?:init|preserved)", way)
    if loop:
        said = f"loop {loop[1] or ''}"
    elif re.search(r"(?:^|-)returns(?:-|$)", way):
        said = "ensures"
    elif requires:
        said = f"{call.removesuffix('-')} requires"
    else:
        said = re.split(r"-(?:in|then|after|not)(?=[-_])|-\d+$", way)[0].replace("_of-", " of ")
    return f"{said} {clause}".strip()


class Told:
    """A line in which a check says of a place that something isn't proved."""

    def __init__(self, path, number, text):
        self.path, self.number, self.text = path, number, text

    def is_of(self, function):
        """Whether it is of a function: of its text, or of its proof."""
        inside = self.path == function.file and function.first <= self.number <= function.end
        return inside or function.has_proof_at(self.path)

    def is_of_form(self):
        """Whether it says only that a proof names what isn't there any more,
        or that the prover met a limit of its own."""
        return bool(FORM.search(self.text))

    def goals(self):
        """The names of the goals that it is about."""
        found, _, open_goals = GOAL.search(self.text), *self.text.partition("did not prove")[1:]
        return [found[1] or found[2]] if found else re.findall(r"`([\w.+-]+)`", open_goals)


def told_in(output):
    """The lines of a check's output that say that something isn't proved."""
    told = []
    for line in output.split("\n"):
        at, unproved = LINE.match(line), UNPROVED.match(line)
        if unproved:
            told.append(Told(unproved[1], 0, unproved[2]))
        elif at and (at[3].startswith(("error", "it is not proved", "`search`")) or ": error" in line):
            told.append(Told(at[1], int(at[2]) - 1, at[3]))
    return told


def goals_of(functions, told):
    """What isn't proved of these functions, in the order of the lines that tell it, each once."""
    found = []
    for line in told:
        for function in functions:
            if line.is_of(function) and not line.is_of_form():
                said = [goal_of(name) for name in line.goals()] or [plainly(line.text)]
                found += [f"{function.named()} {it}" for it in said]
    return [*dict.fromkeys(found)]


def plainly(text):
    """What a line says that names no goal, without what it quotes."""
    text = re.sub(r"`[^`]*`", "..", text.removeprefix("error: "))
    return re.split(r"[:;]", text)[0].strip()[:80]


def goals_in(told):
    """What isn't proved of a crate: the laws of its specs that are false,
    what its functions ensure, and then its lemmas."""
    laws, functions, lemmas = [], [], []
    for line in told:
        at = PROOF.match(line.path)
        law, beside, named = LAW_OF.search(line.text), BESIDE.search(line.text), NAMED.match(line.text)
        if line.path.startswith("specs/"):
            laws += [f"law {it[1]}" for it in (law, named) if it]
        elif at:
            names = line.goals() or re.split(r" \(via [^)]*\)(?:, )?|, ", beside[1] if beside else "")
            functions += [f"{at[1].replace('/', '::')} {goal_of(name)}" for name in names if name]
        elif named and line.path.startswith("proofs/"):
            lemmas.append(f"lemma {named[1]}")
    return [*dict.fromkeys(laws + functions + lemmas)]
