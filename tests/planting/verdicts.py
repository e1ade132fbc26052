"""The verdict on an edit, by what a check says that had it planted."""
import re

from . import goals

UNREAD = re.compile(r"is not in scope|is no name|operand is missing|expected the end|cannot continue")
ENDED = ("logic=", "only=")


class Verdict:
    """Whether the prover refuses an edit, and the goals that do; or why nothing is known of it."""

    def __init__(self, is_refused, found=(), why=""):
        self.is_refused, self.goals, self.why = is_refused, [*found], why

    def of(self, edit):
        """Whether an edit passes by it, and what to say. A goal that is noted has to be among those that refuse it."""
        if not self.is_refused:
            return False, self.why
        first = self.goals[0] if self.goals else ""
        if edit.goal in self.goals:
            return True, f"refused: {edit.goal}"
        if edit.goal:
            return False, f"REFUSED FOR ANOTHER REASON: {first or self.why}, and not {edit.goal}"
        said = f"refused: {first} (no goal noted)" if first else f"refused {self.why} (no goal noted)"
        return not edit.is_of_the_gate(), said


def has_ended(output):
    """Whether a check came to its end."""
    return any(line.startswith(ENDED) for line in output.split("\n"))


def proved_in(output):
    """The functions that a check proved, as it prints them."""
    lines = output.split("\n")
    return {it[len("fn ") : -len(": proved")] for it in lines if it.startswith("fn ") and it.endswith(": proved")}


def on_functions(functions, crate, output):
    """The verdict on an edit in the bodies of functions; None if the check says nothing of them."""
    told = [it for it in goals.told_in(output) if any(it.is_of(function) for function in functions)]
    proved = proved_in(output)
    if all(any(it.is_printed_as(name, crate) for name in proved) for it in functions):
        return Verdict(False, why="NOT REFUSED: its functions are still proved")
    if not told:
        return None
    found = goals.goals_of(functions, told)
    return Verdict(True, found, "" if found else f"by no goal: {told[0].text[:120]}")


def on_crate(edit, output, status):
    """The verdict on an edit by a check of a whole crate: what is false by it, the laws first."""
    if status == 0:
        return Verdict(False, why="NOT REFUSED: the crate is still proved with this edit")
    told = goals.told_in(output)
    of_edit = (it.text for it in told if it.path in edit.files())
    unread = next((text for text in of_edit if not goals.LAW_OF.search(text) and UNREAD.search(text)), None)
    refused = next((line for line in output.split("\n") if re.search(r"\berror\[[\w-]+\]", line)), unread)
    if refused:
        return Verdict(False, why=f"BAD EDIT: the edited text can't be read: {refused[:200]}")
    if not has_ended(output):
        return Verdict(False, why=f"NOT JUDGED: {output[-400:]}")
    found = goals.goals_in(told)
    return Verdict(True, found, "" if found else f"by no goal: {told[0].text[:120] if told else output[-160:]}")
