"""What is right of two decks: `diff` prints the change deck that leads from one to the other."""
import re

from .cases import LARGEST_HEAP
from .planned import try_plan
from .readings import apply_change, differing_keys, edits_of, read_deck

MOST_EDITS = 4096
SAID = re.compile(r"(no|[\d,]+) edits?\b")


def try_pair(case, old_data, new_data):
    """Tries two decks."""
    case.put("old", old_data)
    case.put("new", new_data)
    old, new = read_deck(old_data), read_deck(new_data)
    answer = case.run("diff", "old", "new", quiet=False)
    if old.refusal or new.refusal:
        case.agree("first refusal", answer.line(), old.refusal or new.refusal)
        return
    case.agree("no edit", case.run("diff", "new", "new").out, b"")
    keys = differing_keys(old.state.records, new.state.records)
    case.agree("edits said", SAID.match(answer.said.decode()).group(1), f"{len(keys)}" if keys else "no")
    if answer.status == 0 and len(keys) <= MOST_EDITS:
        try_edits(case, answer.out, old, new, keys)
        try_loop(case, answer.out, old)
    try_plan(case, old.state.records, new.state.records)
    if case.dice.random() < 0.3:
        commented = case.run("diff", "old", "new", "--old").out.splitlines(keepends=True)
        case.agree("old in comments", b"".join(line for line in commented if not line.startswith(b"*")), answer.out)


def try_edits(case, text, old, new, keys):
    """Each record that differs is edited once, and no other, and becomes that of the new deck."""
    edits = edits_of(text)
    case.agree("edits", sorted(edit.key for edit in edits), keys)
    before, after = old.state.records, new.state.records
    for edit in edits:
        action = "add" if edit.key not in before else "delete" if edit.key not in after else "modify"
        case.agree("edit", (edit.action, edit.record), (action, after.get(edit.key)))


def try_loop(case, text, old):
    """`apply --deck` of the difference is `write` of the new deck, or the answer is V13."""
    case.put("change", text)
    answer = case.run("apply", "old", "change", "--deck", *LARGEST_HEAP)
    line = apply_change(old.state, text).line()
    if answer.line().startswith("refused"):
        case.need("loop", answer.line().startswith("refused V13 node 0 device "), f"printed {answer.line()}")
        case.agree("loop as read", answer.line(), line)
        return
    case.agree("loop as read", "refused" in line, False)
    case.agree("loop", answer.out, case.run("write", "new").out)
