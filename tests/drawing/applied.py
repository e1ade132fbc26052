"""What is right of a change deck: what `apply` prints of it, all its reports, and the way back."""
import re

from .canonical import remarks, written
from .cases import LARGEST_HEAP
from .filters import try_filter
from .places import place_in_change
from .planned import try_plan_of_change
from .readings import apply_change, edits_of, online_key, read_deck, records_of
from .shapes import HEADING, rows_of

REPORTS = ("--test", "--count", "--altered", "--deck", "--plan", "--undo")
FEW_NODES = 40  # the default heap has room for more
NO_MEMORY = "refused M1"
REMARK = re.compile(r"\* path (\S+) (is|isn't) online to (\S+)")
GIVEN_BACK = ("refused V13", "refused C1", "refused C2")
UNDO_SCRIPT, REDO_SCRIPT = b"P activate 1\nP undo 1\n", b"P activate 1\nP undo 1\nP redo 1\n"


def try_change(case, deck_data, change_data, machine=None):
    """Tries a change deck on a deck, which is accepted. The machine that it leads to may be known."""
    case.put("deck", deck_data)
    case.put("change", change_data)
    deck = read_deck(deck_data)
    if deck.refusal:
        case.agree("first refusal", case.run("apply", "deck", "change").line(), deck.refusal)
        return
    applied = apply_change(deck.state, change_data)
    answer, heap = run_in_heap(case, applied)
    lines = answer.out.decode("latin-1").splitlines()
    if case.agree("apply as read", answer.line(), applied.line()) and applied.refusal:
        case.place(answer, "change", place_in_change(change_data, applied.refusal))
    if applied.refusal is None:
        case.agree("table after", lines[1:], applied.table())
    if not heap:
        try_heap(case, answer)
    if applied.refusal is not None or answer.status != 0:
        for report in case.dice.sample(REPORTS, 1):
            case.agree("reports agree", case.run("apply", "deck", "change", report, *heap).out, answer.out)
        return
    if machine is not None:
        text = case.run("apply", "deck", "change", *heap, "--deck").out.decode("latin-1")
        case.agree("deck as drawn", text, written(machine) + remarks(machine))
    try_reports(case, deck, applied, lines, heap)


def run_in_heap(case, applied):
    """The answer of `apply`, and the words of the heap in which there is room for the change."""
    answer = case.run("apply", "deck", "change")
    if answer.line() != NO_MEMORY:
        return answer, ()
    is_large = applied.nodes >= FEW_NODES or applied.is_fault()
    case.need("memory", is_large, f"M1 for {applied.nodes} nodes in the default heap")
    return case.run("apply", "deck", "change", *LARGEST_HEAP), LARGEST_HEAP


def try_heap(case, answer):
    """In a smaller heap the answer is the same, or M1."""
    if case.dice.random() < 0.1:
        size = case.dice.choice((16, case.dice.randrange(16, 500), case.dice.randrange(500, 20000), 16777216))
        small = case.run("apply", "deck", "change", "--heap", str(size))
        case.need("heap", small.out in (answer.out, b"refused M1\n"), f"printed {small.out[:200]!r}")


def try_reports(case, deck, applied, lines, heap):
    """The reports of a change that is accepted."""
    words = ("apply", "deck", "change", *heap)
    case.agree("test", case.run(*words, "--test").out.decode(), lines[0] + "\n")
    if case.dice.random() < 0.1:
        try_filter(case, words, lines[:2], lines[2:], applied.after.records)
    if case.dice.random() < 0.3:
        try_plan_of_change(case, deck.state.records, applied.after.records, words[1:])
    for part in case.dice.sample((try_rows, try_deck_after, try_way_back, try_undo), 2):
        part(case, deck, applied, lines, words)


def subchannel(row):
    return tuple(row.split()[:4])


def try_rows(case, deck, applied, lines, words):
    """The rows of `--altered` lead from the table before to that after, and `--count` counts them."""
    altered = case.run(*words, "--altered").out.decode("latin-1").splitlines()
    case.agree("altered head", altered[:2], [lines[0], "  " + HEADING])
    before, after = set(deck.table()[1:]), set(lines[2:])
    signs, led, stays = {}, set(before), True
    for line in altered[2:]:
        sign, row = line[0], line[2:]
        signs.setdefault(subchannel(row), []).append(sign)
        if sign == "=":
            numbers_alone = len(row.split()) == 4
            seen = {subchannel(it) for it in before | after}
            stays &= subchannel(row) not in seen if numbers_alone else row in before and row in after
        else:
            stays &= (row in led) == (sign == "-")
            led ^= {row}
    case.need("altered rows", stays and led == after, "the rows don't lead to the table afterwards")
    case.agree("altered count", len(signs), applied.altered)
    counts = case.run(*words, "--count").out.decode("latin-1").splitlines()
    case.agree("count", counts, [lines[0], *counts_of(signs)])


def counts_of(signs):
    """What `--count` prints of the signs of each subchannel."""
    kinds = {"-": 0, "+": 1, "-+": 2, "=": 3}
    images = {}
    for (css, mif, _, _), of in signs.items():
        images.setdefault((css, mif), [0, 0, 0, 0])[kinds.get("".join(of), 3)] += 1
    texts = sorted(images.items())
    return ["image %s.%s gone %d came %d changed %d same %d" % (*image, *counts) for image, counts in texts]


def try_deck_after(case, deck, applied, lines, words):
    """`--deck` has the records that are meant; where paths are online otherwise than its lists say, it says so."""
    text = case.run(*words, "--deck").out
    case.put("filed", text)
    records = set(records_of(text).items())
    for path, verb, name in REMARK.findall(text.decode("latin-1")):
        pair = (online_key(f"{path} {name}"), "online")
        case.need("remarks", (pair in records) == (verb == "isn't"), f"path {path} {name}")
        records ^= {pair}
    case.need("deck after", records == set(applied.after.records.items()), "its records aren't those that are meant")
    bare = b"".join(line for line in text.splitlines(keepends=True) if not line.startswith(b"*"))
    written = case.run("write", "filed")
    is_written = written.out == bare or written.out.startswith(b"refused V13 ")
    case.need("deck is written", is_written, "`write` prints it otherwise")


def without_numbers(rows):
    """What each image sees of which device."""
    return sorted(row[:11] + row[15:] for row in rows)


def try_way_back(case, deck, applied, lines, words):
    """The change and what `--undo` prints of it, in one change deck, lead back to the deck and to what was seen."""
    back = case.run(*words, "--undo").out
    case.put("both", case.files["change"] + b"\n" + back)
    parts = [[edit.action, edit.key, edit.record] for edit in edits_of(back)]
    case.agree("undo edits", parts, [[edit.action, edit.key, edit.record] for edit in applied.inverses()])
    notes = [line for line in back.decode("latin-1").splitlines() if line.startswith("*")]
    case.agree("undo notes", notes, applied.notes())
    way = ("apply", "deck", "both", *LARGEST_HEAP)
    table = case.run(*way)
    if table.line().startswith(GIVEN_BACK):
        wanted = apply_change(deck.state, case.files["both"]).line()
        case.agree("way back", table.line(), wanted)
        return
    rows = rows_of(table.out.decode("latin-1")) if table.status == 0 else []
    case.agree("way back", without_numbers(rows), without_numbers(deck.table()[1:]))
    case.agree("deck back", case.run(*way, "--deck").out, case.run("write", "deck").out)


def try_undo(case, deck, applied, lines, words):
    """A script that activates the change and undoes it ends with the table of the beginning, numbers too; one that
    makes it again with that after the change."""
    is_redone = case.dice.random() < 0.5
    case.put("script", REDO_SCRIPT if is_redone else UNDO_SCRIPT)
    text = case.run("run", "deck", "script", "change", *words[3:]).out.decode("latin-1").splitlines()
    answers = ["1 change 1", "2 undone 1"]
    if is_redone:
        case.agree("redone", text, [*answers, "3 redone 1", "trace 3", *lines[1:]])
    else:
        case.agree("undone", text, [*answers, "trace 2", *deck.table()])
