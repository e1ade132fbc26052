"""The commands that are tried: on examples/, and on the files of tests/cases."""
import os

from .running import Command

TOP = os.path.dirname(os.path.dirname(os.path.dirname(os.path.abspath(__file__))))
EXAMPLES = os.path.join(TOP, "examples")
CASES = os.path.join(TOP, "tests", "cases")
REPORTS = ("--altered", "--count", "--deck", "--test", "--undo")
LARGEST = 20_480  # bytes of a case's files
share = slice(None)  # which of all commands are tried, where several processes try some each


def script_words(script):
    """The words of `run` for a script of examples/: its last line names the change decks."""
    with open(os.path.join(EXAMPLES, script), encoding="ascii") as file:
        return ["run", "base.deck", script] + file.read().splitlines()[-1].split()[2:]


def names(ending):
    return [name for name in sorted(os.listdir(EXAMPLES)) if name.endswith(ending)]


def scripts():
    """Each script of examples/."""
    return [Command(tuple(script_words(name)), EXAMPLES) for name in names(".script")]


def short_words():
    """One command of each kind, and of each kind of refusal that has a line, a node, a file or several of them."""
    yield ["check", "base.deck"]
    yield ["check", "refused.deck", "--all"]
    yield ["show", "base.deck"]
    yield ["write", "grown.deck"]
    yield ["diff", "base.deck", "grown.deck"]
    yield ["diff", "base.deck", "grown.deck", "--old"]
    for kind in ("images", "paths", "units", "devices"):
        yield ["list", kind, "base.deck"]
        yield ["list", kind, "base.deck", "--json"]
    yield ["vary", "base.deck", "offline", "50", "51"]
    yield ["explain", "V14"]
    yield ["explain"]
    yield ["apply", "base.deck", "grown.change"]
    for report in REPORTS:
        yield ["apply", "base.deck", "grown.change", report]
    yield ["apply", "base.deck", "grown.change", "--altered", "--json"]
    yield ["show", "base.deck", "--json"]
    yield ["apply", "base.deck", "refused.change"]
    yield ["apply", "base.deck", "refused-in-a-group.change", "--quiet"]
    yield script_words("two-images-two-operators.script")
    yield script_words("undo-refused.script")


def short():
    """The commands of the short form: the words above, and standard input as the one file."""
    yield from (Command(tuple(words), EXAMPLES) for words in short_words())
    with open(os.path.join(EXAMPLES, "grown.change"), "rb") as file:
        yield Command(("apply", "base.deck", "-", "--deck"), EXAMPLES, file.read())


def of_examples():
    """Every command on every deck, change deck and script of examples/."""
    decks, changes = names(".deck"), names(".change")
    words = [[*word, deck] for word in (["check"], ["check", "--all"], ["show"], ["write"]) for deck in decks]
    words += [["diff", *old, deck, "base.deck"] for old in ([], ["--old"]) for deck in decks]
    words += [["diff", *old, "base.deck", deck] for old in ([], ["--old"]) for deck in decks]
    reports = [[], *([it] for it in REPORTS)]
    words += [["apply", "base.deck", change, *report] for change in changes for report in reports]
    words += [["list", kind, deck] for kind in ("images", "paths", "units", "devices") for deck in decks]
    words += [["vary", deck, state, "50", "51"] for state in ("offline", "online") for deck in decks]
    words += [["explain"], ["explain", "V14"], ["--help"], ["--version"], ["check", "--help"], ["check"]]
    return [Command(tuple(it), EXAMPLES) for it in words] + scripts()


def of_case(folder):
    """The command of a case, and each other one that can be asked of its files."""
    given = os.path.join(folder, "stdin")
    with open(os.path.join(folder, "cmd"), encoding="utf-8") as file:
        words = file.read().split()
    data = b""
    if os.path.exists(given):
        with open(given, "rb") as file:
            data = file.read()
    yield Command(tuple(words), folder, data)
    if words[1:] == ["deck"]:
        yield from (Command((*word, "deck"), folder) for word in (["check"], ["check", "--all"], ["show"], ["write"]))
    if words[:3] == ["apply", "deck", "change"]:
        yield from (Command((*words, report), folder) for report in REPORTS if len(words) == 3)
    if words[:1] == ["diff"] and words[1:3] == ["old", "new"]:
        yield Command(("diff", "new", "old", "--old"), folder)


def size_of(folder):
    return sum(os.path.getsize(os.path.join(folder, name)) for name in os.listdir(folder))


def of_cases():
    """Every command on the files of every case that is small, and has no output or input of its own."""
    for name in sorted(os.listdir(CASES)):
        folder = os.path.join(CASES, name)
        has_own = any(os.path.exists(os.path.join(folder, own)) for own in ("output", "input"))
        if not has_own and size_of(folder) <= LARGEST:
            yield from dict.fromkeys(of_case(folder))


def everything():
    """Every command, or the share of them that this process tries."""
    return (of_examples() + list(of_cases()))[share]
