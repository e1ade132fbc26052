"""Command lines: files that aren't there, outputs that can't be written, words that aren't understood."""
BASE = b"         RESOURCE PARTITION=((LPA,1))\n         CHPID PATH=50,SHARED\n"
NOT_UNDERSTOOD = (
    (), ("check",), ("check", "deck", "deck"), ("show", "deck", "--all"), ("chec", "deck"), ("write",), ("diff",
    "deck"),
    ("apply", "deck"), ("apply", "deck", "change", "--heap", "15"), ("apply", "deck", "change", "--heap", "16777217"),
    ("apply", "deck", "change", "--heap", "x"), ("apply", "deck", "change", "--undo", "--count"), ("run", "deck"),
    ("show", "deck", "--image", "x.y"), ("show", "deck", "--device", "10G0"), ("show", "deck", "--paths-online", "9"),
    ("show", "deck", "--path", "6.50"), ("check", "deck", "--all", "--all"), ("show", "-", "-"), ("diff", "-", "-"),
)
NOT_THERE = (
    ("check", "nothing"), ("show", "nothing"), ("write", "nothing"), ("diff", "deck", "nothing"), ("diff", "nothing",
    "deck"),
    ("apply", "nothing", "change"), ("apply", "deck", "nothing"), ("run", "deck", "nothing"), ("run", "deck",
    "script", "nothing"),
    ("check", "."), ("show", "."), ("apply", "deck", "."), ("run", "deck", "."),
)
WRITES = (("check", "deck"), ("show", "deck"), ("write", "deck"), ("apply", "deck", "change"), ("run", "deck",
          "script"))


def try_words(case):
    """A command line that isn't understood, a file that can't be read, or an output that can't be written."""
    case.put("deck", BASE)
    case.put("change", b"ADD      ID\n")
    case.put("script", b"P show\n")
    kind = case.dice.choice(("understood", "read", "written"))
    if kind == "understood":
        answer = case.run_only(*case.dice.choice(NOT_UNDERSTOOD))
        right = answer.status == 2 and not answer.out and answer.said
        case.need("not understood", right, f"status {answer.status}: {answer.out[:200]!r}")
        return
    words = case.dice.choice(NOT_THERE if kind == "read" else WRITES)
    answer = case.run_only(*words, full=kind == "written")
    fault = b"fault L5\n" if kind == "read" else b"fault L6\n"
    right = answer.status == 3 and not answer.out and answer.said.startswith(fault)
    case.need("files", right, f"status {answer.status}: {answer.said[:200]!r}")
