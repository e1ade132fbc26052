"""Runs trials, each in a room of its own: `told(word, trials)`."""
import tempfile


def told(word, trials):
    """Prints what each trial gives that doesn't give True, and the counts, after this word; the exit status."""
    failed = 0
    for trial in trials:
        with tempfile.TemporaryDirectory() as room:
            got = trial(room)
        if got is not True:
            failed += 1
            print(f"{trial.__name__}: {got}")
    print(f"{word}: {len(trials) - failed} passed, {failed} failed")
    return 1 if failed else 0
