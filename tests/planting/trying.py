"""A try: one check of a crate with some of its edits planted, and what is to be tried after it.

Edits in the bodies of different functions are tried by one check. The prover takes each function by itself, from the
contracts of the others, so the mistake of one changes nothing that is proved of another.
`tries_of(crate, edits, kept)` says what to begin with.
"""
import os

from . import edits as files
from . import kit, places, verdicts


def reader(crate):
    """What reads a file of a crate; None for one that isn't there."""

    def read(path):
        whole = os.path.join(kit.folder(crate), path)
        if not os.path.isfile(whole):
            return None
        with open(whole, encoding="utf-8") as file:
            return file.read()

    return read


class Together:
    """A check of the functions in whose bodies some edits lie, no two in one function.
    Each edit has to be refused at its own."""

    def __init__(self, crate, edits, kept):
        self.crate, self.edits, self.kept = crate, edits, kept
        self.functions = {it: places.places_of(it, reader(crate)) for it in edits}

    def memory(self):
        return kit.memory(self.crate)

    def run(self):
        pairs = [pair for it in self.edits for pair in it.pairs]
        texts, wrong = files.applied(pairs, reader(self.crate))
        if wrong:
            return {}, self.halves()
        names = sorted({it.named() for found in self.functions.values() for it in found})
        output, _ = kit.check(self.crate, texts, names, self.kept)
        if not verdicts.has_ended(output):
            return {}, self.halves()
        found = {it: verdicts.on_functions(self.functions[it], self.crate, output) for it in self.edits}
        # a name that a proof lacks may be lacking for another edit, and a function may be proved since another isn't
        alone = len(self.edits) == 1
        told = {it: verdict for it, verdict in found.items() if verdict and (alone or verdict.goals)}
        left = [it for it in self.edits if it not in told]
        if not left:
            return told, []
        return told, [Together(self.crate, left, self.kept)] if told else self.halves()

    def halves(self):
        """What is tried if nothing is known of any of the edits:
        half of them at a time, and one by a check of the whole crate."""
        half = len(self.edits) // 2
        if not half:
            return [Whole(self.crate, self.edits[0], self.kept)]
        return [Together(self.crate, part, self.kept) for part in (self.edits[:half], self.edits[half:])]


class Whole:
    """A check of a whole crate with one edit. If the crate lets an edit of a definition stand,
    the worked examples may not."""

    def __init__(self, crate, edit, kept, examples=None):
        self.crate, self.edit, self.kept, self.examples = crate, edit, kept, examples

    def memory(self):
        return kit.memory(self.crate)

    def run(self):
        texts, wrong = files.applied(self.edit.own_pairs(), reader(self.crate))
        if wrong:
            return {self.edit: verdicts.Verdict(False, why=f"BAD EDIT: {wrong}")}, []
        output, status = kit.check(self.crate, texts, (), self.kept)
        if status == 0 and self.examples:
            return {}, [self.examples(self.crate, self.edit)]
        return {self.edit: verdicts.on_crate(self.edit, output, status)}, []


class Untried:
    """Edits of a crate that can't be tried, since a library below it isn't there."""

    def __init__(self, edits, library):
        self.edits, self.library = edits, library

    def memory(self):
        return 0

    def run(self):
        why = (
            f"NOT JUDGED: the library {self.library} isn't built of the sources as they are: "
            "run rt ci, or rt lib in its folder"
        )
        return {it: verdicts.Verdict(False, why=why) for it in self.edits}, []


def tries_of(crate, edits, kept, examples=None):
    """The tries that a crate's edits begin with: as few checks as there can be,
    so that no two edits of one lie in one function."""
    batches, tries = [], []
    for edit in edits:
        found = places.places_of(edit, reader(crate))
        keys = {it.key() for it in found or ()}
        batch = next((it for it in batches if not keys & it[0]), None) if found else None
        if not found:
            tries.append(Whole(crate, edit, kept, examples))
        elif batch:
            batch[0].update(keys)
            batch[1].append(edit)
        else:
            batches.append((keys, [edit]))
    return [Together(crate, batch, kept) for _, batch in batches] + tries
