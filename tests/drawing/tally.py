"""Counts of all cases: kinds, answers, refusals, and properties that were tried."""
import collections
import re

RULES = [f"L{place}" for place in range(1, 7)] + [f"S{place}" for place in range(1, 11)]
RULES += [f"V{place}" for place in range(1, 15)] + ["E1", "E2", "E3", "B1", "C1", "C2", "J1", "J2", "J3", "O1", "O2"]
RULES += ["K1", "K2", "K3", "M1"]
# these are printed by no command, as docs/MESSAGES.md says
NEVER = ("E4", "O3", "Q1", "X1", "G1")
REFUSAL = re.compile(rb"^(?:\d+ )?refused ([A-Z]\d+)", re.M)


class Tally:
    def __init__(self):
        self.kinds, self.accepted, self.refused = collections.Counter(), collections.Counter(), collections.Counter()
        self.tried, self.failed, self.cut_short = collections.Counter(), 0, 0
        self.runs, self.seconds = 0, 0.0
        self.decks, self.slowest = collections.Counter(), 0.0

    def answer(self, kind, answer):
        """Counts the answer of a run."""
        self.runs += 1
        self.seconds += answer.seconds
        self.slowest = max(self.slowest, answer.seconds)
        if answer.status == 0:
            self.accepted[kind] += 1
        self.refused.update({rule.decode() for rule in REFUSAL.findall(answer.out)})
        if answer.said.startswith(b"fault "):
            self.refused[answer.said[6:8].decode()] += 1

    def add(self, other):
        """Joins the counts of another process."""
        for name in ("kinds", "accepted", "refused", "tried", "decks"):
            getattr(self, name).update(getattr(other, name))
        self.failed, self.cut_short = self.failed + other.failed, self.cut_short + other.cut_short
        self.runs += other.runs
        self.seconds, self.slowest = self.seconds + other.seconds, max(self.slowest, other.slowest)

    def lines(self, seconds, processor):
        """The table that is printed at the end, after so many seconds, and so many of a processor."""
        cases = sum(self.kinds.values())
        yield f"{cases:,} cases in {seconds:.0f} s: " + listed(self.kinds)
        rate, of_processor = self.runs / max(seconds, 0.001), self.runs / max(processor, 0.001)
        mean = 1000 * self.seconds / max(self.runs, 1)
        yield f"{self.runs:,} runs, {rate:.0f} a second, {of_processor:.0f} a second of a processor"
        yield f"a run took {mean:.1f} ms, the longest {self.slowest:.2f} s"
        accepted, decks = self.decks["accepted"], max(self.decks.total(), 1)
        yield f"decks: {listed(self.decks)}; {100 * accepted / decks:.0f}% accepted"
        yield "done: " + listed(self.accepted)
        yield "refused: " + listed({rule: self.refused[rule] for rule in RULES if self.refused[rule]})
        missing = [rule for rule in RULES if not self.refused[rule]]
        yield "not reached: " + (", ".join(missing) or "none")
        yield "properties: " + listed(self.tried)


def listed(counts):
    return ", ".join(f"{name} {count:,}" for name, count in counts.items())
