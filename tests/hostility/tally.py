"""What came of the trials of a part."""
import collections
import resource

MOST_SHOWN = 20  # wrong answers of a part


def processor_seconds():
    """What this process and its children took of the processor so far."""
    both = (resource.getrusage(who) for who in (resource.RUSAGE_SELF, resource.RUSAGE_CHILDREN))
    return sum(used.ru_utime + used.ru_stime for used in both)


class Enough(Exception):
    """A wrong answer was found, and no more is asked."""


class Tally:
    """How many trials of a part were answered in which way, and which answers were wrong. One that is silent prints
    none, and ends the part at the first."""

    def __init__(self, name, is_silent=False):
        self.is_silent = is_silent
        self.name, self.ways, self.wrong, self.skipped = name, collections.Counter(), 0, 0
        self.begun = processor_seconds()

    def note(self, way, command, what, got):
        """Notes in which way a command answered where something failed; `None` is no right one."""
        if way is not None:
            self.ways[way] += 1
            return
        self.wrong += 1
        if self.is_silent:
            raise Enough
        if self.wrong <= MOST_SHOWN:
            print(f"{self.name}: {command.text()}: {what}: {got.text()}", flush=True)

    def fault(self, text):
        """Notes something else that is wrong."""
        self.wrong += 1
        print(f"{self.name}: {text}")

    def skip(self, what, why):
        """Notes what couldn't be tried here."""
        self.skipped += 1
        print(f"{self.name}: skipped: {what}: {why}")

    def passed(self):
        return sum(self.ways.values())

    def line(self):
        ways = ", ".join(f"{count:,} {way}" for way, count in sorted(self.ways.items()))
        seconds = processor_seconds() - self.begun
        tried = f"{self.passed() + self.wrong:,} tried: {ways or 'none right'}; {self.wrong:,} wrong"
        return f"{self.name}: {tried}; {seconds:.0f} processor s"
