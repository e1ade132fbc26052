"""The command ./iocm: which program it runs, and how it comes by it."""
import os
import sys

from .answers import NOTHING_WAS_RUN, Refused, say
from .kit import Kit
from .programs import Programs
from .sources import CODE, PROOFS, Listing, Sources

OPTIONS = ("--unproved", "--proved", "--prove", "--which")
NOT_PROVED = "./iocm --prove proves it"
CHANGED = "a source has changed meanwhile; call it once more"
MADE_OF = {"quick": CODE, "proved": PROOFS}


class Launch:
    """One call: the sources of a tree, and the programs of them that are here."""

    def __init__(self, top):
        self.top, self.kit, self.programs, self.known = top, Kit(), Programs(), {}
        self.programs.open()
        self.sources = Sources(top, self.kit)

    def number(self, kind):
        """The number of the sources of a program, counted once."""
        if kind not in self.known:
            self.known[kind] = self.counted(kind)
        return self.known[kind]

    def counted(self, kind):
        of = MADE_OF[kind]
        return self.sources.number(of, Listing(self.programs.folder, self.top, of))

    def has(self, kind):
        return self.programs.has_any(kind) and self.programs.has(kind, self.number(kind))

    def kind(self, options):
        """Which program is to be run: the one that was asked for, else the proved one if it is here."""
        if "--proved" in options:
            if not self.has("proved"):
                raise Refused(f"the program of these sources isn't proved here: {NOT_PROVED}")
            return "proved"
        return "quick" if "--unproved" in options or not self.has("proved") else "proved"

    def make(self, kind):
        """Builds the program of a kind, if no other call has done so meanwhile."""
        from . import commands, proved, quick, rooms

        commands.end_cleanly()
        build, folder = proved.build if kind == "proved" else quick.build, self.programs.folder
        with rooms.lock(folder, kind):
            if not self.has(kind):
                with rooms.room(folder, kind) as room:
                    number = self.number(kind)
                    program = build(self.top, self.kit, self.sources, room)
                    self.sources = Sources(self.top, self.kit)
                    if self.counted(kind) != number:
                        raise Refused(CHANGED)
                    rooms.put(folder, kind, program, self.programs.path(kind, number))

    def tell(self, kind):
        """Prints which program these sources have here, and what is known of it."""
        if not self.has(kind):
            raise Refused("no program of these sources is here yet: a first call, as ./iocm --version, builds one")
        print(f"program  {self.programs.path(kind, self.number(kind))}")
        print(f"proved   {'yes' if kind == 'proved' else f'no: {NOT_PROVED}'}")
        print(f"sources  {self.number(kind)}")
        print(f"kit      {self.kit.name}")

    def start(self, kind, words):
        """Becomes the program. Its version is told with the commit and the kit."""
        if not self.has(kind):
            self.make(kind)
        path = self.programs.path(kind, self.number(kind))
        if words in (["--version"], ["-V"]):
            return self.tell_version(kind, path)
        sys.stdout.flush()
        sys.stderr.flush()
        os.execv(path, ["iocm", *words])

    def tell_version(self, kind, path):
        from . import version

        commit = version.commit(self.top, self.sources.patterns(MADE_OF[kind]))
        return version.tell(path, commit, self.kit.logic(), kind == "proved")


def run(top, words):
    """Does what the words say. The launcher's own come first, each once."""
    options = []
    while words and words[0] in OPTIONS and words[0] not in options:
        options.append(words.pop(0))
    asked = set(options)
    contradict = {"--proved", "--unproved"} <= asked or "--prove" in asked and len(asked) > 1
    if contradict or words and asked & {"--prove", "--which"}:
        raise Refused(f"these words don't go together: {' '.join([*options, *words])}")
    launch = Launch(top)
    if "--prove" in asked:
        launch.make("proved")
        say(f"proved: {launch.programs.path('proved', launch.number('proved'))}")
        return 0
    kind = launch.kind(options)
    if "--which" in asked:
        launch.tell(kind)
        return 0
    return launch.start(kind, words)


def main(top, words):
    try:
        return run(top, list(words))
    except Refused as why:
        say(why)
    except OSError as error:
        say(f"{error.filename}: {error.strerror}" if error.filename else error)
    say("nothing was run")
    return NOTHING_WAS_RUN
