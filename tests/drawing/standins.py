"""Stand-ins: the program with one mistake in what it answers. Each property has to fail on one of its own."""
import os
import re
from typing import Callable, NamedTuple

from . import kinds
from .running import LONGEST, Program


class StandIn(NamedTuple):
    """The property that it breaks, the cases by which this is found, the answers that it spoils, and how."""

    name: str
    kind: Callable
    is_meant: Callable
    spoil: Callable


class Spoiled(Program):
    """The program, with some of its answers spoiled."""

    def __init__(self, binary, room, stand_in):
        super().__init__(binary, room)
        self.stand_in = stand_in

    def run(self, *words, full=False, source=""):
        answer = super().run(*words, full=full, source=source)
        return self.stand_in.spoil(answer) if self.stand_in.is_meant(answer) else answer


# which answers are spoiled


def of(*words):
    """Answers to a command with these words, where it was done."""
    return lambda answer: answer.status == 0 and set(words) <= set(answer.words)


def only(command, *without):
    """Answers to a command without these words, where it was done."""
    return lambda answer: answer.status == 0 and answer.words[0] == command and not set(without) & set(answer.words)


def refused(*words):
    return lambda answer: answer.status == 1 and set(words) <= set(answer.words)


def refused_but(command):
    return lambda answer: answer.status == 1 and answer.words[0] != command


def both(one, other):
    return lambda answer: one(answer) and other(answer)


def says(pattern):
    return lambda answer: re.search(pattern, answer.out) is not None


EMPTY_RUN = b"trace 0\nCSS IM SET SUBC DEVN PIM PAM CHPIDS\n"
REPORTS = ("--test", "--count", "--altered", "--deck", "--plan", "--undo")


# how they are spoiled


def lines(change):
    """Another list of lines."""

    def spoil(answer):
        return answer._replace(out=b"".join(change(answer.out.splitlines(keepends=True))))

    return spoil


def text(pattern, other):
    """The first place that a pattern finds has another text."""
    return lambda answer: answer._replace(out=re.sub(pattern, other, answer.out, count=1))


def next_number(pattern):
    """The number behind a text is one more."""

    def more(found):
        return found[1] + b"%d" % (int(found[2]) + 1)

    return lambda answer: answer._replace(out=re.sub(rb"(%s)(\d+)" % pattern, more, answer.out, count=1))


def said_with(pattern, other):
    """The first place on standard error that a pattern finds has another text."""
    return lambda answer: answer._replace(said=re.sub(pattern, other, answer.said, count=1))


def all_said(said):
    return lambda answer: answer._replace(said=said)


def with_status(status):
    return lambda answer: answer._replace(status=status)


def printed(out, status):
    return lambda answer: answer._replace(out=out, status=status)


def without_last(them):
    return them[:-1]


def without_row(them):
    """A table without its last row, or a row more."""
    return them[:-1] if not them[-1].startswith(b"CSS") else [*them, b"0   1  0   0000 1000 C0  C0  50 51\n"]


def first_twice(them):
    return them[:1] + them


def turned(them):
    """The last two statements change places, where each is one line."""
    if len(them) > 1 and all(line.startswith(b" " * 9) for line in them[-2:]):
        return them[:-2] + them[:-3:-1] if b" " * 15 not in (them[-1][:15], them[-2][:15]) else them
    return them


def without_subchannel(them):
    """The rows of `--altered` without the last."""
    return them[:-1] if len(them) > 2 else [*them, b"= 5   F  3   FFFF\n"]


STAND_INS = (
    StandIn("form", kinds.breaching_deck, refused("check"), text(rb"refused (\w+)", rb"refused  \1")),
    StandIn("form", kinds.legal_deck, of("show"), text(rb"(?m)^(\d) ", rb"\1")),
    StandIn("form", kinds.legal_deck, of("write"), text(rb"(?m)^ {9}", rb" " * 8)),
    StandIn("status", kinds.faulty_deck, refused("check"), with_status(0)),
    StandIn("lines", kinds.legal_deck, of("check", "--json"), text(rb'"type"', b' "type"')),
    StandIn("lines", kinds.legal_deck, of("show", "--json"), text(rb'"pim":"', b'"pim":"1')),
    StandIn("lines", kinds.legal_deck, of("list", "--json"), text(rb'"online":', b'"online":1')),
    StandIn("status", kinds.legal_deck, of("check"), with_status(1)),
    StandIn("place", kinds.breaching_deck, refused("check"), said_with(rb"deck, line ", rb"deck, line 1")),
    StandIn("place", kinds.wrong_change, refused("apply"), said_with(rb"(change|input), ", rb"deck, ")),
    StandIn("place", kinds.faulty_script, refused("run"), said_with(rb", line (\d+)", rb", line \g<1>0")),
    StandIn("line shown", kinds.faulty_deck, refused("check"), said_with(rb" \| .", b" | ")),
    StandIn("all faults", kinds.faulty_deck, refused("--all"), lambda it: it._replace(said=it.said * 2)),
    StandIn("remark", kinds.breaching_deck, refused("check"), all_said(b"")),
    StandIn("remark", kinds.legal_deck, of("show"), all_said(b"a word\n")),
    StandIn("remark", kinds.legal_deck, of("check"), all_said(b"")),
    StandIn("check as read", kinds.spoiled_deck, refused("check"), next_number(rb"refused S\d line ")),
    StandIn("check as read", kinds.breaching_deck, refused("check"), text(rb"refused V5", rb"refused V6")),
    StandIn("check as drawn", kinds.legal_deck, of("check"), next_number(rb"accepted ")),
    StandIn("check as drawn", kinds.legal_deck, of("check"), printed(b"refused S4 line 1\n", 1)),
    StandIn("first refusal", kinds.faulty_deck, refused_but("check"), next_number(rb"line ")),
    StandIn("first refusal", kinds.breaching_deck, refused("show"), text(rb"refused V\d+", rb"refused V1")),
    StandIn("first refusal", kinds.pair, refused("diff"), text(rb"refused V\d+", rb"refused V1")),
    StandIn("all begins", kinds.breaching_deck, refused("--all"), lines(lambda them: them[1:] + them[:1])),
    StandIn("all breaches", kinds.breaching_deck, refused("--all"), lines(lambda them: them[:1])),
    StandIn("show as read", kinds.legal_deck, only("show", "written"), lines(without_row)),
    StandIn("show as read", kinds.spoiled_deck, of("show"), text(rb" 80  (\w\w)  ", rb" 40  \1  ")),
    StandIn("write as drawn", kinds.legal_deck, of("write"), text(rb"UNITADD=0", rb"UNITADD=1")),
    StandIn("write as drawn", kinds.legal_deck, of("write"), lines(without_last)),
    StandIn("write as read", kinds.odd_deck, of("write"), text(rb"UNITADD=0", rb"UNITADD=1")),
    StandIn("write of write", kinds.legal_deck, of("write", "written"), lines(first_twice)),
    StandIn("written means the same", kinds.legal_deck, of("check", "written"), next_number(rb"accepted ")),
    StandIn("written means the same", kinds.legal_deck, of("show", "written"), lines(without_row)),
    StandIn("vary", kinds.legal_deck, of("vary", "offline"), text(rb"(?m)^DELETE  ", rb"ADD     ")),
    StandIn("vary", kinds.legal_deck, of("vary", "online"), lines(without_last)),
    StandIn("list paths", kinds.legal_deck, of("list", "paths"), lines(without_last)),
    StandIn("list units", kinds.legal_deck, of("list", "units"), text(rb"  (\d+)  (?=\S*\n)", rb"  1\1  ")),
    StandIn("list devices", kinds.legal_deck, of("list", "devices"), text(rb"(\d)/(\d):", rb"\2/\1\1:")),
    StandIn("list images", kinds.legal_deck, of("list", "images"), lines(first_twice)),
    StandIn("filters", kinds.legal_deck, of("show", "--path"), lines(without_row)),
    StandIn("filters", kinds.legal_deck, of("show", "--image"), lines(without_row)),
    StandIn("filters", kinds.legal_deck, of("show", "--device"), lines(without_row)),
    StandIn("filters", kinds.legal_deck, of("show", "--unit"), lines(without_row)),
    StandIn("filters", kinds.legal_deck, of("show", "--paths-online"), lines(without_row)),
    StandIn("apply as read", kinds.right_change, only("apply", *REPORTS), next_number(rb"altered ")),
    StandIn("apply as read", kinds.wrong_change, refused("apply"), next_number(rb" node ")),
    StandIn("table after", kinds.right_change, only("apply", *REPORTS), lines(without_row)),
    StandIn("memory", kinds.right_change, only("apply", "--heap"), printed(b"refused M1\n", 1)),
    StandIn("heap", kinds.right_change, of("apply", "--heap"), next_number(rb"altered ")),
    StandIn("reports agree", kinds.wrong_change, refused("apply", "--test"), next_number(rb" node | line ")),
    StandIn("reports agree", kinds.wrong_change, refused("apply", "--undo"), printed(b"change 1 altered 0\n", 0)),
    StandIn("test", kinds.right_change, of("--test"), next_number(rb"altered ")),
    StandIn("altered head", kinds.right_change, of("--altered"), next_number(rb"altered ")),
    StandIn("altered rows", kinds.right_change, of("--altered"), text(rb"\n- [^\n]*", rb"")),
    StandIn("altered rows", kinds.right_change, of("--altered"), text(rb"\n\+ [^\n]*", rb"")),
    StandIn("altered count", kinds.right_change, of("--altered"), lines(without_subchannel)),
    StandIn("count", kinds.right_change, of("--count"), text(rb"gone (\d+) came 0", rb"gone 0 came \1")),
    StandIn("count", kinds.right_change, of("--count"), next_number(rb"changed ")),
    StandIn("remarks", kinds.right_change, of("--deck"), text(rb" isn't online", rb" is online")),
    StandIn("deck after", kinds.right_change, of("--deck", "change"), text(rb"UNITADD=0", rb"UNITADD=1")),
    StandIn("deck after", kinds.right_change, of("--deck", "change"), text(rb"(?m)^\*.*\n", rb"")),
    StandIn("deck as drawn", kinds.right_change, of("--deck", "change"), lines(without_last)),
    StandIn("deck is written", kinds.right_change, of("--deck", "change"), lines(turned)),
    StandIn("undo edits", kinds.right_change, of("--undo"), text(rb"(?m)^ADD   ", rb"MODIFY")),
    StandIn("undo notes", kinds.right_change, of("--undo"), text(rb"had lpm \w\w", rb"had lpm 3C")),
    StandIn("undo notes", kinds.right_change, of("--undo"), text(rb"(?m)^\* css .*\n", rb"")),
    StandIn("way back", kinds.right_change, only("apply", "change", "--deck"), lines(without_row)),
    StandIn("way back", kinds.right_change, of("--undo"), lines(lambda them: them[:-2] + them[-1:])),
    StandIn("deck back", kinds.right_change, of("both", "--deck"), lines(without_last)),
    StandIn("undone", kinds.right_change, of("run"), lines(without_row)),
    StandIn("undone", kinds.right_change, of("run"), next_number(rb"trace ")),
    StandIn("redone", kinds.right_change, both(of("run"), says(rb"redone")), lines(without_row)),
    StandIn("no edit", kinds.pair, of("diff", "new"), printed(b"ADD      ID\n", 0)),
    StandIn("edits said", kinds.pair, of("diff", "old", "new"), all_said(b"10000 edits\n")),
    StandIn("edits", kinds.pair, only("diff", "--old"), lines(without_last)),
    StandIn("edit", kinds.pair, only("diff", "--old"), text(rb"UNITADD=0", rb"UNITADD=1")),
    StandIn("edit", kinds.pair, only("diff", "--old"), text(rb"(?m)^ADD   ", rb"MODIFY")),
    StandIn("loop", kinds.pair, of("apply", "--deck"), lines(without_last)),
    StandIn("loop", kinds.pair, of("apply", "--deck"), printed(b"refused V5 node 0 unit 1000\n", 1)),
    StandIn("loop as read", kinds.pair, of("apply", "--deck"), printed(b"refused V13 node 0 device 0.1000\n", 1)),
    StandIn("plan", kinds.pair, of("plan"), next_number(rb" gone, ")),
    StandIn("plan", kinds.pair, of("plan"), text(rb"(?m)^[-+~] .*\n", rb"")),
    StandIn("plan of change", kinds.right_change, of("--plan"), next_number(rb" came, ")),
    StandIn("plan of itself", kinds.pair, of("plan", "--brief"), text(rb"nothing differs", rb"nothing")),
    StandIn("told", kinds.pair, lambda answer: answer.words[0] == "plan" and answer.status == 4, with_status(0)),
    StandIn("old in comments", kinds.pair, of("diff", "--old"), text(rb"(?m)^(ADD|DELETE|MODIFY) .*\n", rb"")),
    StandIn("script refused", kinds.faulty_script, refused("run"), next_number(rb"refused K\d line ")),
    StandIn("script refused", kinds.faulty_script, refused("run"), printed(EMPTY_RUN, 0)),
    StandIn("answers", kinds.right_script, of("run"), text(rb"cc 0", rb"cc 1")),
    StandIn("answers in a small heap", kinds.right_script, of("run", "--heap"), next_number(rb"undone |change |cc ")),
    StandIn("answers", kinds.right_script, of("run"), text(rb"scsw 9", rb"scsw 1")),
    StandIn("answers", kinds.right_script, of("run"), text(rb"(?m) (refused J1|refused O2)$", rb" refused J3")),
    StandIn("answers", kinds.right_script, both(of("run"), says(rb"undone 1\n")), lines(without_row)),
    StandIn("not understood", kinds.words, lambda answer: answer.status == 2, with_status(1)),
    StandIn("files", kinds.words, lambda answer: answer.status == 3, with_status(1)),
    StandIn("files", kinds.words, lambda answer: answer.status == 3, all_said(b"fault L7\n")),
)
# programs in place of the program: one never ends, one is ended by a signal, one prints nothing
SCRIPTS = {
    "time": "#!/bin/sh\nexec sleep 20\n",
    "status": "#!/bin/sh\nkill -SEGV $$\n",
    "check as read": "#!/bin/sh\nexit 0\n",
}


def script_of(room, name):
    """A program in a file."""
    path = os.path.join(room, "stand-in " + name)
    with open(path, "w", encoding="ascii") as file:
        file.write(SCRIPTS[name])
    os.chmod(path, 0o755)
    return path


def programs(binary, room):
    """Each stand-in as a program, with the property that it breaks and the kind of cases that shows it."""
    for name in SCRIPTS:
        yield name, kinds.legal_deck, Program(script_of(room, name), room, 0.2 if name == "time" else LONGEST)
    for stand_in in STAND_INS:
        yield stand_in.name, stand_in.kind, Spoiled(binary, room, stand_in)
