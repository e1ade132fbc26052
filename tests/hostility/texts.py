"""Texts of 100 MB and more: blanks, comments, one endless statement, very many statements; and very large machines.

Right is the answer that is meant, or `refused M1`, in a time that grows in proportion: a text ten times as long takes
at most GROWTH times as long a byte, and a machine ten times as large a device. A process has 8 GB of address space
here, so that the machine stays at work. The table of sizes, times and memory is printed.
"""
import os
import re
import subprocess
import tempfile
from typing import Callable, NamedTuple, Union

from . import commands
from .measuring import measured
from .running import Command

MB = 1_000_000
GROWTH, SLACK = 2, 0.05  # times as long a byte, and seconds that are too few to compare
LITTLE = 512 * MB  # of address space
BLOCK = 1 << 20
NO_MEMORY = b"refused M1\n"
BASE = os.path.join(commands.EXAMPLES, "base.deck")
CHANGE = os.path.join(commands.EXAMPLES, "add-a-device.change")
LARGE_DECK = os.path.join(commands.TOP, "bench", "large-deck")
IMAGES = b"         RESOURCE PARTITION=((LPA,1))\n"
CHECK, SHOW, INPUT = ("check", "text"), ("show", "text"), ("check", "-")
APPLY = ("apply", BASE, "text", "--test")
RUN = ("run", BASE, "text")


class Text(NamedTuple):
    """A kind of text: the command that reads it, how it begins, what comes over and over, what is printed, and how it
    ends. Its sizes in bytes are those of the short form, and of `--all`."""

    name: str
    words: tuple
    first: bytes
    again: Union[bytes, Callable]
    wanted: bytes
    sizes: tuple
    all_sizes: tuple
    last: bytes = b""


def card(text, fill=b" "):
    """A card that is continued: its text ends with a comma, or is filled up to column 71."""
    return text.ljust(71, fill) + b"X\n"


def more(text):
    """A card that continues one and is continued: it holds this text as often as there is room."""
    return card(b" " * 15 + text * (56 // len(text)))


def differing(form, count_of):
    """Cards that continue one, of words that differ: they are numbered, up or down."""

    def cards(size):
        for first in range(0, size // 72):
            words = (form % count_of(size, first * 5 + place) for place in range(5))
            yield card(b" " * 15 + b"".join(words))

    return cards


def units_of_a_path(size):
    """Control units that no rule forbids, all on one path: they differ in CUADD, or in their unit address."""
    for unit in range(size // 144):
        text = b"         CNTLUNIT CUNUMBR=%04X,PATH=((CSS(0),50)),UNITADD=((%02X,1))," % (unit, unit % 256)
        yield card(text) + b" " * 15 + b"CUADD=%02X\n" % (unit // 256)


def up(_, number):
    return number


def down(size, number):
    return size - number


BIG, BIGGER = (10 * MB, 100 * MB), (100 * MB, 1000 * MB)
SMALL = (MB, 10 * MB)
TABLE = rb"trace \d+\nCSS "
LINE_1 = rb"refused S\d+ line 1\n"
LINE_2 = rb"refused S\d line 2\n"
BREACH = rb"refused V2 path 0.50\n"
TOO_MANY = rb"refused C2 line 4097\n"
DEVICE = b"         IODEVICE ADDRESS=1000,CUNUMBR=1000\n"
FAULTY = b"         CHPID PATH=5G\n"
DELETION = b"DELETE   IODEVICE ADDRESS=1003\n"
STORE, STORED = b"A store 0.1.0.0000\n", rb"1 cc 0 dev 1000 "
BLANKS = b" " * 80 + b"\n"
ROUND, CHANGED = b"P activate 1\nQ show\n" * 7 + b"sync\n", rb"1 (change 1|refused)"
REST = more(b"A")
OPERAND = card(b"         RESOURCE A", b"A")
IMAGE_LIST = card(b"         RESOURCE PARTITION=((LPA,1),")
IMAGE_LIST_END = b" " * 15 + b"(LPA,1))\n"
PATH = IMAGES + b"         CHPID PATH=(CSS(0),50),SHARED,PARTITION=((LPA),(LPA))\n"
IMAGES_ON = card(b"         RESOURCE PARTITION=((LPA,1)),")
NAMES = IMAGES + card(b"         CHPID PATH=50,SHARED,PARTITION=((LPA,")
NAMES_END = b" " * 15 + b"LPA))\n"
END = b" " * 15 + b"A\n"
TEXTS = (
    Text("a line of blanks", CHECK, b"", b" " * 100, rb"refused L2 line 1\n", BIG, BIGGER),
    Text("the same of standard input", INPUT, b"", b" " * 100, rb"refused L2 line 1\n", BIG, BIGGER),
    Text("lines of 80 blanks", CHECK, b"", BLANKS, rb"accepted 0\n", BIG, BIGGER),
    Text("the same of standard input", INPUT, b"", BLANKS, rb"accepted 0\n", BIG, BIGGER),
    Text("empty lines", CHECK, b"", b"\n", rb"accepted 0\n", SMALL, BIG),
    Text("comments", CHECK, b"", b"* a comment\n", rb"accepted 0\n", SMALL, BIG),
    Text("a statement that isn't ended", CHECK, OPERAND, REST, rb"refused L4 line \d+\n", BIG, BIGGER),
    Text("an operation", CHECK, card(b"         A", b"A"), REST, LINE_1, BIG, BIGGER, END),
    Text("an operand", CHECK, OPERAND, REST, rb"accepted 1\n", BIG, BIGGER, END),
    Text("a quote", CHECK, card(b"         ID MSG1='", b"A"), REST, LINE_1, BIG, BIGGER, END),
    Text("parentheses", CHECK, card(b"         RESOURCE A=", b"("), more(b"("), LINE_1, BIG, BIGGER, END),
    Text("images", CHECK, IMAGE_LIST, more(b"(LPA,1),"), rb"refused S8 line 1\n", SMALL, BIG, IMAGE_LIST_END),
    Text("operands", CHECK, IMAGES_ON, more(b"A,"), rb"accepted 2\n", SMALL, BIG, END),
    Text("keywords", CHECK, IMAGES_ON, more(b"B=1,"), rb"refused S2 line 1\n", SMALL, BIG, END),
    Text("keywords that differ", CHECK, IMAGES_ON, differing(b"K%06X=1,", up), rb"accepted 2\n", SMALL, BIG, END),
    Text("the same downwards", CHECK, IMAGES_ON, differing(b"K%06X=1,", down), rb"accepted 2\n", SMALL, BIG, END),
    Text("names of a list", CHECK, NAMES, more(b"LPA,"), rb"accepted 3\n", SMALL, BIG, NAMES_END),
    Text("names that differ", CHECK, NAMES, differing(b"N%06X,", up), BREACH, SMALL, BIG, NAMES_END),
    Text("the same downwards", CHECK, NAMES, differing(b"N%06X,", down), BREACH, SMALL, BIG, NAMES_END),
    Text("units of a path", CHECK, PATH, units_of_a_path, rb"accepted \d+\n", (MB // 10, MB), (MB, 9 * MB)),
    Text("one statement over and over", CHECK, IMAGES, DEVICE, rb"refused S8 line 3\n", SMALL, (43 * MB, 430 * MB)),
    Text("statements with a fault", (*CHECK, "--all"), IMAGES, FAULTY, LINE_2, SMALL, (23 * MB, 230 * MB)),
    Text("a change deck of blanks", APPLY, b"", BLANKS, rb"change 1 altered 0\n", BIG, BIGGER),
    Text("a change deck of a statement", APPLY, card(b"ADD      CHPID A", b"A"), REST, LINE_1, BIG, BIGGER, END),
    Text("a change deck of statements", APPLY, b"", DELETION, TOO_MANY, SMALL, (31 * MB, 310 * MB)),
    Text("the same in a large heap", (*APPLY, "--heap", "16777216"), b"", DELETION, TOO_MANY, SMALL, BIG),
    Text("a change deck of groups", APPLY, b"", b"         GROUP\n", rb"refused C1 line 33\n", SMALL, BIG),
    Text("a script of blanks", RUN, b"", BLANKS, TABLE, BIG, BIGGER),
    Text("a script of an image", RUN, b"", STORE, STORED, (MB // 5, 2 * MB), (19 * MB, 190 * MB)),
    Text("a script of short rounds", RUN, b"", STORE + b"sync\n", STORED, (2400, 24_000), (24_000, 240_000)),
    Text("a script of full rounds", (*RUN, CHANGE), b"", ROUND, CHANGED, (14_000, 140_000), (140_000, 1_400_000)),
)
MACHINES = (("1 15 4000", "1 15 40000"), ("6 15 26112", "6 15 261120"))
MACHINE_WORDS = (
    (SHOW, rb"CSS IM "),
    (CHECK, rb"accepted \d+\n"),
    (("apply", "text", "change", "--test"), rb"change 1 altered \d+\n"),
)


def tried(program, tally, is_all):
    print("| Text | Size | Bytes read and printed | Answer | Processor s | MB | ns a byte |")
    print("|---|---|---|---|---|---|---|")
    with tempfile.TemporaryDirectory() as room:
        for text in TEXTS:
            sizes = text.all_sizes if is_all else text.sizes
            try_sizes(program, tally, room, text, [(f"{size // 1000:,} kB", size) for size in sizes], write)
        with open(os.path.join(room, "change"), "wb") as file:
            file.write(b"DELETE   IODEVICE ADDRESS=0001\n")
        for words, wanted in MACHINE_WORDS:
            machine = Text("a large machine", words, b"", b"", wanted, (), ())
            sizes = [(size, size) for size in MACHINES[is_all]]
            try_sizes(program, tally, room, machine, sizes, write_machine, devices_of)
        try_endless(program, tally, room)


def write(path, text, size):
    """Writes a text of a kind, of some size."""
    with open(path, "wb") as file:
        file.write(text.first)
        for part in text.again(size) if callable(text.again) else over_and_over(text.again, size):
            file.write(part)
        file.write(text.last)


def over_and_over(part, size):
    """The same part up to some size, in large blocks."""
    block = part * (BLOCK // len(part) + 1)
    for _ in range(size // len(block)):
        yield block
    yield part * (size % len(block) // len(part))


def write_machine(path, _, words):
    """Writes the deck of a large machine."""
    with open(path, "wb") as file:
        subprocess.run([LARGE_DECK, *words.split()], stdout=file, check=True)


def devices_of(words):
    """How many devices a large machine has: a deck says of many in few bytes."""
    return int(words.split()[-1])


def try_sizes(program, tally, room, text, sizes, write_text, amount_of=None):
    """Two sizes of a text: both are answered, and the larger one in proportion to its bytes, or to another amount."""
    path, times = os.path.join(room, "text"), []
    for name, size in sizes:
        write_text(path, text, size)
        got = measured([program.binary, *text.words], room, given=path if "-" in text.words else os.devnull)
        count = os.path.getsize(path) + got.count
        print(row(text, name, count, got), flush=True)
        tally.note(way_of(text.wanted, got), Command(text.words, room), f"{text.name}, {name}", got)
        times.append((got.seconds, amount_of(size) if amount_of else count))
    (least, few), (most, many) = times
    if most > max(least, SLACK) * GROWTH * many / few:
        tally.fault(f"{text.name}: {most:.1f} s for {many:,}, {least:.1f} s for {few:,}")


def row(text, size, count, got):
    """A line of the table."""
    words = " ".join(os.path.basename(word) for word in text.words)
    answer = got.begins.split(b"\n")[0].decode("latin-1")[:24]
    taken = f"{got.seconds:.2f} | {got.memory:,} | {got.seconds * 1e9 / count:.0f}"
    return f"| {text.name}, `{words}` | {size} | {count:,} | `{answer}` | {taken} |"


def way_of(wanted, got):
    if got.status == 1 and got.begins == NO_MEMORY:
        return "M1"
    is_right = got.status == (1 if got.begins.startswith(b"refused ") else 0) and re.match(wanted, got.begins)
    return "answered" if is_right else None


def try_endless(program, tally, room):
    """A file without an end, in little address space."""
    for name in ("/dev/zero", "-"):
        got = measured([program.binary, "check", name], room, LITTLE, "/dev/zero")
        way = "M1" if got.status == 1 and got.begins == NO_MEMORY else None
        tally.note(way, Command(("check", name), room), "an endless file", got)
