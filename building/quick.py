"""Builds the program without proofs, with the checks at run time that `rt try` puts in.

`rt try` reads all crates and the kit's libraries as source, makes one module of LLVM of them, has
clang compile it slowly with a sanitizer, and keeps nothing. So it runs here in a stand-in for the
kit whose clang keeps the module and ends it there. Of the module most is never called. So the
kit's linker is given it whole: it drops what `main` doesn't need, optimizes the rest, and makes
objects of it side by side. Symbols of the kit's libraries are missing there; the last link has all.
"""
import os
import shlex
import shutil
import stat

from .answers import Refused, say
from .commands import Steps, run
from .sources import PROGRAM

TARGET = "x86_64-unknown-linux-gnu"
OBJECTS = ("part.o", "part.o1")
LIBRARIES = ("c/libos_c.a", "c/liblibc_c.a")
KILLED = "a command was killed, most likely for lack of memory: some 3 GB have to be free"
MINUTES = "three to four minutes if two processors are free"
NOTHING_PROVED = "NOTHING IS PROVED HERE of this program: ./iocm --prove proves it, in some three hours of processor time"
NOTHING_SAID = "run=none proved=no"

CLANG = """#!/bin/sh
PATH=/usr/bin:/bin
for word; do
    case $word in
    *.bc) module=$word ;;
    -fsanitize=*) is_last=yes ;;
    esac
done
[ "$is_last" ] || exec {clang} "$@"
cp "$module" {room}/module.bc && printf '%s\\n' "$@" >{room}/words.new && mv {room}/words.new {room}/words
exit 1
"""


def script(path, text):
    with open(path, "w", encoding="utf-8") as file:
        file.write(text)
    os.chmod(path, stat.S_IRWXU)


def links(source, target, but):
    """A folder with links to all of another, but for those names."""
    os.makedirs(target)
    for name in os.listdir(source):
        if name not in but:
            os.symlink(os.path.join(source, name), os.path.join(target, name))


def stand_in(kit, room):
    """A kit that is the other but for three commands, and its `rt`.

    Of `rt` and its library it has copies, since they find their kit by their real path. `rattle` does nothing:
    `rt try` starts it beside, for a hint on names alone. clang is the one that keeps the module.
    """
    to = os.path.join(room, "kit")
    links(kit.folder, to, ("bin", "toolchain"))
    links(kit.path("bin"), f"{to}/bin", ("rt", "rtlib.py", "rattle"))
    links(kit.path("toolchain"), f"{to}/toolchain", ("bin",))
    links(kit.path("toolchain/bin"), f"{to}/toolchain/bin", ("clang",))
    for name in ("rt", "rtlib.py"):
        if os.path.exists(kit.path(f"bin/{name}")):
            shutil.copy(kit.path(f"bin/{name}"), f"{to}/bin/{name}")
    script(f"{to}/bin/rattle", "#!/bin/sh\nexit 0\n")
    names = {"clang": shlex.quote(kit.path("toolchain/bin/clang")), "room": shlex.quote(room)}
    script(f"{to}/toolchain/bin/clang", CLANG.format(**names))
    return f"{to}/bin/rt"


def text_of(path):
    with open(path, encoding="utf-8", errors="replace") as file:
        return file.read()


def failed(log, status):
    """Why a build ended: what the command said."""
    said = text_of(log).strip()
    if status < 0 or said in ("", NOTHING_SAID):
        said = f"{said}\n{KILLED}".strip()
    return Refused(said)


def module_words(top, kit, room, steps):
    """The words with which clang was to compile the module, which is then in the room."""
    log, temporary = f"{room}/log", f"{room}/tmp"
    os.mkdir(temporary)
    where = {"cwd": f"{top}/crates/iocm", "env": {**os.environ, "TMPDIR": temporary, "PYTHONDONTWRITEBYTECODE": "1"}}
    status = run([stand_in(kit, room), "try", "--steps", "1", "--", "--help"], log, steps.tick, **where)
    if not os.path.exists(f"{room}/words"):
        raise failed(log, status)
    return text_of(f"{room}/words").splitlines()


def makings(kit, words, program):
    """The two commands that make a program of the module: the kit's linker makes objects of what main needs of it, with
    what clang was told of its back end; and these are linked with the kit's libraries."""
    told = [word for pair in zip(words, words[1:]) if pair[0] == "-mllvm" for word in pair]
    where = ["-m", "elf_x86_64", "-pie", "-e", "main", "-u", "main", "--unresolved-symbols=ignore-all"]
    how = ["--lto-O2", f"--lto-partitions={len(OBJECTS)}", f"--threads={len(OBJECTS)}"]
    made = [f"--lto-obj-path={OBJECTS[0]}", "-o", "parts"]
    objects = [kit.path("toolchain/bin/ld.lld"), *where, *how, *told, *made, "module.bc"]
    linked = ["--target", TARGET, "--toolchain", kit.path("toolchain"), "-o", program]
    return objects, [kit.path("bin/rattle-link"), *linked, *OBJECTS, *map(kit.path, LIBRARIES)]


def do(words, room, steps, **how):
    """Runs a command of the build in its room; what it says is why nothing was built, if it fails."""
    log = f"{room}/log-{steps.done}"
    status = run(words, log, steps.tick, cwd=room, **how)
    if status:
        raise failed(log, status)


def build(top, kit, sources, room):
    """The path of a program that was built from the sources in this room."""
    steps = Steps(3)
    say(f"no program of these sources is here yet: building one, once, in {MINUTES}")
    try:
        steps.begin(f"reading {len(sources.crates)} crates and the kit's libraries")
        words = module_words(top, kit, room, steps)
        objects, linked = makings(kit, words, PROGRAM)
        steps.begin("compiling them")
        do(objects, room, steps)
        steps.begin("linking them, and trying the program")
        do(linked, room, steps)
        do([f"{room}/{PROGRAM}", "--help"], room, steps)
    finally:
        steps.end()
    say(f"built in {steps.seconds():.0f} s. {NOTHING_PROVED}")
    return f"{room}/{PROGRAM}"
