"""What the measuring programs of `bench/tables`, `bench/edits` and `bench/calls` share:
how they are built, run and read."""
import os
import shutil
import statistics
import subprocess
import sys

TOP = os.path.dirname(os.path.dirname(os.path.abspath(__file__)))
sys.path.insert(0, TOP)
from building.crates_list import needed


def run_rt(words, folder):
    ran = subprocess.run(["rt"] + words, cwd=folder, capture_output=True, text=True, stdin=subprocess.DEVNULL)
    if ran.returncode:
        sys.exit(f"{sys.argv[0]}: rt {' '.join(words)} in {folder}:\n{ran.stdout[-2000:]}{ran.stderr[-2000:]}")


def copy_program(program, home):
    """Copies a measuring program to its home, without the `.txt` that keeps `rt ci` from taking its
    files for stray ones."""
    source = os.path.join(TOP, "bench", f"{program}-program")
    for folder, _, names in os.walk(source):
        target = os.path.join(home, os.path.relpath(folder, source))
        os.makedirs(target, exist_ok=True)
        for name in names:
            shutil.copy(os.path.join(folder, name), os.path.join(target, name.removesuffix(".txt")))


def built(room, program, stands_on, words, shared=None):
    """Proves and builds a measuring program in a copy of the crates that it stands on, and runs it with these words;
    the path of what was built. It may share files with another program, which is named first."""
    below = needed(TOP, stands_on)
    for crate in below:
        run_rt(["lib"], os.path.join(TOP, "crates", crate))

    def left_out(folder, names):
        if os.path.basename(folder) == "out":
            return [name for name in names if name != "rlib"]
        return [name for name in names if name == "edits.txt"]

    for crate in below:
        shutil.copytree(os.path.join(TOP, "crates", crate), os.path.join(room, "crates", crate), ignore=left_out)
    home = os.path.join(room, "crates", program)
    copy_program(program, home)
    other, files = shared or (program, ())
    for name in files:
        source = os.path.join(TOP, "bench", f"{other}-program", "src", f"{name}.rt.txt")
        shutil.copy(source, os.path.join(home, "src", f"{name}.rt"))
    shutil.copy(os.path.join(TOP, "HANDLES"), room)
    with open(os.path.join(room, "crates.txt"), "w", encoding="utf-8") as file:
        file.writelines(below.values())
        file.write(f"{program}: {' '.join(stands_on)}\n")
    run_rt(["run", "--"] + words, home)
    return os.path.join(home, "out", program)


def printed(binary, words):
    """The lines that a measuring program prints, each as its words."""
    ran = subprocess.run([binary] + words, capture_output=True, text=True, stdin=subprocess.DEVNULL)
    if ran.returncode:
        sys.exit(f"{sys.argv[0]}: {' '.join(words)}: status {ran.returncode}: {ran.stdout[-200:]}{ran.stderr[-200:]}")
    return [line.split() for line in ran.stdout.splitlines() if line.strip()]


def memory(lines, name):
    """What Linux says of the memory of a process under this name, each time that it was printed (bytes)."""
    return [int(words[1]) * 1024 for words in lines if words[0] == f"{name}:"]


def medians(taken):
    """The median of the times of each step."""
    return {step: statistics.median(times) for step, times in taken.items()}
