"""The sources below crates/, and which of them aren't in the layout:
`told(top)` prints these, `write(top)` lays them out."""
import os
import subprocess
from concurrent.futures import ThreadPoolExecutor

from building.sources import gather

FOLDERS = ("src", "specs", "proofs")
ENDINGS = (".rt", ".antt")
AT_ONCE = 200
FORMATTER = "rattle"


def sources(top):
    """The .rt and .antt files of all crates, by path from the top."""
    found = []
    for crate in os.listdir(os.path.join(top, "crates")):
        for folder in (os.path.join(top, "crates", crate, name) for name in FOLDERS):
            if os.path.isdir(folder):
                gather(found, folder, ENDINGS)
    return sorted(os.path.relpath(path, top) for path, _ in found)


def faults_of(top, flag, files):
    """What `rattle fmt` says is wrong with some files, by file. If it fails itself, each of them is at fault."""
    how = {"stdin": subprocess.DEVNULL, "stdout": subprocess.DEVNULL, "stderr": subprocess.PIPE}
    ran = subprocess.run([FORMATTER, "fmt", flag, *files], cwd=top, text=True, errors="replace", **how)
    said = ran.stderr.splitlines()
    found = {file: line for line in said for file in files if line.startswith((f"{file} ", f"{file}: "))}
    if ran.returncode == (1 if found else 0):
        return found
    return dict.fromkeys(files, f"{FORMATTER} fmt ended with status {ran.returncode}: {ran.stderr.strip()}")


def faults(top, flag, files):
    """The same of many files, side by side."""
    parts = [files[at : at + AT_ONCE] for at in range(0, len(files), AT_ONCE)]
    with ThreadPoolExecutor(len(os.sched_getaffinity(0))) as pool:
        found = pool.map(lambda part: faults_of(top, flag, part), parts)
        return {file: line for part in found for file, line in part.items()}


def write(top):
    """Lays all sources out; one that is in the layout stays as it is."""
    faults(top, "--write", sources(top))


def told(top):
    """Prints what is wrong, and the counts; the exit status."""
    files = sources(top)
    found = faults(top, "--check", files)
    for line in dict.fromkeys(found.values()):
        print(line)
    print(f"layout: {len(files) - len(found)} passed, {len(found)} failed")
    return 1 if found or not files else 0
