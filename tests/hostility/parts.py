"""The parts of tests/hostile: what each needs beside Python and the built program."""
import shutil
from typing import Callable, NamedTuple

from . import calls, files, growths, limits, onlookers, outputs, texts, threads


class Part(NamedTuple):
    """A part by its name, what it tries, and the tools that have to be on the machine for it."""

    name: str
    tried: Callable
    needs: tuple = ()

    def missing(self):
        return [tool for tool in self.needs if not shutil.which(tool)]


PARTS = (
    Part("calls", calls.tried, ("cc",)),
    Part("files", files.tried),
    Part("outputs", outputs.tried),
    Part("growths", growths.tried, ("cc",)),
    Part("threads", threads.tried, ("cc",)),
    Part("limits", limits.tried),
    Part("texts", texts.tried),
    Part("onlookers", onlookers.tried, ("valgrind",)),
)
