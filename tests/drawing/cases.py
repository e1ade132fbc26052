"""A case: what was drawn under one number, the runs of the program on it, and what is wrong with them."""
import os

from .lines import HOW_OFTEN, fault_of_lines, is_in_lines
from .places import said_places, shown_line
from .shapes import fault_of_form, fault_of_remark, kind_of

DONE, REFUSED = 0, 1
STANDARD_INPUT = 0.04  # how often a file is standard input
LARGEST_HEAP = ("--heap", "16777216")


class Case:
    """The files and the runs of a case. A property is tried by `need`, which keeps what is wrong.
    Of a deck all commands are tried, or `check` alone."""

    def __init__(self, program, tally, dice, is_check_alone=False):
        self.program, self.tally, self.dice, self.is_check_alone = program, tally, dice, is_check_alone
        self.files, self.runs, self.faults = {}, [], []

    def put(self, name, data):
        """Writes a file of the case."""
        self.files[name] = data
        self.program.write(name, data)

    def run(self, *words, quiet=None):
        """Runs the program. The answer ends in time, with a status of its kind, and is of its form."""
        quiet = self.dice.random() < 0.5 if quiet is None else quiet
        source = ""
        if self.dice.random() < STANDARD_INPUT:
            place = self.dice.choice([place for place, word in enumerate(words) if word in self.files])
            source, words = words[place], words[:place] + ("-",) + words[place + 1 :]
        answer = self.program.run(*words, *(["--quiet"] if quiet else []), source=source)
        self.runs.append(answer)
        self.tally.answer(kind_of(words), answer)
        if not self.need("time", answer.status is not None, f"no end in {self.program.longest} seconds"):
            return answer
        wanted = REFUSED if answer.out.startswith(b"refused ") else DONE
        if self.need("status", answer.status == wanted, f"status {answer.status}, wanted {wanted}"):
            wrong = fault_of_form(answer)
            self.need("form", not wrong, wrong)
            wrong = "" if wrong else fault_of_remark(answer)
            self.need("remark", not wrong, wrong)
            if is_in_lines(words) and self.dice.random() < HOW_OFTEN:
                self.try_lines(words, source, answer)
        return answer

    def try_lines(self, words, source, answer):
        """Lines of JSON say what the text says, with the same status."""
        lines = self.program.run(*words, "--json", "--quiet", source=source)
        wrong = fault_of_lines(words, lines.out, answer.out)
        is_right = lines.status == answer.status and not wrong
        self.need("lines", is_right, f"with --json: status {lines.status}: {wrong}")

    def run_only(self, *words, full=False):
        """Runs the program on words that it can't do; its output may be a full device."""
        answer = self.program.run(*words, full=full)
        self.runs.append(answer)
        self.tally.answer(" ".join(words[:1]), answer)
        self.need("time", answer.status is not None, f"no end in {self.program.longest} seconds")
        return answer

    def need(self, name, is_right, text=""):
        """Tries a property; of what is wrong it keeps the name, the last command and a text."""
        self.tally.tried[name] += 1
        if not is_right:
            words = " ".join(self.runs[-1].words) if self.runs else ""
            self.faults.append((name, f"{words}: {text}"))
        return is_right

    def agree(self, name, got, wanted):
        """Tries whether two texts are the same."""
        return self.need(name, got == wanted, f"printed {clipped(got)}, wanted {clipped(wanted)}")

    def place(self, answer, file, place):
        """Standard error names the file and the line from which a refusal comes, and shows the line."""
        if "--quiet" in answer.words or answer.status != REFUSED:
            return
        name = "standard input" if answer.source == file else file
        self.agree("place", said_places(answer.said)[:1], [(name, place)])
        shown = shown_line(self.files[file], place)
        self.need("line shown", shown in answer.said.decode("latin-1"), f"no {shown!r} in {answer.said[:300]!r}")

    def keep(self, folder):
        """Keeps the files of the case, and what each run answered."""
        os.makedirs(folder, exist_ok=True)
        for name, data in self.files.items():
            with open(os.path.join(folder, name), "wb") as file:
                file.write(data)
        with open(os.path.join(folder, "runs"), "wb") as file:
            for answer in self.runs:
                source = f" < {answer.source}" if answer.source else ""
                head = f"== {' '.join(answer.words)}{source}\nstatus {answer.status}\n"
                file.write(head.encode() + answer.out + answer.said)


def clipped(text):
    """The beginning of a text, or of what is different in lists of lines."""
    return repr(text if len(repr(text)) < 600 else str(text)[:600])
