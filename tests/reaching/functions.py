"""The functions of Rattle sources: `read(folder, crate)` gives those of all files below a folder."""
import os
import re
from dataclasses import dataclass

FN = re.compile(r"((?:pub(?:\([^)]*\))? )?)(?:const )?(?:unsafe )?fn (\w+)")
CLAUSE = re.compile(r"\s*(?:(?:requires|ensures)\*?\s*(?:\w+\s*)?\{|ghost\s+\w+\s*:\s*\{|decreases\s*\{)")
OWNER = re.compile(r"(?m)^ *(?:pub )?(?:unsafe )?(impl|trait)\b")
NO_CODE = re.compile(r'//[^\n]*|b?"(?:[^"\\]|\\.)*"|b?\'(?:[^\'\\\n]|\\.)\'', re.S)
IMPORTS = re.compile(r"(?m)^ *(?:ghost |pub )?use [^;]*;")


@dataclass(eq=False)
class Function:
    """A function: where it is, the type that owns it, what it answers, and its text from the body on."""

    crate: str
    file: str
    line: int
    owner: str
    name: str
    is_public: bool
    is_test: bool
    answer: str
    body: str

    def label(self):
        return f"{self.crate}/{self.file}:{self.line}: {self.owner + '::' if self.owner else ''}{self.name}"

    def can_give_up(self):
        return "Result<" in self.answer

    def is_law(self):
        return not self.body.strip("{} \n") and "->" not in self.answer


def blanked(text):
    """The text with comments, strings and characters as blanks, at the same places."""
    return NO_CODE.sub(lambda it: re.sub(r"[^\n]", " ", it[0]), text)


def after(text, at, pair="{}"):
    """The place after the bracket that closes the one at this place."""
    depth = 0
    for place in range(at, len(text)):
        if text[place] == pair[0]:
            depth += 1
        elif text[place] == pair[1]:
            depth -= 1
            if not depth:
                return place + 1
    return len(text)


def owners_in(text):
    """Where impls and traits are, and of which type they are."""
    found = []
    for at in OWNER.finditer(text):
        begin = text.find("{", at.end())
        head = text[at.end() : begin]
        while re.search(r"<[^<>]*>", head):
            head = re.sub(r"<[^<>]*>", "", head)
        head = head.split(" for ")[-1] if at[1] == "impl" else head
        names = re.findall(r"\w+", re.split(r"\bwhere\b|:", head)[0])
        found.append((begin, after(text, begin), names[0] if names else ""))
    return found


def body_at(text, at):
    """Where the answer of a function begins whose name ends here, and its body, and where that ends."""
    answer = after(text, text.find("(", at), "()")
    begin = answer
    while begin < len(text):
        clause = CLAUSE.match(text, begin)
        if clause:
            begin = after(text, clause.end() - 1)
        elif text[begin] in "{;":
            break
        else:
            begin += 1
    return answer, begin, after(text, begin) if text[begin : begin + 1] == "{" else begin


def functions_in(crate, file, source):
    """The functions of a source. What constants outside of them call, each of them is taken to call."""
    text, found, outside, last = blanked(source), [], [], 0
    owners = owners_in(text)
    for at in FN.finditer(text):
        answer, begin, end = body_at(text, at.end())
        owner = next((it[2] for it in reversed(owners) if it[0] <= at.start() < it[1]), "")
        is_test = "#[test]" in source[max(0, at.start() - 60) : at.start()]
        said = re.split(r"\brequires\b|\bensures\b|\bghost\b", text[answer:begin])[0]
        line = text.count("\n", 0, at.start()) + 1
        found.append(Function(crate, file, line, owner, at[2], at[1].strip() == "pub", is_test, said, text[begin:end]))
        outside.append(text[last : at.start()])
        last = max(last, end)
    rest = IMPORTS.sub("", "".join([*outside, text[last:]]))
    if re.search(r"\b(?:const|static)\b", rest):
        for it in found:
            it.body += rest
    return found


def read(folder, crate):
    """The functions of all sources below a folder."""
    found = []
    for at, folders, names in os.walk(folder):
        folders.sort()
        for name in sorted(names):
            if name.endswith((".rt", ".rt.txt")):
                with open(os.path.join(at, name), encoding="utf-8") as file:
                    found += functions_in(crate, os.path.relpath(os.path.join(at, name), folder), file.read())
    return found
